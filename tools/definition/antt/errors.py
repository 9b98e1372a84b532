"""The one kind of error that the translator raises about a text."""

from contextlib import contextmanager
from pathlib import Path


class AnttError(Exception):
    """Something in an antt file that the translator does not read or can't find. `where` is FILE:LINE:COLUMN."""

    def __init__(self, message, where=None):
        super().__init__(message)
        self.message = message
        self.where = where

    def __str__(self):
        if not self.where:
            return self.message
        return f"{self.where}: {self.message}" + source_line(self.where)


def source_line(where):
    """The line itself, so that whoever reads the error sees the form."""
    try:
        file, line, _ = where.rsplit(":", 2)
        text = Path(file).read_text(encoding="utf-8").split("\n")[int(line) - 1]
    except (OSError, ValueError, IndexError):
        return ""
    return f"\n    {text.strip()}"


@contextmanager
def located(where):
    """Errors from inside get a place, if they have none. A fault of the translator itself is told as one of this place's form."""
    try:
        yield
    except AnttError as error:
        error.where = error.where or where
        raise
    except (AssertionError, AttributeError, IndexError, KeyError, RecursionError, TypeError, ValueError) as fault:
        raise AnttError(f"the translator does not take this form ({type(fault).__name__}: {fault})", where) from fault

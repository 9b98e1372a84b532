"""A stack for long tables: each entry of a list is a level of its term."""

import sys
import threading

STACK = 1 << 29


def deeply(work):
    """What `work()` gives or raises."""
    results = []

    def run():
        try:
            results.append((work(), None))
        except BaseException as error:  # handed to the thread that waits
            results.append((None, error))

    sys.setrecursionlimit(1 << 20)
    threading.stack_size(STACK)
    thread = threading.Thread(target=run)
    thread.start()
    thread.join()
    value, error = results[0]
    if error is not None:
        raise error
    return value

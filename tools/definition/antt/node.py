"""Running node on a stack that holds the deepest recursion: a list of 32,768 bytes, walked by functions that are no loops."""

import os
import resource
import subprocess

# V8 counts its stack's bytes in 31 bits.
STACK = 2 << 30
# What V8 may use of it, in KiB: the rest is for V8 itself.
NODE = ["node", f"--stack-size={(STACK - (64 << 20)) >> 10}", "--max-old-space-size=4096"]


def grow_stack():
    _, hard = resource.getrlimit(resource.RLIMIT_STACK)
    wanted = STACK if hard == resource.RLIM_INFINITY else min(STACK, hard)
    resource.setrlimit(resource.RLIMIT_STACK, (wanted, hard))


def replace_by_node(file, arguments):
    grow_stack()
    os.execvp("node", NODE + [str(file), *arguments])


def output_of(text):
    """What a program prints."""
    done = subprocess.run(NODE + ["-"], input=text, text=True, capture_output=True, preexec_fn=grow_stack)
    if done.returncode != 0:
        raise RuntimeError(done.stderr[-2000:])
    return done.stdout

"""Finds out whose allocation failed: a deque's push, a thread's start, or other code."""

import bisect
import os
import subprocess

# A program's own code allocates with these functions alone, except for the start of a thread.
ALLOCATING = ("rattle_alloc", "rattle_realloc")
PUSH, START, OTHER = "a deque's push", "a thread's start", "other code"


class Functions:
    """The functions of a built program, in the order of their addresses."""

    def __init__(self, program):
        words = ("nm", "--defined-only", "--numeric-sort", program)
        listed = subprocess.run(words, capture_output=True, check=True, text=True).stdout
        rows = (line.split(maxsplit=2) for line in listed.splitlines())
        functions = [(int(address, 16), name) for address, kind, name in rows if kind in "tT"]
        self.program = os.path.realpath(program)
        self.addresses = [address for address, _ in functions]
        self.names = [name for _, name in functions]

    def name_at(self, address):
        """The name of the function that an address is in."""
        return self.names[bisect.bisect_right(self.addresses, address) - 1]


def callers_in(text, functions):
    """The callers in a text that the library wrote, the innermost first, without the library
    itself.

    Each caller is whether it is a function of the program, and its name."""
    callers = []
    for loaded, distance, name in (line.rsplit(maxsplit=2) for line in text.splitlines()):
        is_own = os.path.realpath(loaded) == functions.program
        if not loaded.endswith("fail_allocations.so"):
            # a call may be the last instruction of its function: the address after it is in the
            # next
            callers.append((is_own, functions.name_at(int(distance, 16) - 1) if is_own else name))
    return callers


def requester(text, functions):
    """Who made the allocation whose callers are in a text."""
    callers = callers_in(text, functions)
    (is_own, name), *others = callers
    if (False, "pthread_create") in callers or (is_own and name not in ALLOCATING):
        return START
    caller = others[0][1] if others else ""
    is_push = caller.startswith("crossbeam_deque::worker::Worker") and "::push::" in caller
    return PUSH if is_push else OTHER

"""Runs a command, and prints its exit, its seconds and its peak of memory in KiB. What the command
prints is dropped.

A process begins with the memory of its parent. So this one is run by `python3 -I -S`, and imports
little."""

import posix
import sys
import time

QUIET = ((posix.POSIX_SPAWN_OPEN, 1, "/dev/null", posix.O_WRONLY, 0),)


def main():
    words = sys.argv[1:]
    begin = time.perf_counter()
    process = posix.posix_spawnp(words[0], words, posix.environ, file_actions=QUIET)
    _, status, usage = posix.wait4(process, 0)
    seconds = time.perf_counter() - begin
    print(posix.waitstatus_to_exitcode(status), seconds, usage.ru_maxrss)


if __name__ == "__main__":
    main()

"""Builds, runs and measures programs."""

import dataclasses
import functools
import os
import pathlib
import resource
import signal
import subprocess
import time

from tests.harness.outcomes import Outcome

ROOT = pathlib.Path(__file__).resolve().parents[2]


def program_path(crate):
    """The program that is built in a crate."""
    return ROOT / "crates" / crate / "out" / crate


def tests_path(crate):
    """The program that runs the tests of a crate."""
    return ROOT / "crates" / crate / "out" / f"{crate}_tests"


SQZCOMPACT, SQZLOOK = program_path("sqzcompact"), program_path("sqzlook")
# The time limit of a run in seconds: then it is killed, and its test fails.
SECONDS = 60


@dataclasses.dataclass(frozen=True)
class Limits:
    """Limits of a run, sizes in bytes. None is no limit."""

    memory: int | None = None
    stack: int | None = None
    file_size: int | None = None
    processors: int | None = None
    user: int | None = None

    def apply(self):
        """Sets the limits in the process that becomes the program."""
        if self.processors is not None:
            os.sched_setaffinity(0, sorted(os.sched_getaffinity(0))[: self.processors])
        if self.file_size is not None:
            # A write past the limit then fails instead of killing the process.
            signal.signal(signal.SIGXFSZ, signal.SIG_IGN)
        for kind, limit in (
            (resource.RLIMIT_STACK, self.stack),
            (resource.RLIMIT_FSIZE, self.file_size),
            (resource.RLIMIT_AS, self.memory),
        ):
            if limit is not None:
                resource.setrlimit(kind, (limit, limit))
        if self.user is not None:
            os.setgroups([])
            os.setgid(self.user)
            os.setuid(self.user)


def run(
    program, args, *, stdin=None, stdout=None, env=None, limits=None, timeout=SECONDS, folder=None
):
    """Runs a program in a folder, and returns how it ended.

    `stdin` has the bytes of standard input, `env` additional variables, and `stdout` a file that
    takes the place of the captured output. Raises `TimeoutExpired` after `timeout` seconds."""
    ended = subprocess.run(
        [program, *args],
        input=stdin,
        stdin=subprocess.DEVNULL if stdin is None else None,
        stdout=subprocess.PIPE if stdout is None else stdout,
        stderr=subprocess.PIPE,
        env={**os.environ, **(env or {})},
        preexec_fn=limits and limits.apply,
        timeout=timeout,
        cwd=folder,
        check=False,
    )
    return Outcome(ended.returncode, ended.stdout or b"", ended.stderr)


@dataclasses.dataclass(frozen=True)
class Measured:
    """How a run ended, its seconds, and its peak of memory in bytes."""

    status: int
    seconds: float
    peak: int


def measured(command, stdout=None):
    """Runs a command, and measures it.

    A process begins with the memory of its parent, so the peak is at least that of this process."""
    begin = time.perf_counter()
    process = subprocess.Popen(command, stdout=stdout)
    _, status, usage = os.wait4(process.pid, 0)
    seconds = time.perf_counter() - begin
    process.returncode = os.waitstatus_to_exitcode(status)
    return Measured(process.returncode, seconds, 1024 * usage.ru_maxrss)


@functools.cache
def build(*programs):
    """Builds programs of the workspace if their sources changed."""
    subprocess.run([ROOT / "build", *programs], check=True)

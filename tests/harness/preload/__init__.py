"""Runs programs with a library for LD_PRELOAD that fails or counts their calls."""

import itertools
import os
import pathlib
import struct
import subprocess
import tempfile
import unittest

from tests.harness.allocation_callers import requester
from tests.harness.program_checks import ProgramTest

FOLDER = pathlib.Path(__file__).resolve().parent


def compiled(name, folder):
    """The library built from a C file of this folder. Skips the test without a C compiler, except
    in CI, where the test fails."""
    library = pathlib.Path(folder) / f"{name}.so"
    try:
        subprocess.run(["cc", "-shared", "-fPIC", "-o", library, FOLDER / f"{name}.c"], check=True)
    except FileNotFoundError as missing:
        if os.environ.get("CI"):
            raise
        raise unittest.SkipTest("no C compiler") from missing
    return library


class PreloadTest(ProgramTest):
    """A test that runs programs with one of the libraries."""

    @classmethod
    def setUpClass(cls):
        super().setUpClass()
        libraries = tempfile.TemporaryDirectory()
        cls.addClassCleanup(libraries.cleanup)
        cls.fail_calls = compiled("fail_calls", libraries.name)
        cls.fail_allocations = compiled("fail_allocations", libraries.name)

    def run_with(self, library, program, *args, **variables):
        """Runs a program in the folder of this test, with numbers in the library's variables."""
        for name in ("failed", "failures", "callers", "counted"):
            (self.folder / name).unlink(missing_ok=True)
        env = {"LD_PRELOAD": str(library)}
        env.update((name.upper(), str(value)) for name, value in variables.items())
        return self.run_here(program, *args, env=env)

    def counts(self, name):
        """The words of 64 bits in a file that a library wrote."""
        return [count for (count,) in struct.iter_unpack("q", self.read(name))]

    def has_failed(self):
        """Whether the library failed a read, a write or an allocation of the last run."""
        failures = self.folder / "failures"
        has_failures = failures.exists() and any(self.counts("failures"))
        return has_failures or (self.folder / "failed").exists()

    def failing(self, library, program, *args, failure="first_failed", **variables):
        """The outcomes of runs with failure 1, 2 and so on, as long as there is one."""
        for number in itertools.count(1):
            outcome = self.run_with(library, program, *args, **{failure: number}, **variables)
            if not self.has_failed():
                return
            yield outcome

    def requester(self, functions):
        """Who made the allocation that failed in the last run, by the functions of the program."""
        return requester(self.read("callers").decode(), functions)

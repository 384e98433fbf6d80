"""Reads all mutants, without a proof: each one still applies to the sources as they are. Runs
`bench/kill_mutants` in a small checkout, with a stand-in for `rt`."""

import collections
import os
import pathlib
import re
import shutil
import sys
import tempfile
import unittest

from tests.harness.programs import ROOT, run

# How many mutants the full check tries at most.
MOST = 90
# Crates of views and of command lines: the full check tries no mutant of them.
LEFT_OUT = re.compile(r"sqz_look.*|sqz_cli|sqz_compact_args")
# The names that `rt must-fail` reads.
NAME = re.compile(r"[A-Za-z0-9_-][A-Za-z0-9_.-]*\.edit")
PATH = re.compile(r"(src|specs|proofs)(/[^/.][^/]*)+\.(rt|antt)")


def in_crates():
    """The mutants that the full check tries, in the folders of their crates."""
    return sorted(ROOT.glob("crates/*/must-fail/*"))


def by_hand():
    """The mutants that `bench/kill_mutants` tries."""
    return sorted(ROOT.glob("mutants/*/*"))


def crate_of(mutant):
    return mutant.relative_to(ROOT).parts[1]


def changed_texts(mutant):
    """The files that a mutant changes, each with its text before and after."""
    path, old, before, after = None, None, {}, {}
    for line in mutant.read_text(encoding="utf-8").splitlines():
        if line.startswith("file: "):
            path = line.removeprefix("file: ").strip()
            if not PATH.fullmatch(path):
                raise ValueError(f"{path} is no file of src/, specs/ or proofs/")
            if path not in after:
                file = ROOT / "crates" / crate_of(mutant) / path
                before[path] = after[path] = file.read_text(encoding="utf-8")
        elif line.startswith("old: "):
            old = line.removeprefix("old: ")
        elif line.startswith("new:"):
            new = line.removeprefix("new:").removeprefix(" ")
            if path is None or old is None:
                raise ValueError("a line `new:` has no `file:` or `old:` before it")
            if old == new:
                raise ValueError(f"old and new are the same: {old}")
            if after[path].count(old) != 1:
                raise ValueError(f"not once in {path}: {old}")
            after[path] = after[path].replace(old, new)
            old = None
        elif line.strip():
            raise ValueError(f"not read: {line}")
    if before == after or old is not None:
        raise ValueError("it changes nothing, or a line `old:` has no `new:` after it")
    return before, after


class MutantsTest(unittest.TestCase):
    """Each mutant can be applied, and changes its crate as no other mutant does."""

    def test_applies(self):
        made = {}
        for mutant in in_crates() + by_hand():
            with self.subTest(mutant=str(mutant.relative_to(ROOT))):
                _, after = changed_texts(mutant)
                text = (crate_of(mutant), *sorted(after.items()))
                self.assertNotIn(text, made, "this mutant makes the same text")
                made[text] = mutant.name

    def test_has_a_name_of_its_own(self):
        names = collections.Counter((crate_of(it), it.name) for it in in_crates() + by_hand())
        self.assertEqual([name for name, count in names.items() if count > 1], [])
        self.assertEqual([name for _, name in names if not NAME.fullmatch(name)], [])

    def test_is_of_a_crate(self):
        lines = (ROOT / "crates.txt").read_text(encoding="utf-8").splitlines()
        crates = {line.partition(":")[0] for line in lines}
        self.assertLessEqual({path.name for path in (ROOT / "mutants").iterdir()}, crates)

    def test_few_are_tried_at_each_full_check(self):
        self.assertLessEqual(len(in_crates()), MOST)
        crates = {crate_of(mutant) for mutant in in_crates()}
        self.assertEqual(sorted(filter(LEFT_OUT.fullmatch, crates)), [])


class KillMutantsTest(unittest.TestCase):
    """The stand-in for `rt` refuses the mutants whose names have the word `bad`."""

    RT = """
import pathlib, sys
_, verb, crate = sys.argv
folder = pathlib.Path("crates", crate)
kept = sorted(path.name for path in (folder / "out").iterdir())
if verb != "must-fail" or kept != ["incremental"] or not (folder / "src" / "lib.rt").exists():
    sys.exit("wrong call")
for path in sorted((folder / "must-fail").iterdir()):
    verdict = "refused, as it must be: no" if "bad" in path.name else "NOT REFUSED: proved"
    print(f"rt: must-fail {crate}/{path.name}: {verdict}")
"""

    def setUp(self):
        temporary = tempfile.TemporaryDirectory()
        self.addCleanup(temporary.cleanup)
        self.top = pathlib.Path(temporary.name)
        for name in ("crates.txt", "HANDLES", "bin/rt", "crates/sqz_plain/src/lib.rt"):
            self.write(name)
        for crate in ("sqz_low", "sqz_high"):
            self.write(f"crates/{crate}/src/lib.rt")
            self.write(f"crates/{crate}/out/incremental/kept")
            self.write(f"crates/{crate}/out/{crate}")
        self.write("crates/sqz_low/must-fail/bad_one.edit")
        self.write("mutants/sqz_low/bad_two.edit")
        self.write("mutants/sqz_high/bad_one.edit")
        self.write("bin/rt", f"#!{sys.executable}\n{self.RT}").chmod(0o755)
        (self.top / "bench").mkdir()
        shutil.copy2(ROOT / "bench" / "kill_mutants", self.top / "bench")

    def write(self, name, text=""):
        path = self.top / name
        path.parent.mkdir(parents=True, exist_ok=True)
        path.write_text(text, encoding="utf-8")
        return path

    def assert_ends(self, crates, status, *lines):
        path = f"{self.top / 'bin'}{os.pathsep}{os.environ['PATH']}"
        outcome = run(self.top / "bench" / "kill_mutants", crates, env={"PATH": path})
        printed = outcome.stdout.decode().splitlines()
        self.assertEqual((outcome.status, printed), (status, list(lines)), outcome.stderr)
        return outcome

    def test_tries_those_of_both_places(self):
        outcome = self.assert_ends(
            [],
            0,
            "sqz_high: 1 refused, 0 not refused",
            "sqz_low: 2 refused, 0 not refused",
            "3 refused, 0 not refused",
        )
        self.assertTrue(outcome.stderr.startswith(b"3 mutants, 25 to 40 s of "))

    def test_prints_why_each_is_refused(self):
        self.assert_ends(
            ["--why", "sqz_high"],
            0,
            "sqz_high/bad_one.edit: refused, as it must be: no",
            "sqz_high: 1 refused, 0 not refused",
            "1 refused, 0 not refused",
        )

    def test_prints_those_that_are_not_refused(self):
        self.write("mutants/sqz_low/good.edit")
        self.assert_ends(
            ["sqz_low"],
            1,
            "sqz_low/good.edit: NOT REFUSED: proved",
            "sqz_low: 2 refused, 1 not refused",
            "2 refused, 1 not refused",
        )

    def test_fails_without_a_verdict(self):
        self.write("crates/sqz_low/out/rlib/other")
        self.assert_ends(
            ["sqz_low"],
            1,
            "wrong call",
            "sqz_low: 0 refused, 2 not refused",
            "0 refused, 2 not refused",
        )

    def test_knows_no_other_crate(self):
        outcome = self.assert_ends(["sqz_plain"], 2)
        self.assertTrue(outcome.stderr.endswith(b"error: no mutants of sqz_plain\n"))

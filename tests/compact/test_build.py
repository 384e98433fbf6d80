"""Runs `build` in a small checkout, with a stand-in for `rt` that notes what it is to build and
proves nothing."""

import importlib.machinery
import importlib.util
import os
import pathlib
import shutil
import sys
import tempfile
import unittest

from tests.harness.outcomes import SUCCESS
from tests.harness.programs import ROOT, run

SIDES = ["sqz_left", "sqz_middle", "sqz_right"]
RT = """
import pathlib, sys
folder = pathlib.Path.cwd()
top, name = folder.parents[1], folder.name
with open(pathlib.Path(sys.argv[0]).parent / "notes", "a", encoding="utf-8") as notes:
    print(name, sys.argv[1], file=notes)
lines = (top / "crates.txt").read_text(encoding="utf-8").splitlines()
for below in (line.partition(":")[0] for line in lines):
    library = top / "crates" / below / "out" / "rlib" / below
    if below != name and not library.exists():
        sys.exit(f"{below} is missing")
if "wrong" in (folder / "src" / "lib.rt").read_text(encoding="utf-8"):
    sys.exit("not proved")
made = folder / "out" / (name if sys.argv[1] == "run" else f"rlib/{name}")
made.parent.mkdir(parents=True, exist_ok=True)
made.write_text("", encoding="utf-8")
"""


class CheckoutTest(unittest.TestCase):
    """Has a checkout of these crates."""

    crates = {"sqz_low": "byteorder", "sqz_high": "sqz_low", "sqzcompact": "sqz_low sqz_high"}

    def setUp(self):
        temporary = tempfile.TemporaryDirectory()
        self.addCleanup(temporary.cleanup)
        self.top = pathlib.Path(temporary.name, "top")
        self.tools = pathlib.Path(temporary.name, "tools")
        self.tools.mkdir()
        program = self.tools / "rt"
        program.write_text(f"#!{sys.executable}\n{RT}", encoding="utf-8")
        program.chmod(0o755)
        for crate in self.crates:
            (self.top / "crates" / crate / "src").mkdir(parents=True)
            self.edit(crate, "right")
        lines = [f"{crate}: {below}\n" for crate, below in self.crates.items()]
        (self.top / "crates.txt").write_text("".join(lines), encoding="utf-8")
        for name in ("build", "HANDLES"):
            shutil.copy2(ROOT / name, self.top)

    def edit(self, crate, text):
        (self.top / "crates" / crate / "src" / "lib.rt").write_text(text, encoding="utf-8")

    def build(self, *words):
        """Runs the script. Returns how it ended, and each crate that was to be built, and how."""
        notes = self.tools / "notes"
        notes.unlink(missing_ok=True)
        path = f"{self.tools}{os.pathsep}{os.environ['PATH']}"
        outcome = run(self.top / "build", words or ["sqzcompact"], env={"PATH": path})
        lines = notes.read_text(encoding="utf-8").splitlines() if notes.exists() else []
        return outcome, [tuple(line.split()) for line in lines]

    def assert_builds(self, expected):
        outcome, built = self.build()
        self.assertEqual(outcome.status, SUCCESS.status, outcome.stderr)
        self.assertEqual(built, expected)
        return outcome


class BuildTest(CheckoutTest):
    """Each crate is built after those below it."""

    def test_builds_each_crate_after_those_below_it(self):
        outcome = self.assert_builds(
            [("sqz_low", "lib"), ("sqz_high", "lib"), ("sqzcompact", "run")]
        )
        self.assertTrue(outcome.stderr.startswith(b"first build: proves 3 crates, about 1 minute"))
        self.assertTrue((self.top / "crates/sqzcompact/out/sqzcompact").exists())

    def test_says_how_far_it_is(self):
        self.edit("sqz_high", "right\n" * 1000)
        outcome, _ = self.build()
        _, *lines = outcome.stderr.decode().splitlines()
        self.assertEqual(
            lines,
            [
                "[1/3] sqz_low (0 min, about 5 left)",
                "[2/3] sqz_high (0 min, about 5 left)",
                "[3/3] sqzcompact (0 min, about 1 left)",
            ],
        )

    def test_builds_again_after_an_edit_only(self):
        self.build()
        self.assert_builds([])
        self.edit("sqz_high", "right again")
        outcome = self.assert_builds(
            [("sqz_low", "lib"), ("sqz_high", "lib"), ("sqzcompact", "run")]
        )
        self.assertNotIn(b"first build", outcome.stderr)

    def test_says_which_crate_failed_and_why(self):
        self.edit("sqz_high", "wrong")
        outcome, built = self.build()
        self.assertEqual(outcome.status, 1)
        self.assertTrue(outcome.stderr.endswith(b"not proved\nbuild: sqz_high failed\n"))
        self.assertEqual(built, [("sqz_low", "lib"), ("sqz_high", "lib")])
        self.assertFalse((self.top / "crates/sqzcompact/out/sqzcompact").exists())

    def test_names_the_programs_if_a_word_names_none(self):
        outcome, built = self.build("nonsense")
        self.assertEqual((outcome.status, outcome.stdout, built), (2, b"", []))
        line = outcome.stderr.splitlines()[-1]
        self.assertIn(b"no program nonsense: choose from sqzcompact, sqzlook, ", line)
        self.assertNotIn(b"[]", line)


class PlanTest(CheckoutTest):
    """Three crates use one, and a program uses these."""

    crates = {
        "sqz_low": "byteorder",
        **dict.fromkeys(SIDES, "sqz_low"),
        "sqzcompact": f"sqz_low {' '.join(SIDES)}",
    }

    def plan(self, at_once):
        """The plan of the script to build that many crates at once."""
        loader = importlib.machinery.SourceFileLoader("build", str(self.top / "build"))
        script = importlib.util.module_from_spec(importlib.util.spec_from_loader("build", loader))
        loader.exec_module(script)
        return script.Plan(script.crates_below(["sqzcompact"]), at_once)

    def test_gives_one_job_to_each_of_three(self):
        processors = len(os.sched_getaffinity(0))
        plan = self.plan(4)
        self.assertEqual(plan.jobs_for_each(), processors)
        plan.start("sqz_low")
        plan.built.add("sqz_low")
        for number, crate in enumerate(SIDES):
            with self.subTest(started=number):
                self.assertEqual(plan.jobs_for_each(), 1)
                plan.start(crate)
        plan.built.add("sqz_left")
        self.assertEqual(plan.jobs_for_each(), max(1, processors // 2))
        plan.built.add("sqz_middle")
        self.assertEqual(plan.jobs_for_each(), processors)

    def test_estimates_the_longest_chain_or_all(self):
        for crate in self.crates:
            self.edit(crate, "right\n\n// right\n" * 1000)
        # A line takes 0.29 s, and the program 0.036 s for each line of the four crates below it.
        program = 290 + 4 * 36
        for at_once, seconds in ((1, 4 * 290 + program), (2, 2 * 290 + program)):
            with self.subTest(at_once=at_once):
                self.assertAlmostEqual(self.plan(at_once).seconds_left(), seconds, 0)

    def test_estimates_what_is_left(self):
        self.build()
        self.assertEqual(self.plan(1).seconds_left(), 0)
        self.edit("sqz_left", "right again\n" * 1000)
        plan = self.plan(1)
        plan.built.update(["sqz_low", "sqz_middle", "sqz_right"])
        self.assertEqual(
            sorted(name for name, seconds in plan.seconds.items() if seconds),
            ["sqz_left", "sqzcompact"],
        )
        plan.start("sqz_left")
        plan.started["sqz_left"] -= 100
        # The program reads 1000 lines of this crate, and a line of each other one.
        self.assertAlmostEqual(plan.seconds_left(), 290 - 100 + 0.29 + 1003 * 0.036, 0)

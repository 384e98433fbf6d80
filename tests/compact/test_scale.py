"""Runs `sqzcompact` over images of 1 GiB and of nearly 4 GiB, by hand.

Each size is tried at the lowest and at the highest base. `make_large.c` writes the images, and what
each is compacted to, so it takes a C compiler. Each run over an image, and over its compaction, may
take 2.5 times its size in memory. There must be 10 GiB of memory, and room for three files of 4 GiB
in `TMPDIR`.
"""

import filecmp
import subprocess

from tests.harness.program_checks import ProgramTest
from tests.harness.programs import ROOT, SQZCOMPACT, measured

GIB = 1 << 30
WORKERS = "4"
# The size of the data and the base, in bytes: together 2^32 at most.
IMAGES = ((GIB, 0), (GIB, 3 * GIB), (4 * GIB - 4, 0), (4 * GIB - 4, 4))
MOST = 2.5
MAKER = ROOT / "tests" / "making" / "make_large.c"


class ScaleTest(ProgramTest):
    def test_large_images(self):
        maker = self.folder / "make_large"
        subprocess.run(["cc", "-O2", "-o", maker, MAKER], check=True)
        image, answer = (self.folder / name for name in ("image", "answer"))
        for size, base in IMAGES:
            subprocess.run([maker, str(size), str(base), image, answer], check=True)
            for source in (image, answer):
                with self.subTest(size=size, base=f"{base:08x}", source=source.name):
                    self.check_compaction_of_file(source, answer)

    def check_compaction_of_file(self, source, answer):
        """Compacts a file, prints the seconds and the peak of memory, and checks this and OUT."""
        out = self.folder / "out"
        it = measured([SQZCOMPACT, "--workers", WORKERS, source, out])
        size = source.stat().st_size
        times = it.peak / size
        columns = f"{size / GIB:5.2f} GiB {it.seconds:8.1f} s {it.peak / GIB:6.2f} GiB"
        print(f"{columns} {times:6.2f} times", flush=True)
        self.assertEqual(it.status, 0)
        self.assertTrue(filecmp.cmp(out, answer, shallow=False), "OUT is not the answer")
        self.assertLess(times, MOST)

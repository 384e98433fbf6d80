"""Finds an image that Squeak saved: that of Debian's package `scratch`, or another one that is
named."""

import fcntl
import hashlib
import os
import pathlib
import shutil
import subprocess
import tempfile

from tests.harness.program_checks import ProgramTest

VARIABLE = "SQZ_REAL_IMAGE"
PACKAGE = "scratch"
PLACE = pathlib.Path("usr", "share", "scratch", "Scratch.image")
# The SHA-256 of the image in version 1.4.0.6~dfsg1-6.1 of the package.
KNOWN = "100c7ef83c2f0e2b3e885b645199bc70596fe93f036a312a45e209c0abb0191c"
SECONDS = 120
APT = ("apt-get", "-q", "-y", "-o", "APT::Sandbox::User=root")
WITHOUT_DELAY = ("-o", "Acquire::Retries=0", "-o", "Acquire::http::Timeout=20")


def succeeds(words, folder):
    """Whether a command that runs in a folder succeeds in time."""
    try:
        ended = subprocess.run(words, cwd=folder, capture_output=True, timeout=SECONDS, check=False)
    except (OSError, subprocess.TimeoutExpired):
        return False
    return ended.returncode == 0


def downloads(folder):
    """Whether the package manager puts the package into a folder. Updates its lists if needed."""
    apt = (*APT, *WITHOUT_DELAY)
    fetch = (*apt, "download", PACKAGE)
    with open(__file__, encoding="utf-8") as lock:
        # the package manager rejects a second caller, and test modules run in parallel
        fcntl.flock(lock, fcntl.LOCK_EX)
        if succeeds(fetch, folder):
            return True
        return succeeds((*apt, "update"), folder) and succeeds(fetch, folder)


def unpacked(folder):
    """The image of the package, unpacked in a folder and not installed, if that is possible."""
    if os.geteuid() != 0 or not shutil.which("apt-get") or not shutil.which("dpkg-deb"):
        return None
    if not downloads(folder):
        return None
    packages = list(pathlib.Path(folder).glob("*.deb"))
    if len(packages) != 1 or not succeeds(("dpkg-deb", "-x", packages[0].name, "."), folder):
        return None
    path = pathlib.Path(folder) / PLACE
    return path if path.is_file() else None


def find_image(folder):
    """The path of the image: the one that the variable names, the installed one, or one that the
    package manager puts into this folder. None if there is none."""
    if named := os.environ.get(VARIABLE):
        return pathlib.Path(named).resolve(strict=True)
    installed = pathlib.Path(os.sep) / PLACE
    return installed if installed.is_file() else unpacked(folder)


def is_known(file):
    """Whether these bytes are the image whose contents the tests know."""
    return hashlib.sha256(file).hexdigest() == KNOWN


class SqueakImageTest(ProgramTest):
    """A test on the image that Squeak saved, at `path`. It is skipped without one."""

    @classmethod
    def setUpClass(cls):
        super().setUpClass()
        folder = tempfile.TemporaryDirectory()
        cls.addClassCleanup(folder.cleanup)
        cls.path = find_image(folder.name)

    def setUp(self):
        super().setUp()
        if self.path is None:
            self.skipTest(f"no image: install the package {PACKAGE}, or set {VARIABLE} to a path")

"""Writes the hashes of the script and the style of `explore/explore.html` into its policy, and the
page into the source of the program.

Usage: python3 -m bench.embed_page [--check]

With `--check` nothing is written, and the script ends with an error if something is to be."""

import argparse
import base64
import hashlib
import re
import sys

from tests.harness.programs import ROOT

PAGE = ROOT / "explore" / "explore.html"
SOURCE = ROOT / "crates" / "sqz_look_explore" / "src" / "page.rt"
# A hash in the policy, and the end of the name of what it is of.
HASH = re.compile(r"(?P<name>script|style)-src 'sha256-[^']*'")
TEXT = """\
//! The page that shows an image in a browser. It is a copy of `explore/explore.html`, which
//! `bench/embed_page.py` makes.

/// The page, without the data of an image.
pub(crate) const PAGE: &str = r##"%s"##;
"""


def hash_of(text):
    digest = hashlib.sha256(text.encode()).digest()
    return f"sha256-{base64.b64encode(digest).decode()}"


def inner(page, name):
    """What the one element of this name without attributes holds."""
    (text,) = re.findall(rf"^<{name}>(.*?)</{name}>", page, re.DOTALL | re.MULTILINE)
    return text


def with_hashes(page):
    """A page whose policy allows its own script and style."""
    return HASH.sub(lambda it: f"{it['name']}-src '{hash_of(inner(page, it['name']))}'", page)


def source_of(page):
    """The source with a page."""
    if '"##' in page:
        raise ValueError('the page holds "##, which would end it in the source')
    return TEXT % page


def main():
    parser = argparse.ArgumentParser(description=__doc__.partition("\n")[0])
    parser.add_argument("--check", action="store_true")
    arguments = parser.parse_args()
    page = PAGE.read_text(encoding="utf-8")
    wanted = {PAGE: with_hashes(page), SOURCE: source_of(with_hashes(page))}
    stale = [it for it, text in wanted.items() if it.read_text(encoding="utf-8") != text]
    if arguments.check and stale:
        sys.exit(f"not up to date: {', '.join(str(it.relative_to(ROOT)) for it in stale)}")
    for path in stale:
        path.write_text(wanted[path], encoding="utf-8")


if __name__ == "__main__":
    main()

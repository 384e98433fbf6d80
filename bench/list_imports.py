#!/usr/bin/env python3
"""Lists the definitions that a statement rests on: the files that one reads to judge what it says.
Prints them in an order in which each comes after those that it uses, with their lines.

The imports are followed within the repository: a module that imports another one needs all of it.
A type that is declared in Rust counts as its declaration. The libraries of Rattle are left out. A
line counts unless it is blank or a comment alone."""

import argparse
import pathlib
import re

ROOT = pathlib.Path(__file__).resolve().parent.parent
HEADLINE = ["sqz_tool/Headline"]
SPEC = re.compile(r"^(?:pub )?use Rattle\.(sqz_\w+)\.specs\.(?!declared\.)(\w+)", re.MULTILINE)
DECLARED = re.compile(
    r"^(?:pub )?use Rattle\.(sqz_\w+)\.specs\.declared(?:\.[a-z]\w*)+\.([A-Z]\w*)", re.MULTILINE
)
PROMISES = {
    "1. each call returns; a run writes in order": ["sqz_image/Devices"],
    "2. reading": ["sqz_image/Refusals"],
    "2. tracing": ["sqz_trace/Edges"],
    "2. marking": ["sqz_trace/Reachability"],
    "2. new addresses": ["sqz_regions/Places"],
    "2. moved words": ["sqz_slide/Moved"],
    "2. class histogram": ["sqz_histogram/Histogram"],
    "2. census": ["sqz_census/Census", "sqz_census/Text"],
    "3. a run (`run`)": HEADLINE,
    "3. a run of the program (`program`)": ["sqz_tool/Endings"],
    "4. parallel marking": ["sqz_marks/Lawful", "sqz_marks/Core"],
    "5. kept objects": ["sqz_tool/Correspondence"],
    "`check`": ["sqz_answers/Findings"],
    "`check`: where faults are": ["sqz_damage/Faults", "sqz_damage/Unread", "sqz_damage/Near"],
    "`check --strict`": ["sqz_strict/Findings"],
    "`census`": ["sqz_answers/Histograms"],
    "`census --retained`": ["sqz_answers/RetainedHistograms"],
    "`list`": ["sqz_answers/Listings"],
    "`show`": ["sqz_answers/Shown"],
    "`why`": ["sqz_dominators/Why"],
    "`refs`": ["sqz_answers/References"],
    "`top`": ["sqz_answers/TopRows"],
    "`diff`: alike": ["sqz_alike/Alike"],
    "`diff`: the first objects": ["sqz_alike/FirstDifference"],
    "`diff`: what differs, by owner": ["sqz_changes/Changes"],
    "`diff`: the exit": ["sqz_look_cli/Comparison"],
    "`digest`": ["sqz_alike/Written"],
    "`mend`": ["sqz_damage/Recovery"],
    "`mend --nil`": ["sqz_damage/Repairs"],
    "instructions of `code`": ["sqz_code/Parts", "sqz_code/Instructions"],
    "`senders`, `code --unsent`": ["sqz_code/Mentions", "sqz_names/Picks"],
    "`stacks`": ["sqz_code/Processes", "sqz_code/Stacks", "sqz_code/Frames"],
    "`find`": ["sqz_facts/Matches", "sqz_facts/FirstReferrers"],
    "labels": ["sqz_names/Labels", "sqz_names/LabelOrder", "sqz_names/Texts"],
    "words": ["sqz_names/Words"],
}


def path_of(module):
    crate, _, name = module.partition("/")
    return ROOT / "crates" / crate / "specs" / f"{name}.antt"


def text_of(module):
    return path_of(module).read_text(encoding="utf-8")


def lines_of(module):
    """How many lines of a module are neither blank nor a comment."""
    lines = (line.strip() for line in text_of(module).splitlines())
    return sum(1 for line in lines if line and not line.startswith("--"))


def declaration(crate, name):
    """The lines of a type that is declared in Rust, without attributes and comments."""
    head = re.compile(rf"^pub(?:\(\w+\))? (?:enum|struct) {name}\b")
    for path in sorted((ROOT / "crates" / crate / "src").rglob("*.rt")):
        lines = path.read_text(encoding="utf-8").splitlines()
        for at, line in enumerate(lines):
            if head.match(line):
                end = at if line.endswith(";") else lines.index("}", at)
                kept = (it.strip() for it in lines[at : end + 1])
                return path, [it for it in kept if it and not it.startswith(("//", "#"))]
    return None, []


def follow(modules):
    """These modules and all that they import, each after those that it uses; and the types."""
    order, types = {}, {}

    def visit(module):
        if module in order:
            return
        order[module] = None
        text = text_of(module)
        for crate, name in SPEC.findall(text):
            visit(f"{crate}/{name}")
        for crate, name in DECLARED.findall(text):
            types[crate, name] = None
        del order[module]
        order[module] = None

    for module in modules:
        visit(module)
    return list(order), sorted(types)


def sizes(modules):
    """The number of modules, of their lines, of types and of their lines."""
    found, types = follow(modules)
    declared = sum(len(declaration(*it)[1]) for it in types)
    return len(found), sum(map(lines_of, found)), len(types), declared


def print_files(modules):
    found, types = follow(modules)
    for module in found:
        print(f"{lines_of(module):6}  {path_of(module).relative_to(ROOT)}")
    for crate, name in types:
        path, lines = declaration(crate, name)
        place = path.relative_to(ROOT) if path else f"crates/{crate}"
        print(f"{len(lines):6}  {place} ({name})")
    files, lines, count, declared = sizes(modules)
    print(f"{lines:6}  in {files} files, and {declared} lines of {count} types")


def print_promises():
    print("| promise or answer | modules | files | lines | types |")
    print("|---|---|---:|---:|---:|")
    for promise, modules in PROMISES.items():
        files, lines, count, _ = sizes(modules)
        names = ", ".join(f"`{module}`" for module in modules)
        print(f"| {promise} | {names} | {files} | {lines} | {count} |")


def module(word):
    """The module that a word of the command line names."""
    if not path_of(word).is_file():
        raise argparse.ArgumentTypeError(f"no module {word}")
    return word


def main():
    parser = argparse.ArgumentParser(description=__doc__.splitlines()[0])
    parser.add_argument(
        "modules",
        nargs="*",
        type=module,
        metavar="CRATE/MODULE",
        help=f"a module of specs/, as sqz_answers/Shown; else {HEADLINE[0]}, which `run` names",
    )
    parser.add_argument(
        "--promises",
        action="store_true",
        help="print a line for each promise of docs/GUARANTEES.md and each answer of sqzlook",
    )
    arguments = parser.parse_args()
    if arguments.promises:
        print_promises()
    else:
        print_files(arguments.modules or HEADLINE)


if __name__ == "__main__":
    main()

"""The table of the machine, and what is missing on it."""

import os
import pathlib
import platform
import subprocess

from bench.evaluation.programs import find_machine, missing_lines
from tests.harness.programs import ROOT

KIB, GIB = 1 << 10, 1 << 30
# A load average above this is not that of an idle machine.
IDLE = 0.5


def printed_by(*words):
    """The first line that a command prints; empty if it prints none, `-` if it fails."""
    try:
        ended = subprocess.run(words, cwd=ROOT, capture_output=True, text=True, check=True)
    except (OSError, subprocess.CalledProcessError):
        return "-"
    return ended.stdout.partition("\n")[0]


def value_in(path, name):
    """The value of the first line of this name in a file of `/proc`."""
    lines = pathlib.Path(path).read_text(encoding="utf-8").splitlines()
    values = (line.partition(":")[2].strip() for line in lines if line.startswith(name))
    return next(values, "-")


def bytes_of_memory(name):
    """A number of bytes of `/proc/meminfo`."""
    return KIB * int(value_in("/proc/meminfo", name).split()[0])


def machine_version():
    """The version of the Squeak machine: the name of its folder."""
    found = find_machine()
    return pathlib.Path(found).parent.name if found else "-"


def print_machine(image):
    """Prints the table, and what is missing."""
    rows = (
        ("processors", f"{os.cpu_count()} x {value_in('/proc/cpuinfo', 'model name')}"),
        ("memory", f"{bytes_of_memory('MemTotal') / GIB:.1f} GiB"),
        ("kernel", f"{platform.system()} {platform.release()}"),
        ("kit", printed_by("rt", "version")),
        ("stock Rust", printed_by("rustc", "--version")),
        ("Squeak machine", machine_version()),
    )
    print("| Machine | |\n|---|---|")
    for name, value in rows:
        print(f"| {name} | {value} |")
    load = os.getloadavg()[0]
    busy = [f"The machine is not idle: its load average is {load:.2f}."] if load > IDLE else []
    print("\n" + "\n".join([*busy, *missing_lines(image), ""]), flush=True)

#!/usr/bin/env python3
"""Runs a program of this folder, NAME.txt, and prints what it measured for each size that is named.

Makes a repository of its own in a temporary folder, from the program and the crates of this one that it
stands on, builds it with rt, and runs it for each size, or for 10^3, 10^4 and 10^5 where none is named.

    run.py ingest [EVENTS..]    batches over a keeper in memory, and what a cell costs in memory
    run.py keepers [CELLS..]    the keeper in memory beside those over SQLite, in multiples of 1,000 cells
"""
import os
import re
import shutil
import subprocess
import sys
import tempfile

HERE = os.path.dirname(os.path.abspath(__file__))
TOP = os.path.dirname(HERE)
PAGE = os.sysconf("SC_PAGE_SIZE")


def listed():
    """The line of each crate of this repository."""
    lines = open(os.path.join(TOP, "crates.txt")).read().splitlines()
    return {line.split(":")[0].split()[0]: line for line in lines if line and not line.startswith("#")}


def with_lower(crates, names):
    """The lines of these crates, and of all of this repository that they stand on."""
    kept = {}
    left = list(names)
    while left:
        name = left.pop()
        if name not in kept:
            kept[name] = crates[name]
            left.extend(low for low in crates[name].split(":")[1].split() if low in crates)
    return kept


def make(folder, program):
    """Makes the repository, and answers the folder of the program's crate."""
    source = os.path.join(HERE, program + ".txt")
    crates = listed()
    used = [name for name in re.findall(r"^use (\w+)", open(source).read(), re.M) if name in crates]
    kept = with_lower(crates, used)
    with open(os.path.join(folder, "crates.txt"), "w") as out:
        out.write("\n".join([*kept.values(), "bench: " + " ".join(used)]) + "\n")
    shutil.copy(os.path.join(TOP, "HANDLES"), folder)
    for name in kept:
        for part in ["src", "specs", "proofs"]:
            crate = os.path.join(TOP, "crates", name, part)
            if os.path.isdir(crate):
                shutil.copytree(crate, os.path.join(folder, "crates", name, part))
    bench = os.path.join(folder, "crates", "bench")
    os.makedirs(os.path.join(bench, "src"))
    shutil.copy(source, os.path.join(bench, "src", "main.rt"))
    return bench


def rate(count, nanos):
    return count * 1e9 / max(nanos, 1)


def show_ingest(words):
    events, micros, cells, size, pages = (int(word) for word in words)
    held = pages * PAGE
    print("%6d  %8.0f  %7d  %10.1f  %15.1f  %10.2f"
          % (events, rate(events, micros * 1_000), cells, size / cells, held / cells, held / size))


def show_keepers(words):
    cells, step, setting, runs, whole = (int(word) for word in words[1:])
    print("%-6s  %6d  %11d  %9.0f  %7.0f  %14.0f  %17.0f"
          % (words[0], cells, step, rate(cells // step, setting), rate(cells, setting),
             rate(cells, runs), rate(cells, whole)))


# For each program the heading, how many lines it writes, and what prints one.
PROGRAMS = {
    "ingest": ("events  events/s  cells  bytes/cell  held bytes/cell  held/bytes", 1, show_ingest),
    "keepers": ("keeper   cells  cells/apply  applies/s  cells/s  read in runs/s  read in one scan/s",
                6, show_keepers),
}


def measured(crate, size, count):
    """The words of the lines that the program wrote for a size, if it wrote so many."""
    ran = subprocess.run(["rt", "run", "--jobs", "1", "--", str(size)],
                         cwd=crate, stdout=subprocess.PIPE, text=True)
    lines = re.findall(r"^measure: (.*)", ran.stdout, re.M)
    if ran.returncode or len(lines) != count:
        sys.exit("no measure of %d" % size)
    return [line.split() for line in lines]


def main():
    if len(sys.argv) < 2 or sys.argv[1] not in PROGRAMS:
        sys.exit(__doc__)
    heading, count, show = PROGRAMS[sys.argv[1]]
    sizes = [int(word) for word in sys.argv[2:]] or [1_000, 10_000, 100_000]
    with tempfile.TemporaryDirectory() as folder:
        crate = make(folder, sys.argv[1])
        for place, size in enumerate(sizes):
            rows = measured(crate, size, count)
            if place == 0:
                print(heading)
            for row in rows:
                show(row)


if __name__ == "__main__":
    main()

"""bench/emulated/stack.py PROCESSOR BYTES: what stack.c wrote, beside the table of docs/PERFORMANCE.md."""
import os
import sys

PAPER = os.path.join(os.path.dirname(os.path.abspath(__file__)), "../../docs/PERFORMANCE.md")
COLUMNS = {"aarch64": 1, "x86_64": 2, "riscv64": 3}


def limits(column):
    """The most bytes that the paper gives each call."""
    with open(PAPER) as paper:
        lines = paper.read().splitlines()
    first = next(i for i, line in enumerate(lines) if line.startswith("| call | aarch64 |"))
    given = {}
    for line in lines[first + 2 :]:
        if not line.startswith("|"):
            return given
        cells = [cell.strip() for cell in line.strip("|").split("|")]
        for name in cells[0].split(", "):
            given[name.strip("`")] = int(cells[column].replace(",", "") or -1)


def main():
    processor, path = sys.argv[1:]
    given, above = limits(COLUMNS[processor]), 0
    with open(path) as listed:
        for name, used in sorted(line.split() for line in listed):
            more = int(used) > given.get(name, -1)
            above += more
            print("%-16s %6d bytes of %6d%s" % (name, int(used), given.get(name, -1), ": ABOVE" if more else ""))
    print("stack: %s, %d calls above docs/PERFORMANCE.md" % (processor, above))
    sys.exit(1 if above else 0)


main()

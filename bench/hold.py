"""bench/hold.py PROCESSOR WRITE UNITS COUNTS: what bench/held counted, beside its table (held.txt)."""
import os
import sys

HERE = os.path.dirname(os.path.abspath(__file__))
TABLE = os.path.join(HERE, "held.txt")
# More than this, of what it was, fails; less than that is worth a new table.
MOST, LESS = 1.03, 0.97


def pairs(path):
    with open(path) as listed:
        return {name: int(count) for name, count in (line.split() for line in listed)}


def table():
    """The table's comments, the processors, and each figure's unit and instructions by processor."""
    with open(TABLE) as listed:
        lines = listed.read().splitlines()
    comments = [line for line in lines if line.startswith("#")]
    head, *rows = [line.split() for line in lines if line and not line.startswith("#")]
    return comments, head[2:], {name: (unit, cells) for name, unit, *cells in rows}


def main():
    processor, write, units, counts = sys.argv[1:]
    units, counts = pairs(units), pairs(counts)
    comments, processors, rows = table()
    if sorted(units) != sorted(rows) or sorted(counts) != sorted(rows):
        sys.exit("bench/held: held.c and held.txt do not have the same figures: %s" % sorted(set(units) ^ set(rows) | set(counts) ^ set(rows)))
    column, above = processors.index(processor), 0
    for name, (unit, cells) in rows.items():
        now, before = counts[name] / units[name], float(cells[column])
        ratio = now / before if before else 0.0
        more = ratio > MOST and write == "0"
        above += more
        said = ": MORE, %.3f" % ratio if more else ": less, %.3f" % ratio if 0 < ratio < LESS else ""
        print("%-22s %10.1f instructions a %-6s %10.1f before%s" % (name, now, unit, before, said))
        cells[column] = "%.1f" % now
    if write == "1":
        cell = "%-22s %-7s" + " %11s" * len(processors)
        with open(TABLE, "w") as out:
            out.write("\n".join(comments + [cell % ("figure", "unit", *processors)] + [cell % (name, unit, *cells) for name, (unit, cells) in rows.items()]) + "\n")
    print("held: %s, %d figures, %d above the table by more than 3 in a hundred" % (processor, len(rows), above))
    sys.exit(1 if above else 0)


main()

#!/usr/bin/env python3
"""Writes what the programs of the gate are run on, and what they must write: crates/NAME/stdin and stdout.

    compare/vectors/lists.py        needs the oracle (compare/oracle), built

`calls` gets the calls of every list, one list after another; `leaves`, `tablecheck` and `depth` their own cases. Those of four accounts stand beside this
script (four.in, four.out), for compare/four.
"""
import os

import compared
import dumps
import extremes
import four
import refusals
import roots
import rust
import stretches
import tables
import totals

# The argument of `depth`.
LOOKBACK = 10

CRATES = os.path.join(rust.HERE, "../../crates")


def store(program, given, told):
    for name, content in (("stdin", given), ("stdout", told)):
        with open(os.path.join(CRATES, program, name), "wb") as out:
            out.write(content)


def store_lines(program, given, told):
    store(program, given.encode(), told.encode())
    print("%-8s %6d lines in, %6d out" % (program, given.count("\n"), told.count("\n")))


def store_beside(name, given, told):
    """Cases that no program of the gate reads: compare/four does."""
    for end, content in (("in", given), ("out", told)):
        with open(os.path.join(rust.HERE, name + "." + end), "w") as out:
            out.write(content)
    print("%-8s %6d lines in, %6d out" % (name, given.count("\n"), told.count("\n")))


def lines(listed):
    """What a program is given, and what it tells: a line that only lends is answered by nothing."""
    listed = list(listed)
    return "".join(line + "\n" for line, _ in listed), "".join(answer + "\n" for _, answer in listed if answer is not None)


def calls():
    parts = (tables.calls(), extremes.calls(), rust.rules(), rust.runs("runs"), rust.runs("orders"), rust.kept_orders(),
             rust.runs("run_long"), rust.days("runs"), rust.days("orders"), refusals.calls(rust.figures_of), dumps.calls(),
             totals.calls(), stretches.calls(), compared.calls(), rust.figures(), roots.calls(), rust.roots())
    return lines(pair for part in parts for pair in part)


def main():
    store_lines("calls", *calls())
    store_beside("four", *lines(four.calls()))
    store_lines("leaves", *rust.leaves())
    assert tables.told(tables.EXAMPLE) == "accepted nodes 7 rows 3\n" and len(tables.EXAMPLE) == 128
    store("tablecheck", tables.EXAMPLE, tables.told(tables.EXAMPLE).encode())
    store("depth", tables.EXAMPLE, tables.told_depth(tables.EXAMPLE, LOOKBACK).encode())
    with open(os.path.join(CRATES, "depth", "args"), "w") as out:
        out.write("%d\n" % LOOKBACK)


main()

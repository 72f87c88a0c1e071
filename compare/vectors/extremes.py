"""Highest and Lowest over rows: rules of version 2 tables, as calls for the program `calls`.

What a rule says is worked out here on its tree, from document 01, "What a rule means", and request 8; the Rust has no such node.
"""
import random

import steps
import tables
from rust import rule_case
from tables import CLOSE, EXTREMES, between, const, extreme, group, negated, price, prev, ref, table, trend, two

FLAT = [0, 0, 0, 1]


# ---- what a rule means


def value(tree, rows, i):
    """An operand at bar i; None where it is missing."""
    _, (kind, selector, _, n, constant), below = tree
    if not 0 <= i < len(rows):
        return None
    if kind == 1:
        return steps.number(constant)
    if kind == 2:
        return steps.slot(rows[i], n)
    if kind == 3:
        return steps.price(rows[i], selector)
    if kind == 4:
        return value(below[0], rows, i - n)
    if kind in EXTREMES:
        return best(kind, [value(below[0], rows, bar) for bar in range(i - n + 1, i + 1)])
    x, y = (value(a, rows, i) for a in below)
    return None if x is None or y is None else steps.ARITHMETIC[kind](x, y)


def best(kind, values):
    """"it starts at the oldest, and a later one takes its place only if strictly greater (for Lowest, strictly less)\""""
    if None in values:
        return None
    kept = values[0]
    for later in values[1:]:
        if later > kept if kind == 9 else later < kept:
            kept = later
    return kept


def holds(tree, rows, i):
    _, (kind, _, _, n, _), below = tree
    if kind == 27:
        return all(holds(c, rows, i) for c in below)
    if kind == 28:
        return any(holds(c, rows, i) for c in below)
    if kind == 29:
        return not holds(below[0], rows, i)
    bars = {22: (i, i - 1), 23: (i, i - 1), 25: (i, i - n), 26: (i, i - n)}.get(kind, (i,))
    values = [value(a, rows, bar) for bar in bars for a in below]
    return None not in values and steps.TESTS[{25: 16, 26: 17}.get(kind, kind)](*values)


# ---- the cases


def breakouts():
    """Twenty bars' high and low, over the close; over a slot that may be absent; beside the bar itself; further back; under Not."""
    high, low = extreme(9, price(1), 20), extreme(10, price(2), 20)
    yield table(0, two(16, CLOSE, prev(high, 1)), two(17, CLOSE, prev(low, 1)), version=2)
    yield table(0, two(18, price(1), high), two(19, price(2), low), two(20, high, price(1)), two(21, low, price(2)), version=2)
    yield table(2, two(16, CLOSE, extreme(9, ref(0), 3)), two(17, CLOSE, extreme(10, ref(1), 4)), version=2)
    yield table(1, negated(two(16, CLOSE, extreme(9, ref(0), 5))), between(CLOSE, low, high), version=2)
    yield table(0, two(22, CLOSE, prev(extreme(9, CLOSE, 4), 1)), two(23, CLOSE, prev(extreme(10, CLOSE, 4), 1)), version=2)
    yield table(0, trend(25, extreme(9, price(5), 6), 3), trend(26, extreme(10, price(6), 6), 3), version=2)
    yield table(0, two(16, two(6, high, low), const(4.0)), group(27, two(16, CLOSE, extreme(9, CLOSE, 1)), tables.NO), version=2)


def row(rng, slots):
    """Prices that are often equal, and a slot now and then absent."""
    near = [tables.bits(95.0 + rng.randrange(20) / 2.0) for _ in range(5 + slots)]
    mask = sum((rng.random() < 0.95) << k for k in range(slots))
    return [0] + near[:5] + [mask] + [near[5 + k] if mask >> k & 1 else 0 for k in range(slots)]


def calls():
    rng = random.Random(8)
    for data in breakouts():
        slots, depth = tables.window(data, 0)
        trees = tables.check(data)[2]
        held = [row(rng, slots) for _ in range(depth + 12)]
        for count in sorted({0, 1, depth - 1, depth, depth + 1, depth + 12}):
            rows = held[:count]
            told = [int(tree is not None and holds(tree, rows, max(count - 1, 0))) for tree in trees]
            yield from rule_case(data, [word for one in rows for word in one], count, FLAT, told)

"""The steps of a tree, and what a list of steps answers over rows: docs/INTERFACE.md, "Steps", written once more.

A tree is (number, (kind, selector, children, n, constant), trees below), as tables.py reads it; None is an absent one.
"""
import struct

from words import byte_words, number

EPS = 2.0**-52


def step(kind, selector=0, skip=0, n=0, constant=0):
    return struct.pack("<BBHIQ", kind, selector, skip, n, constant)


def operand(tree, back):
    """The steps of an operand so many bars back."""
    _, (kind, selector, _, n, constant), below = tree
    if kind == 1:
        return step(1, n=back, constant=constant)
    if kind == 2:
        return step(2, n, n=back)
    if kind == 3:
        return step(3, selector, n=back)
    if kind == 4:
        return operand(below[0], back + n)
    if kind in (9, 10):
        _, (over, of_price, _, of_slot, _), _ = below[0]
        return step(kind if over == 3 else kind + 2, of_price if over == 3 else of_slot, n, back + n - 1)
    return operand(below[0], back) + operand(below[1], back) + step(kind)


def code(tree):
    """The steps of a condition."""
    if tree is None:
        return b""
    _, (kind, selector, _, n, _), below = tree
    if kind in (22, 23):
        return b"".join(operand(a, back) for back in (0, 1) for a in below) + step(kind)
    if kind <= 24:
        return b"".join(operand(a, 0) for a in below) + step(kind)
    if kind in (25, 26):
        return operand(below[0], 0) + operand(below[0], n) + step(16 if kind == 25 else 17)
    if kind in (27, 28):
        rest = b""
        for child in reversed(below):
            rest = code(child) + step(32 if kind == 27 else 33, skip=len(rest) // 16) + rest
        return step(kind) + rest
    if kind == 29:
        return code(below[0]) + step(29)
    return step(kind, selector, n=n)


def words(listed):
    return byte_words(listed)


# ---- the machine


def price(row, selector):
    o, h, l, c, v = (number(word) for word in row[1:6])
    return [o, h, l, c, v, (h + l + c) / 3.0, (o + h + l + c) / 4.0][selector]


def slot(row, k):
    return number(row[7 + k]) if row[6] >> k & 1 else None


def divided(x, y):
    return float("nan") if abs(y) < EPS else x / y


ARITHMETIC = {5: lambda x, y: x + y, 6: lambda x, y: x - y, 7: lambda x, y: x * y, 8: divided}
TESTS = {
    16: lambda x, y: x > y,
    17: lambda x, y: x < y,
    18: lambda x, y: x >= y,
    19: lambda x, y: x <= y,
    20: lambda x, y: abs(x - y) < EPS,
    21: lambda x, y: abs(x - y) >= EPS,
    22: lambda x, y, p, q: p <= q and x > y,
    23: lambda x, y, p, q: p >= q and x < y,
    24: lambda x, low, high: low <= x <= high,
}
TAKES = {22: 4, 23: 4, 24: 3}
SINCE = [lambda a, k: a > k, lambda a, k: a < k, lambda a, k: a >= k, lambda a, k: a <= k, lambda a, k: a == k]


def extreme(rows, kind, selector, count, back):
    """Over the row so far back and the ones after it, count in all: from the oldest on, a later one only if strictly better."""
    if back >= len(rows):
        return None
    oldest = len(rows) - 1 - back
    values = [(price if kind <= 10 else slot)(row, selector) for row in rows[oldest : oldest + count]]
    if None in values:
        return None
    best = values[0]
    for later in values[1:]:
        if later > best if kind in (9, 11) else later < best:
            best = later
    return best


def in_position(position):
    return abs(number(position[0])) > EPS


def since_entry(position, selector, k):
    _, entered, entry_bar, bars_seen = position
    return in_position(position) and entered != 0 and SINCE[selector](bars_seen - 1 - entry_bar, k)


def run(listed, rows, position):
    """The answer of a list over rows, and how many visits it counts: one a step, and for Highest and Lowest one a row."""
    values, answer, visits, at = [], False, 0, 0
    while at < len(listed):
        kind, selector, skip, n, constant = struct.unpack("<BBHIQ", listed[at : at + 16])
        visits, at = visits + (skip if 9 <= kind <= 12 else 1), at + 16
        row = rows[-1 - n] if n < len(rows) else None
        if kind <= 3:
            read = (lambda: number(constant), lambda: slot(row, selector), lambda: price(row, selector))[kind - 1]
            values.append(None if row is None else read())
        elif 9 <= kind <= 12:
            values.append(extreme(rows, kind, selector, skip, n))
        elif kind <= 24:
            count = TAKES.get(kind, 2)
            taken, values = values[-count:], values[:-count]
            known = None not in taken
            if kind in ARITHMETIC:
                values.append(ARITHMETIC[kind](*taken) if known else None)
            else:
                answer = known and TESTS[kind](*taken)
        elif kind <= 28:
            answer = kind == 27
        elif kind == 29:
            answer = not answer
        elif kind == 30:
            answer = in_position(position) == (selector == 1)
        elif kind == 31:
            answer = since_entry(position, selector, n)
        elif answer == (kind == 33):
            at += 16 * skip
    return int(answer), visits

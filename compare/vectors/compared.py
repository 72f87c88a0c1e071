"""What differs between two runs, as calls for the program `calls`.

Request 12 written once more. The runs are short; the other one's trades stand in the call's own line, its equity in the room of rows. After its answer
a call tells the room of the lines and the count: what they were lent where it is refused.
"""
import math
import random

from words import COMPARE, DIFFERENCES, EQUITY, ROWS, TRADE_WORDS, TRADES, UNTOUCHED, bits, lend, line, refusal

POINT_WORDS, LINE_WORDS = 2, 5
# What stands in the room before.
JUNK = 0x5A5AA5A55A5AA5A5


# ---- the model

def records(words, width):
    return [words[i : i + width] for i in range(0, len(words), width)]


def lines(equity, trades, other_equity, other_trades):
    """Sort by sort, as the page lists them."""
    points = list(zip(records(equity, POINT_WORDS), records(other_equity, POINT_WORDS)))
    unlike = [i for i, (a, b) in enumerate(points) if a[1] != b[1]]
    for i in unlike[:1]:
        yield 1, i, 1, points[i][0][1], points[i][1][1]
    for number, (a, b) in enumerate(zip(records(trades, TRADE_WORDS), records(other_trades, TRADE_WORDS))):
        for word, (x, y) in enumerate(zip(a, b)):
            if x != y:
                yield 2, number, word, x, y
    for sort, width, a, b in ((3, TRADE_WORDS, trades, other_trades), (4, POINT_WORDS, equity, other_equity)):
        counts = len(a) // width, len(b) // width
        if counts[0] != counts[1]:
            yield sort, min(counts), 0, *counts


def told(runs):
    """The words of all lines; None for lists that are not whole records."""
    if any(len(words) % width for words, width in zip(runs, (POINT_WORDS, TRADE_WORDS) * 2)):
        return None
    return [word for one in lines(*runs) for word in one]


def answer(words, room):
    """The answer, the room and the count behind a call in such a room."""
    if words is None:
        return [refusal(13, 0), *[JUNK] * room, UNTOUCHED]
    if len(words) > room:
        return [refusal(10, DIFFERENCES), *[JUNK] * room, UNTOUCHED]
    return [0, *words, *[JUNK] * (room - len(words)), len(words) // LINE_WORDS]


# ---- the cases

def compared(run, other, room=None, short_by=0):
    """Both ways; a room that is a line larger than what is told where nothing is said."""
    for a, b in ((run, other), (other, run)):
        words = told((*a, *b))
        size = len(words or [])
        places = max(size - short_by, 0) if short_by else size + LINE_WORDS if room is None else room
        yield lend(EQUITY, a[0])
        yield lend(TRADES, a[1])
        yield lend(ROWS, b[0])
        yield lend(DIFFERENCES, [JUNK] * places)
        yield line(COMPARE, UNTOUCHED, *b[1]), line(*answer(words, places))


def run(points, trades, first=0):
    """A run of so many points and trades."""
    equity = [word for i in range(points) for word in (60 * i, bits(1000.0 + i))]
    closed = [bits(float(first + i)) for i in range(TRADE_WORDS * trades)]
    return equity, closed


def changed(of, points=(), words=(), times=()):
    """The same with the equity of these points, these words of trades, or these points' times another."""
    equity, trades = list(of[0]), list(of[1])
    for i in points:
        equity[2 * i + 1] ^= 1
    for i in times:
        equity[2 * i] += 1
    for i in words:
        trades[i] ^= 1 << 63
    return equity, trades


NONE, SHORT, LONG = run(0, 0), run(3, 2), run(6, 4)
PLUS, MINUS, NAN, OTHER_NAN = bits(0.0), bits(-0.0), bits(math.nan), 0x7FF8000000000001
chance = random.Random(12)

CASES = [
    ("two of nothing", compared(NONE, NONE)),
    ("two of nothing, no room", compared(NONE, NONE, room=0)),
    ("equal", compared(SHORT, run(3, 2))),
    ("equal, no room", compared(SHORT, run(3, 2), room=0)),
    ("times of points alone", compared(SHORT, changed(SHORT, times=(0, 1, 2)))),
    ("the first point", compared(SHORT, changed(SHORT, points=(0,)))),
    ("the last point", compared(SHORT, changed(SHORT, points=(2,)))),
    ("two points: the first is told", compared(SHORT, changed(SHORT, points=(1, 2)))),
    *[("word %d of the second trade" % word, compared(SHORT, changed(SHORT, words=(TRADE_WORDS + word,)))) for word in range(TRADE_WORDS)],
    ("every word of the trades", compared(SHORT, changed(SHORT, words=range(2 * TRADE_WORDS)))),
    ("a point and some words", compared(LONG, changed(LONG, points=(4,), words=(0, 9, 10, 39)))),
    ("zeros of both signs", compared(([0, PLUS], [PLUS] * 10), ([0, MINUS], [PLUS] * 9 + [MINUS]))),
    ("two patterns of a NaN", compared(([0, NAN], [NAN] * 10), ([0, OTHER_NAN], [OTHER_NAN] + [NAN] * 9))),
    ("the same NaN", compared(([0, NAN], [NAN] * 10), ([5, NAN], [NAN] * 10))),
    ("fewer points and trades, equal so far", compared(SHORT, LONG)),
    ("fewer points", compared((SHORT[0], LONG[1]), LONG)),
    ("fewer trades", compared((LONG[0], SHORT[1]), LONG)),
    ("nothing beside a run", compared(NONE, SHORT)),
    ("no trades beside trades", compared((SHORT[0], []), SHORT)),
    ("all sorts at once", compared(changed(SHORT, points=(1,), words=(3, 17)), LONG)),
    ("a stranger", compared(run(4, 3, first=7), SHORT)),
    ("unlike behind the shorter end", compared(SHORT, changed(LONG, points=(4,), words=(25,)))),
    # 10 at 15
    ("a word short of one line", compared(SHORT, changed(SHORT, points=(0,)), short_by=1)),
    ("a line short", compared(SHORT, changed(SHORT, points=(0,), words=(1, 2)), short_by=5)),
    ("a word short of all", compared(changed(SHORT, points=(1,), words=(3,)), LONG, short_by=1)),
    ("just enough", compared(SHORT, changed(SHORT, points=(0,), words=(1,)), room=10)),
    ("no room for a surplus", compared(SHORT, LONG, room=0)),
    # 13
    *[("ragged %d" % part, compared(tuple(words + [1] * (part == i) for i, words in enumerate(SHORT)), SHORT)) for part in range(2)],
    ("ragged, and no room", compared((SHORT[0][:-1], SHORT[1]), LONG, room=0)),
    ("a word less of a trade", compared((SHORT[0], SHORT[1][:-1]), SHORT)),
    ("both ragged alike", compared((SHORT[0], SHORT[1][:-1]), (SHORT[0], SHORT[1][:-1]))),
    *[("of chance", compared(run(chance.randrange(5), chance.randrange(4)),
                             changed(run(4, 3), points=chance.sample(range(4), 2), words=chance.sample(range(30), chance.randrange(6)))))
      for _ in range(6)],
]


def calls():
    for _, pairs in CASES:
        yield from pairs

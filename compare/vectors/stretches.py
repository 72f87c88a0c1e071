"""The high and the low of a stretch of closes, as calls for the program `calls`.

Request 10 written once more: a block is worked out anew from its closes, and a question is answered by reading every close of its stretch. After
its answer an append tells the bars held, the closes and the blocks, a question its four words: those they were lent where they are refused.
"""
import math
import random

from words import APPEND, ASK, BLOCKS, CLOSES, UNTOUCHED, bits, lend, line, number, refusal

INF, NAN = math.inf, math.nan
MOST = 4_294_967_295
BLOCK_BARS, BLOCK_WORDS = 64, 4
# What stands in a room where nothing was appended.
JUNK = 0x5A5AA5A55A5AA5A5


# ---- the model

def block_words(bars):
    return BLOCK_WORDS * (-(-bars // BLOCK_BARS))


def best(closes, first, last):
    """High and low of these bars, each with the earliest bar that has it: its word, which tells zeros apart."""
    bars = range(first, last + 1)
    # max and min of Python give the first of several that are equal.
    high, low = max(bars, key=lambda bar: number(closes[bar])), min(bars, key=lambda bar: number(closes[bar]))
    return [closes[high], high, closes[low], low]


def blocks_of(closes):
    words = []
    for first in range(0, len(closes), BLOCK_BARS):
        words += best(closes, first, min(first + BLOCK_BARS, len(closes)) - 1)
    return words


def first_of(refusals):
    return next((refusal(*found) for found in refusals), 0)


def append_refusals(held, close, closes, blocks):
    if held >= min(closes, MOST):
        yield 10, CLOSES
    if blocks < block_words(held + 1):
        yield 10, BLOCKS
    if not math.isfinite(number(close)):
        yield 11, held


def question_refusals(held, first, last, closes, blocks):
    if held > min(closes, MOST) or block_words(held) > blocks:
        yield 13, 0
    if first > last or last >= held:
        yield 18, 0


# ---- what is lent

def rooms(closes, places, block_places):
    """Rooms of so many words, with these closes appended and junk behind them."""
    return (closes + [JUNK] * places)[:places], (blocks_of(closes) + [JUNK] * block_places)[:block_places]


def append(closes, close, places=None, block_places=None, held=None):
    """A close more, behind these; the rooms have a word more than they need where nothing is said."""
    closes, close = [bits(x) for x in closes], bits(close)
    places = len(closes) + 2 if places is None else places
    block_places = block_words(len(closes) + 1) + 1 if block_places is None else block_places
    held = len(closes) if held is None else held
    lent = rooms(closes, places, block_places)
    told = first_of(append_refusals(held, close, places, block_places))
    after, count = (lent, held) if told else (rooms(closes + [close], places, block_places), held + 1)
    yield lend(CLOSES, lent[0])
    yield lend(BLOCKS, lent[1])
    yield line(APPEND, held, close), line(told, count, *after[0], *after[1])


def appended(closes):
    """Close after close, from an empty room."""
    words, places, block_places = [bits(x) for x in closes], len(closes), block_words(len(closes))
    for room, content in zip((CLOSES, BLOCKS), rooms([], places, block_places)):
        yield lend(room, content)
    for bar, word in enumerate(words):
        after = rooms(words[:bar + 1], places, block_places)
        yield line(APPEND, bar, word), line(0, bar + 1, *after[0], *after[1])


def ask(closes, questions, places=None, block_places=None):
    """Questions over these closes: the bars held (all where that is None), the first bar and the last."""
    closes = [bits(x) for x in closes]
    places = len(closes) + 1 if places is None else places
    block_places = block_words(len(closes)) if block_places is None else block_places
    for room, content in zip((CLOSES, BLOCKS), rooms(closes, places, block_places)):
        yield lend(room, content)
    for held, first, last in questions:
        held = len(closes) if held is None else held
        told = first_of(question_refusals(held, first, last, places, block_places))
        answer = [UNTOUCHED] * 4 if told else best(closes, first, last)
        yield line(ASK, held, first, last, UNTOUCHED), line(told, *answer)


# ---- the cases

chance = random.Random(10)
# A walk, closes of few values so that many are equal, zeros of both signs, and all the same.
WALK = [100.0 + sum(chance.choice((-0.5, 0.25, 0.5)) for _ in range(9)) for _ in range(200)]
FEW = [float(chance.randrange(-2, 3)) for _ in range(200)]
ZEROS = [chance.choice((0.0, -0.0)) for _ in range(136)]
LEVEL = [5.0] * 130
RISING = [float(i) for i in range(130)]

APPENDED = [
    ("the first", append([], 5.0)),
    ("a higher one", append([5.0], 6.0)),
    ("a lower one", append([5.0], 4.0)),
    ("an equal one", append([5.0, 5.0], 5.0)),
    ("-0.0 behind 0.0", append([0.0], -0.0)),
    ("0.0 behind -0.0", append([-0.0], 0.0)),
    ("the high once more", append([5.0, 7.0, 6.0], 7.0)),
    ("the low once more", append([5.0, 3.0, 6.0], 3.0)),
    ("the largest float", append([1.0], math.nextafter(INF, 0.0))),
    ("the least of all", append([1.0], -math.nextafter(INF, 0.0))),
    ("the least float above zero", append([0.0], 2.0**-1074)),
    ("the last of a block", append(RISING[:63], 99.0)),
    ("the first of the second", append(RISING[:64], 50.0)),
    ("the second of the second, equal", append(RISING[:64] + [50.0], 50.0)),
    ("the last of the second", append(WALK[:127], 1.0)),
    ("the first of the third", append(FEW[:128], 0.0)),
    ("rooms that end with this bar", append([5.0], 6.0, places=2, block_places=4)),
    ("a part of a block behind", append([5.0], 6.0, block_places=7)),
    ("close after close", appended([3.0, -1.0, 3.0, -1.0, 4.0, -2.0, 4.0])),
    # 10 at 12
    ("no place", append([5.0, 6.0], 7.0, places=2)),
    ("held more than there are places", append([5.0, 6.0], 7.0, places=2, held=3)),
    ("held as many as there are numbers", append([5.0], 7.0, held=MOST)),
    ("held more than that", append([5.0], 7.0, held=MOST + 1)),
    ("held the most", append([5.0], 7.0, held=UNTOUCHED)),
    ("no place for either", append([5.0, 6.0], 7.0, places=2, block_places=3)),
    ("no place, and no number", append([5.0, 6.0], NAN, places=2)),
    # 10 at 13
    ("no place for the first block", append([], 7.0, block_places=3)),
    ("no place for the second", append(RISING[:64], 7.0, block_places=4)),
    ("a word short for the second", append(RISING[:64], 7.0, block_places=7)),
    ("no place for the block, and no number", append(RISING[:64], INF, block_places=7)),
    # 11
    *[("%s" % x, append([5.0, 6.0], x)) for x in (NAN, INF, -INF)],
    ("the first no number", append([], NAN)),
    ("no number where a block begins", append(RISING[:64], -INF)),
]

# Stretches at and around the edges of blocks.
EDGES = [(None, first, last) for first, last in (
    (0, 0), (0, 62), (0, 63), (0, 64), (1, 63), (1, 64), (62, 63), (63, 63), (63, 64), (64, 64), (64, 127), (64, 128), (63, 127), (63, 128), (0, 127), (0, 128),
    (1, 127), (65, 126), (40, 90), (129, 129))]
LATER = [(None, first, last) for first, last in ((0, 191), (0, 199), (64, 191), (128, 191), (127, 192), (10, 199), (191, 192), (199, 199), (65, 190))]

ASKED = [
    ("a walk", ask(WALK, EDGES + LATER)),
    ("few values", ask(FEW, EDGES + LATER)),
    ("zeros of both signs", ask(ZEROS, EDGES)),
    ("all the same", ask(LEVEL, EDGES)),
    ("one close", ask([-0.0], [(None, 0, 0)])),
    ("fewer bars held than there are", ask(WALK, [(100, 0, 99), (100, 64, 99), (65, 0, 64), (1, 0, 0)])),
    # 13
    ("held above the closes", ask(RISING, [(131, 0, 5), (131, 5, 4)], places=130)),
    ("held above the blocks", ask(RISING, [(129, 0, 5), (128, 0, 127), (129, 5, 4)], block_places=11)),
    ("held above any number", ask(RISING, [(MOST + 1, 0, 5), (UNTOUCHED, 0, 5), (UNTOUCHED, UNTOUCHED, 0)])),
    # 18
    ("the first behind the last", ask(RISING, [(None, 6, 5), (None, 129, 0), (None, UNTOUCHED, 5)])),
    ("the last not held", ask(RISING, [(None, 0, 130), (None, 130, 130), (None, 0, UNTOUCHED), (64, 0, 64), (64, 64, 64)])),
    ("none held", ask(RISING, [(0, 0, 0), (0, 1, 0)])),
]


def calls():
    for _, pairs in APPENDED + ASKED:
        yield from pairs

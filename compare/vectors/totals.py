"""Exact totals, as calls for the program `calls`.

Request 9 written once more, over whole numbers of any length: the sum is one number in units of 2^-1074, and its float is that number divided by
2^1074, which Python rounds to the nearest float. Of a list of trades alone the float must be math.fsum's too. After its answer a call tells the
totals: those it was lent where it is refused.
"""
import itertools
import math

from words import TOTALS, TOTALS_ADD, TOTALS_JOIN, TRADES, TRADE_WORDS, UNTOUCHED, bits, lend, line, number, refusal

INF, NAN = math.inf, math.nan
MOST = 4_294_967_295
TOTAL_WORDS, COUNTS, REASONS, WINS, LOSSES = 43, 8, 6, 6, 7
PNL, REASON = 5, 7
UNITS, SUM_BITS, WORD = 2**1074, 34 * 64, 2**64

TINY, LARGEST = 2.0**-1074, math.nextafter(INF, 0.0)
# Half of what the largest float's last digit stands for.
HALF = 2.0**970


# ---- the model

def units(word):
    """A finite float as a number of 2^-1074."""
    above, below = number(word).as_integer_ratio()
    return above * UNITS // below


def nearest(total):
    """The nearest float; a zero is +0.0."""
    try:
        return total / UNITS
    except OverflowError:
        return -INF if total < 0 else INF


def sum_of(words):
    """The 34 words as a number."""
    whole = sum(word << 64 * i for i, word in enumerate(words[COUNTS:TOTAL_WORDS - 1]))
    return whole - 2**SUM_BITS if whole >> (SUM_BITS - 1) else whole


def record(counts, total):
    """The 43 words of these counts and this sum, which wraps."""
    whole = total % 2**SUM_BITS
    words = [*counts, *(whole >> 64 * i & (WORD - 1) for i in range(34)), 0]
    words[-1] = bits(nearest(sum_of(words)))
    return words


def counts_broken(words):
    counts = words[:COUNTS]
    return max(counts) > MOST or counts[WINS] + counts[LOSSES] > sum(counts[:REASONS])


def trade_broken(trade):
    return not math.isfinite(number(trade[PNL])) or not 1 <= trade[REASON] <= REASONS


def add_refusals(totals, words):
    if len(totals) < TOTAL_WORDS:
        yield 10, TOTALS
    if len(words) % TRADE_WORDS or counts_broken(totals):
        yield 13, 0
    trades = records(words)
    yield from ((17, i) for i, trade in enumerate(trades) if trade_broken(trade))
    if sum(totals[:REASONS]) + len(trades) > MOST:
        yield 22, 0


def join_refusals(totals, other):
    if len(totals) < TOTAL_WORDS:
        yield 10, TOTALS
    if len(other) != TOTAL_WORDS or counts_broken(totals) or counts_broken(other):
        yield 13, 0
    if sum(totals[:REASONS]) + sum(other[:REASONS]) > MOST:
        yield 22, 0


def records(words):
    return [words[i:i + TRADE_WORDS] for i in range(0, len(words), TRADE_WORDS)]


def first(refusals):
    return next((refusal(*found) for found in refusals), 0)


def added(totals, words):
    """The answer of a call, and the totals that it leaves."""
    told = first(add_refusals(totals, words))
    if told:
        return told, totals
    counts, total = totals[:COUNTS], sum_of(totals)
    for trade in records(words):
        counts[trade[REASON] - 1] += 1
        counts[WINS] += number(trade[PNL]) > 0
        counts[LOSSES] += number(trade[PNL]) < 0
        total += units(trade[PNL])
    return 0, record(counts, total) + totals[TOTAL_WORDS:]


def joined(totals, other):
    told = first(join_refusals(totals, other))
    if told:
        return told, totals
    counts = [a + b for a, b in zip(totals[:COUNTS], other[:COUNTS])]
    return 0, record(counts, sum_of(totals) + sum_of(other)) + totals[TOTAL_WORDS:]


# ---- what is lent

NOTHING = [0] * TOTAL_WORDS


def trades(*pnl, reason=1):
    """A trade for each profit; of its other words none is looked at."""
    words = []
    for i, x in enumerate(pnl):
        trade = [UNTOUCHED - i] * TRADE_WORDS
        trade[PNL], trade[REASON] = bits(x), reason
        words += trade
    return words


def of(*pnl):
    """The totals of these."""
    return added(NOTHING, trades(*pnl))[1]


def with_words(words, changes):
    return [changes.get(i, word) for i, word in enumerate(words)]


def add(*lists, totals=NOTHING):
    """Lists added one after another."""
    yield lend(TOTALS, totals)
    for words in lists:
        yield lend(TRADES, words)
        told, totals = added(totals, words)
        yield line(TOTALS_ADD), line(told, *totals)


def join(totals, *others):
    yield lend(TOTALS, totals)
    for other in others:
        told, totals = joined(totals, other)
        yield line(TOTALS_JOIN, *other), line(told, *totals)


# ---- the cases

# Each is added in one list, and its float must be math.fsum's.
SUMS = [
    ("a win", [12.5]), ("a loss", [-12.5]), ("zeros are neither", [0.0, -0.0]), ("-0.0 alone", [-0.0, -0.0]),
    ("cancels", [0.1, -0.1]), ("cancels across three", [0.5, 0.25, -0.75]), ("tenths", [0.1] * 10), ("tenths that do not cancel", [0.1, 0.2, -0.3]),
    ("the least floats", [TINY, TINY, TINY]), ("the least float, lost", [-TINY]), ("below the normal numbers and above", [2.0**-1022 - TINY, TINY]),
    ("far apart", [1e308, 1.0, TINY, -1e308]), ("a borrow through every word", [-TINY, 2.0**1000]),
    ("a carry through every word", [TINY, -(2.0**1000), 2.0**1000]),
    ("a tie to an even float", [1.0, 2.0**-53]), ("a tie to the float above", [1.0 + 2.0**-52, 2.0**-53]),
    ("a tie and a least float more", [1.0, 2.0**-53, TINY]), ("a tie and a least float less", [1.0, 2.0**-53, -TINY]),
    ("a tie below zero", [-1.0, -(2.0**-53)]), ("a tie below zero to the float below", [-1.0 - 2.0**-52, -(2.0**-53)]),
    ("53 digits and a carry", [2.0**53 - 1.0, 0.5]), ("2^53 and 1", [2.0**53, 1.0]), ("at a word's edge", [2.0**(64 * 17 - 1074), -TINY]),
    ("the largest", [LARGEST]), ("the largest and a little", [LARGEST, math.nextafter(HALF, 0.0)]),
    ("the least of all, and a little", [-LARGEST, -math.nextafter(HALF, 0.0)]),
]

# Sums that round to an infinity, and one just below, which math.fsum has no answer for.
BEYOND = [
    ("the largest and its half digit", [LARGEST, HALF]), ("the same below zero", [-LARGEST, -HALF]), ("twice the largest", [LARGEST] * 2),
    ("twice the least of all", [-LARGEST] * 2), ("a half digit, a least float less", [LARGEST, HALF, -TINY]),
]

# Orders of one list, and ways to cut it: the float sum of these depends on both.
ORDERED = [1e16, 1.0, -1e16]

FULL = with_words(NOTHING, {0: MOST})

ADDED = [
    ("no trades", add([])),
    ("every reason", add(sum((trades(float(reason - 3), reason=reason) for reason in range(1, 7)), []))),
    *[(name, add(trades(*pnl))) for name, pnl in SUMS + BEYOND],
    *[("another order", add(trades(*pnl))) for pnl in itertools.permutations(ORDERED)],
    ("list after list", add(trades(1e16), trades(1.0, -1e16))),
    ("back from an infinity", add(trades(LARGEST, LARGEST), trades(-LARGEST), trades(-LARGEST))),
    ("a longer room keeps its rest", add(trades(1.5), totals=NOTHING + [UNTOUCHED, 7])),
    ("the float that is lent is not looked at", add(trades(1.5), totals=with_words(NOTHING, {42: bits(NAN)}))),
    ("any words are a sum: -1", add(trades(TINY), totals=with_words(NOTHING, dict.fromkeys(range(8, 42), UNTOUCHED)))),
    ("a sum wraps", add(trades(TINY), totals=record([0] * 8, 2**(SUM_BITS - 1) - 1))),
    ("the last trade that there is a number for", add(trades(1.0), totals=with_words(NOTHING, {0: MOST - 1}))),
    ("full, and no trades", add([], totals=FULL)),
    ("wins and losses as many as trades", add([], totals=with_words(NOTHING, {3: 5, WINS: 2, LOSSES: 3}))),
    # 10
    ("a word short", add(trades(1.0), totals=NOTHING[1:])),
    ("one word alone, and no whole trade", add(trades(NAN)[1:], totals=[0])),
    # 13
    ("a trade and a word", add(trades(1.0) + [0])),
    ("a trade less a word", add(trades(1.0)[:-1])),
    *[("count %d above the most" % i, add(trades(1.0), totals=with_words(NOTHING, {0: 9, i: MOST + 1}))) for i in range(COUNTS)],
    ("a win more than trades", add([], totals=with_words(NOTHING, {3: 5, WINS: 3, LOSSES: 3}))),
    ("no whole trades, and one that is none", add(trades(NAN) + [0])),
    # 17
    *[("profit %s" % x, add(trades(1.0, x))) for x in (NAN, INF, -INF)],
    *[("reason %d" % reason, add(trades(1.0, reason=reason))) for reason in (0, 7, 2**32 + 1, UNTOUCHED)],
    ("the first of two", add(trades(1.0) + trades(2.0, reason=0) + trades(NAN))),
    ("full, and a trade that is none", add(trades(1.0, NAN), totals=FULL)),
    # 22
    ("a trade too many", add(trades(1.0), totals=FULL)),
    ("a trade too many over all reasons", add(trades(1.0, 2.0), totals=with_words(NOTHING, {1: MOST - 10, 5: 9}))),
]

JOINED = [
    ("nothing and nothing", join(NOTHING, NOTHING)),
    ("nothing and some", join(NOTHING, of(1.5, -0.25))),
    ("some and nothing", join(of(1.5, -0.25), NOTHING)),
    ("one after another", join(of(1e16), of(1.0), of(-1e16))),
    ("in another order", join(of(-1e16), of(1e16), of(1.0))),
    ("cancel", join(of(0.1, 0.2), of(-0.2, -0.1))),
    ("zeros below zero", join(of(-0.0), of(-0.0))),
    ("below zero", join(of(-3.0), of(2.0))),
    ("a carry through every word", join(of(-TINY), of(TINY))),
    ("a borrow through every word", join(of(2.0**1000), of(-TINY))),
    ("a tie", join(of(1.0), of(2.0**-53))),
    ("a tie to the float above", join(of(1.0 + 2.0**-52), of(2.0**-53))),
    ("a tie below zero", join(of(-1.0), of(-(2.0**-53)))),
    ("the largest and its half digit", join(of(LARGEST), of(HALF))),
    ("the same below zero", join(of(-LARGEST), of(-HALF))),
    ("two infinities that cancel", join(of(LARGEST, LARGEST), of(-LARGEST, -LARGEST))),
    ("back from an infinity", join(of(LARGEST, LARGEST), of(-LARGEST))),
    ("a sum wraps", join(record([0] * 8, 2**(SUM_BITS - 1) - 1), of(TINY))),
    ("a longer room keeps its rest", join(of(1.0) + [UNTOUCHED], of(2.0))),
    ("neither float is looked at", join(with_words(of(1.0), {42: 7}), with_words(of(2.0), {42: bits(NAN)}))),
    ("as many as there may be", join(with_words(NOTHING, {0: MOST - 3}), with_words(NOTHING, {5: 3}))),
    # 10
    ("a word short", join(NOTHING[1:], NOTHING)),
    ("one word alone, and no other", join([0], [])),
    # 13
    ("other of no word", join(of(1.0), [])),
    ("other a word short", join(of(1.0), of(2.0)[:-1])),
    ("other a word long", join(of(1.0), of(2.0) + [0])),
    *[("count %d of the other above the most" % i, join(of(1.0), with_words(NOTHING, {0: 9, i: MOST + 1}))) for i in range(COUNTS)],
    ("a count above the most", join(with_words(NOTHING, {4: MOST + 1}), of(1.0))),
    ("a win more than trades", join(with_words(NOTHING, {WINS: 1}), of(1.0))),
    ("a loss of the other more than trades", join(of(1.0), with_words(NOTHING, {3: 5, WINS: 3, LOSSES: 3}))),
    ("full, and a win more than trades", join(FULL, with_words(NOTHING, {0: 1, WINS: 2}))),
    # 22
    ("a trade too many", join(FULL, of(1.0))),
    ("a trade too many over all reasons", join(with_words(NOTHING, {0: MOST - 3}), with_words(NOTHING, {2: 3, 5: 1}))),
]


def calls():
    for name, pnl in SUMS:
        assert of(*pnl)[-1] == bits(math.fsum(pnl) + 0.0), name
    for _, pairs in ADDED + JOINED:
        yield from pairs

"""Four accounts on one stream, as cases for compare/four.

Request 14 written once more. What an account does by itself, bar by bar, the Rust original says (compare/oracle, document 01's reading): it is asked for a
run over the account's own part of the bars. Which bars those are, what stops an account and what the stream takes is worked out here. After its answer a
call tells the bars done, the stream, and of each account, the fourth first, its status, its counts and the rooms of its rows, points and trades.
"""
import math
import random

import rust
import steps
import tables
from words import STATE_WORDS, UNTOUCHED, bits, lend, lend_bytes, line, number, refusal, words

INF, NAN = math.inf, math.nan
MOST = 4_294_967_295
MOST_SLOTS, SETTING_LEVERAGE = 64, 15
# The rooms, in words, and the widths of what stands in them.
ROWS_ROOM = EQUITY_ROOM = TRADES_ROOM = 40
POINT, TRADE = 2, 10
BARS_SEEN, POINTS_HELD, TRADES_HELD, CASH = 0, 2, 3, 8


# ---- bars

def bar(time, prices, volume, slots, funding=None):
    """A bar's words; a slot that is None is absent."""
    mask = sum(1 << k for k, x in enumerate(slots) if x is not None)
    supplied, (mark, rate) = (0, (0.0, 0.0)) if funding is None else (1, funding)
    return [time, *map(bits, prices), bits(volume), mask, *(bits(x or 0.0) for x in slots), supplied, bits(mark), bits(rate)]


def walk(chance, count, slots):
    """Bars of a walk in quarters, with slots near the close and funding now and then."""
    close, bars = 100.0, []
    for i in range(count):
        before, close = close, max(close + chance.randrange(-12, 13) / 4, 1.0)
        low, high = min(before, close) - chance.randrange(5) / 4, max(before, close) + chance.randrange(5) / 4
        near = [close + chance.randrange(-8, 9) / 4 if chance.random() < 0.9 else None for _ in range(slots)]
        funding = (close, chance.randrange(-9, 10) / 4096) if chance.random() < 0.3 else None
        bars.append(bar(60 * i, (before, high, low, close), float(chance.randrange(1, 2000)), near, funding))
    return bars


def own(words_, slots):
    """The account's part of a bar: its mask cut to its own slots."""
    return words_[:6] + [words_[6] & (1 << slots) - 1] + words_[7 : 7 + slots] + words_[-3:]


def refused_bar(words_, slots):
    """11 of a bar."""
    floats = words_[1:6] + [x for k, x in enumerate(words_[7 : 7 + slots]) if words_[6] >> k & 1] + (words_[-2:] if words_[-3] else [])
    finite = all(x >> 52 & 0x7FF != 0x7FF for x in floats)
    return not finite or words_[6] >> slots != 0


# ---- accounts

class Account:
    """An account, and what stops it at the first bar that it is asked for, where anything does (number and place)."""

    def __init__(self, table, fault=None, settings=None, cut=0, lists=None, state=None, status=(0, 0, 0), **given):
        self.table, self.fault, self.status = table, fault, list(status)
        self.run = run(table, **given)
        words_ = rust.settings_of(self.run)
        for number, word in (settings or {}).items():
            words_[number] = word
        self.settings = words_[: len(words_) - cut]
        try:
            self.lists = [steps.code(tree) for tree in tables.check(table)[2][:2]] if lists is None else lists
        except tables.Refused:
            self.lists = [b"", b""]
        self.state = [self.run[2] if i == CASH else 0 for i in range(STATE_WORDS)]
        for word, value in (state or {}).items():
            self.state[word] = value
        self.counts = self.state[:4]
        self.slots = self.run[0]
        self.rows, self.equity, self.trades = [0] * ROWS_ROOM, [0] * EQUITY_ROOM, [0] * TRADES_ROOM

    def lines(self):
        yield lend_bytes(0, self.table)
        for listed in self.lists:
            yield lend_bytes(0, listed)
        yield lend(0, self.settings)

    def told(self):
        return line(*self.status, *self.counts, *self.rows, *self.equity, *self.trades)

    def outside(self, slots):
        """1 to 9, then 21."""
        try:
            short = tables.check(self.table)[2][2:] != [None, None]
        except tables.Refused as why:
            return why.args
        given = self.settings[31] >> SETTING_LEVERAGE & 1 if len(self.settings) > 31 else 0
        leverage = number(self.settings[SETTING_LEVERAGE]) if given else 1.0
        wide = self.table[3] > slots or self.settings[0] > slots
        return (21, 0) if short or not leverage <= 1.0 or wide else None

    def full(self):
        return self.counts[POINTS_HELD] * POINT >= EQUITY_ROOM or self.counts[TRADES_HELD] * TRADE >= TRADES_ROOM

    def do(self, new, answer):
        """A bar that is done: its row, its point, and the trade where it closed one."""
        width = 7 + self.slots
        row = new[:7] + [x if new[6] >> k & 1 else 0 for k, x in enumerate(new[7 : 7 + self.slots])]
        places = ROWS_ROOM // width
        if self.counts[1] == places:
            self.rows[: (places - 1) * width] = self.rows[width : places * width]
            self.counts[1] -= 1
        at = self.counts[1] * width
        self.rows[at : at + width] = row
        at = self.counts[POINTS_HELD] * POINT
        self.equity[at : at + POINT] = answer[:POINT]
        if len(answer) > POINT:
            at = self.counts[TRADES_HELD] * TRADE
            self.trades[at : at + TRADE] = answer[POINT:]
            self.counts[TRADES_HELD] += 1
        for count in (BARS_SEEN, 1, POINTS_HELD):
            self.counts[count] += 1

    def ride(self, bars, slots, seen):
        """The account over the bars that the stream took."""
        if self.status[0] or not bars:
            return
        stopped = self.outside(slots) or self.fault
        if stopped:
            self.status = [*stopped, seen]
            return
        mine = [own(words_, self.slots) for words_ in bars]
        answers = answers_of(self.run, self.table, mine)
        for i, (new, answer) in enumerate(zip(mine, answers)):
            if self.full() or answer == "refused 16":
                self.status = [14, 0, seen + i] if self.full() else [16, self.counts[BARS_SEEN], seen + i]
                return
            self.do(new, words(answer))


def run(table, depth=None, capital=1000.0, delay=0, sizing=(0, 0.5, 0), taker=4.5, slippage=(0, 2.0), funding=0, levels=(None,) * 5,
        order=(0, 0.0, 0.0), lot=0.0, slots=None):
    """A run's first line: the settings, each optional one behind a flag."""
    kind, value, lookback = sizing
    try:
        needed = max(tables.check(table)[1], lookback + 1)
    except tables.Refused:
        needed = 1
    optional = [word for level in levels for word in ((0, 0) if level is None else (1, bits(level)))]
    return [table[3] if slots is None else slots, depth or needed, bits(capital), 0, delay, kind, bits(value), lookback, bits(taker), slippage[0],
            bits(slippage[1]), funding, *optional, 0, 0, bits(0.0), order[0], bits(order[1]), bits(order[2]), bits(1.0), bits(lot)]


def answers_of(run_, table, bars):
    """What the Rust says to each bar."""
    given = ["R " + line(*run_), "T " + table.hex(), *("B " + line(*words_) for words_ in bars), "F"]
    return rust.oracle("run", given="".join(text + "\n" for text in given)).splitlines()[: len(bars)]


# ---- a case

def judged(stream, bars):
    """How many bars the stream takes, and what it answers; bars are one list of words."""
    slots, seen = stream
    if not bars:
        return 0, 0
    if slots > MOST_SLOTS:
        return 0, refusal(12, 0)
    if len(bars) % (10 + slots) or seen > MOST:
        return 0, refusal(13, 0)
    for i in range(len(bars) // (10 + slots)):
        if seen + i == MOST:
            return i, refusal(14, 0)
        if refused_bar(bars[i * (10 + slots) :][: 10 + slots], slots):
            return i, refusal(11, seen + i)
    return len(bars) // (10 + slots), 0


def case(slots, bars, accounts, begun=0):
    """A call over bars, or over words where they are not whole ones."""
    stream, flat = [slots, begun], [word for words_ in bars for word in words_]
    yield lend(0, stream)
    for account in accounts:
        yield from account.lines()
    for account in accounts:
        yield lend(0, account.state)
        yield lend(0, account.status)
    done, answer = judged(stream, flat)
    for account in accounts:
        account.ride(bars[:done], slots, begun)
    yield line(0, *flat), "\n".join([line(answer, done, slots, begun + done), *(account.told() for account in reversed(accounts))])


# ---- the accounts and bars of the cases

CLOSE = tables.CLOSE
RISES = tables.table(0, tables.trend(25, CLOSE, 1), tables.trend(26, CLOSE, 1))
CROSSES = tables.EXAMPLE
COUNTS = tables.table(1, tables.two(16, tables.ref(0), CLOSE), tables.bars_since(2, 2))
EVERY = tables.table(0, tables.group(27), tables.bars_since(2, 1))
BREAKS = tables.table(2, tables.two(16, CLOSE, tables.prev(tables.price(1), 1)), tables.two(17, CLOSE, tables.ref(1)))
SHORTS = tables.table(0, tables.trend(25, CLOSE, 1), tables.trend(26, CLOSE, 1), tables.trend(26, CLOSE, 1))
WIDE = tables.table(3, tables.two(22, tables.ref(0), tables.ref(2)), tables.two(23, tables.ref(0), tables.ref(2)))
FAR = tables.table(0, tables.two(16, CLOSE, tables.prev(tables.prev(CLOSE, 4095), 1)), tables.group(27))
LIMIT = dict(order=(1, -0.5, 0.0))
STOPPED = dict(levels=(2.0, None, 3.0, None, None))


def four(*accounts):
    """These, and plain ones up to four."""
    plain = (Account(RISES), Account(CROSSES), Account(COUNTS), Account(BREAKS))
    return list(accounts) + list(plain[len(accounts) :])


def swapped(table):
    """The first two nodes in each other's place."""
    return table[:16] + table[32:48] + table[16:32] + table[48:]


def spoiled(words_, at, word):
    return words_[:at] + [word] + words_[at + 1 :]


def cases():
    chance = random.Random(14)
    some = lambda slots=2, bars=9: walk(chance, bars, slots)

    yield "plain ones", case(2, some(), four())
    yield "more slots than an account", case(5, some(5), four())
    yield "as many slots as there may be", case(64, some(64, 6), four())
    yield "orders, delays and levels", case(2, some(2, 16), four(
        Account(RISES, **LIMIT), Account(CROSSES, delay=1, funding=1), Account(COUNTS, **STOPPED), Account(BREAKS, sizing=(3, 0.01, 3))))
    yield "leverage of 1 and less", case(2, some(), four(
        *(Account(RISES, levels=(None, None, None, level, None)) for level in (1.0, 0.25, -3.0, None))))
    yield "one bar", case(2, some(2, 1), four())
    yield "no bar", case(2, [], four(Account(RISES[:15])))
    yield "the tables refused", case(2, some(2, 4), four(
        Account(RISES[:15]), Account(b"XTB" + RISES[3:]), Account(RISES + b"\0"), Account(RISES[:16] + b"\x7f" + RISES[17:])))
    yield "more tables refused", case(2, some(2, 4), four(
        Account(RISES[:4] + b"\3" + RISES[5:]), Account(RISES[:3] + b"\x41" + RISES[4:]), Account(swapped(RISES)), Account(FAR)))
    yield "outside the profile", case(2, some(2, 4), four(
        Account(SHORTS), Account(RISES, levels=(None, None, None, 1.0000000000000002, None)), Account(WIDE), Account(RISES, slots=3)))
    yield "leverages that are no number", case(2, some(2, 4), four(
        *(Account(RISES, settings={31: 1 << 15, 15: bits(x)}, fault=fault) for x, fault in ((NAN, None), (INF, None), (-INF, (12, 15)), (2.0, None)))))
    yield "rooms too small", case(2, some(2, 4), four(
        Account(RISES, depth=6, fault=(10, 0)), Account(CROSSES, depth=5, fault=(10, 0)), Account(COUNTS, cut=1, fault=(10, 7)), Account(RISES, depth=5)))
    yield "settings", case(2, some(2, 4), four(
        Account(RISES, settings={1: 0}, fault=(12, 1)), Account(RISES, settings={2: bits(NAN)}, fault=(12, 2)), Account(RISES, settings={5: 5}, fault=(12, 5)),
        Account(RISES, settings={24: bits(-1.0)}, fault=(12, 24))))
    yield "states", case(2, some(2, 4), four(
        Account(RISES, state={0: MOST + 1}, fault=(13, 0)), Account(RISES, state={1: 6}, fault=(13, 0)), Account(RISES, state={2: 21}, fault=(13, 0)),
        Account(RISES, state={6: 1, 7: 5, 0: 5}, fault=(13, 0))))
    yield "no places", case(2, some(2, 4), four(
        Account(RISES, state={2: 20}, fault=(14, 0)), Account(RISES, state={3: 4}, fault=(14, 0)), Account(RISES, state={0: MOST}, fault=(14, 0))))
    yield "lists of steps", case(2, some(2, 4), four(
        Account(RISES, lists=[b"\x7f" + bytes(15), b""], fault=(15, 0)), Account(RISES, lists=[b"", steps.step(30) + steps.step(2, 1)], fault=(15, 1025)),
        Account(RISES, lists=[bytes(7), b""], fault=(15, 0)), Account(RISES)))
    yield "places for four trades", case(0, some(0, 18), four(Account(EVERY), Account(EVERY, **LIMIT), Account(EVERY, delay=1), Account(EVERY, **STOPPED)))
    yield "places for twenty points", case(0, some(0, 23), four(*(Account(RISES, **given) for given in ({}, LIMIT, STOPPED, {}))))
    yield "too many lots", case(0, some(0, 10), four(
        Account(EVERY, lot=1e-16), Account(RISES, lot=1e-16), Account(EVERY, lot=0.25), Account(RISES, lot=1e-17)))
    yield "stopped before, and ones that join late", case(2, some(2, 6), four(
        Account(RISES, status=(1, 2, 3)), Account(CROSSES, status=(MOST, UNTOUCHED, 7)), Account(COUNTS, status=(0, 8, 9)), Account(RISES[:15])), begun=100)
    yield "all four stopped", case(2, some(2, 6), [Account(RISES, status=(n, n, n)) for n in (1, 9, 14, 21)])
    bars = some(2, 8)
    bad = [("a price", spoiled(bars[4], 4, bits(NAN))), ("a slot that no account has", spoiled(spoiled(bars[4], 6, 3), 8, bits(INF))),
           ("a slot past the stream's", spoiled(bars[4], 6, 4)), ("funding", bars[4][:-3] + [1, bits(1.0), bits(-INF)])]
    for name, spoilt in bad:
        yield "refused: " + name, case(2, bars[:4] + [spoilt] + bars[5:7], four(Account(RISES), Account(COUNTS), Account(COUNTS), Account(RISES)))
    yield "refused at once", case(2, [spoiled(bars[0], 1, bits(-INF))] + bars[1:3], four(Account(RISES[:15])), begun=7)
    yield "more than 64 slots", case(65, some(65, 2), four())
    yield "not whole bars", case(2, [some(2, 1)[0], [1, 2, 3]], four())
    yield "a stream at its last bar", case(2, some(2, 4), four(), begun=MOST - 1)
    yield "a stream behind its last bar", case(2, some(2, 4), four(), begun=MOST)
    yield "a stream past any bar", case(2, some(2, 4), four(), begun=MOST + 1)
    yield "a stream that began long before", case(2, some(2, 6), four(Account(RISES[:15])), begun=4_000_000_000)


def calls():
    for _, pairs in cases():
        yield from pairs

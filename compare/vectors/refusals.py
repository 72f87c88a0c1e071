"""Refusals 10 to 16 on both sides of each edge, as calls for the program `calls`.

A case is a good call with something changed. What the call is answered with is worked out here from document 01, "Refusal
numbers": every line of that table that is broken is collected, over the whole call, and then the first of the paper's order
and of it the lowest place is taken. A call that is done leaves the equity point of its bar, or the figures that the Rust gives.
"""
import math
import sys

from words import (EQUITY, FINISH, LISTS, METRIC_WORDS, METRICS, ROWS, SETTINGS, STATE, STATE_WORDS, STEP, TRADES, TRADE_WORDS, bits, lend,
                   lend_bytes, line, refusal, setting_words)

INF, NAN = math.inf, math.nan
MOST = 4_294_967_295
LAST_TIME = 3
ORDER = [10, 12, 13, 14, 11, 15, 16]
# The orders to enter: long, short.
ENTRIES = (1, 2)
# A kind that names nothing: a market order, whose level and limit are not looked at.
AT_MARKET = (0x5A5AA5A55A5AA5A5, NAN, INF)
LIMIT, STOP, STOP_LIMIT = 1, 2, 3

# Settings by name, with their numbers. Sizing and slippage are (kind, value ..); a level that is None is absent.
VALUES = {"capital": 2, "taker": 8, "participation": 19, "level": 21, "limit": 22, "maker": 23}
LEVELS = {"stop": 12, "trailing": 13, "profit": 14, "leverage": 15, "position": 16}

GOOD = {
    "K": 2, "D": 3, "capital": 1000.0, "taker": 0.0, "participation": 0.0,
    "sizing": ("fraction", 0.5), "slippage": ("fixed", 0.0),
    "lot": 0.0,
    "stop": None, "trailing": None, "profit": None, "leverage": None, "position": None, "liquidation": 0,
    "kind": "market", "level": 0.0, "limit": 0.0, "maker": 0.0,
    # the working order, and what an entry waits for: its kind, level and limit
    "order": 0, "waits": AT_MARKET,
    "bars": 3, "held": 3, "points": 3, "trades": 1, "entered": 2, "qty": 1.0,
    "rows_room": 27, "equity_room": 8, "trades_room": 20,
    "time": 4, "bar_words": None, "prices": [1.0] * 4, "volume": 1.0, "mask": 0b01, "slots": [1.0, 0.0],
    "funding": None, "unsupplied": (0.0, 0.0),
    "lists": [b"", b"", b"", b""],
    # the room of the C interface that is a word too short
    "cut": None,
}


def settings_broken(c):
    """12, by the numbers of the settings."""
    sizing, slippage = c["sizing"], c["slippage"]
    if c["K"] > 64:
        yield 0
    lookback = sizing[2] if sizing[0] == "target" else None
    if not 1 <= c["D"] <= 4096 or (lookback is not None and c["D"] <= lookback):
        yield 1
    for name, number in VALUES.items():
        if not math.isfinite(c[name]):
            yield number
    if sizing[0] not in ("fraction", "quantity", "cash", "target", "risk"):
        yield 5
    elif not math.isfinite(sizing[1]):
        yield 6
    if lookback is not None and lookback > 4095:
        yield 7
    if c["kind"] not in ("market", "limit", "stop", "stop-limit"):
        yield 20
    if slippage[0] not in ("fixed", "impact"):
        yield 9
    elif not math.isfinite(slippage[1]):
        yield 10
    for name, number in LEVELS.items():
        if c[name] is not None and not math.isfinite(c[name]):
            yield number
    if sizing[0] == "risk" and c["stop"] is None:
        yield 12
    if not math.isfinite(c["lot"]) or c["lot"] < 0:
        yield 24


def places(c):
    return {"held": c["rows_room"] // (7 + c["K"]), "points": c["equity_room"] // 2, "trades": c["trades_room"] // TRADE_WORDS}


def state_broken(c):
    """13, but for the bar."""
    return (c["bars"] > MOST
            or any(c[name] > min(most, MOST) for name, most in places(c).items())
            or (c["entered"] is not None and c["entered"] >= c["bars"]))


def bar_broken(c):
    """11."""
    numbers = c["prices"] + [c["volume"]] + list(c["funding"] or [])
    numbers += [x for k, x in enumerate(c["slots"]) if c["mask"] >> k & 1]
    return not all(map(math.isfinite, numbers)) or c["mask"] >> c["K"] != 0


# The steps' kinds (docs/INTERFACE.md, "Steps") and the fields that each uses.
USES = {1: "nc", 2: "sn", 3: "sn", 24: "", 27: "", 28: "", 29: "", 30: "s", 31: "sn", 32: "k", 33: "k"}
USES.update({kind: "" for kind in (*range(5, 9), *range(16, 24))})
USES.update({kind: "skn" for kind in range(9, 13)})


def step_good(c, step, after):
    kind, selector = step[0], step[1]
    skip, n = int.from_bytes(step[2:4], "little"), int.from_bytes(step[4:8], "little")
    if kind not in USES:
        return False
    unused = {"s": selector, "k": skip, "n": n, "c": int.from_bytes(step[8:], "little")}
    if any(value for field, value in unused.items() if field not in USES[kind]):
        return False
    if kind in (2, 11, 12) and selector >= c["K"]:
        return False
    if (kind in (1, 2, 3) or 9 <= kind <= 12) and n >= c["D"]:
        return False
    if 9 <= kind <= 12 and not 1 <= skip <= n + 1:
        return False
    return not (kind in (32, 33) and skip > after)


def lists_broken(c):
    """15."""
    for i, steps in enumerate(c["lists"]):
        count = len(steps) // 16
        if len(steps) % 16 or count > 1024:
            yield 1024 * i
            continue
        for p in range(count):
            if not step_good(c, steps[16 * p:16 * p + 16], count - p - 1):
                yield 1024 * i + p


def cash_of(c):
    return 999.0 if c["qty"] != 0 else 1000.0


def raw_price(c):
    """Where a working entry fills, by request 1's words; None where the bar does not reach its level."""
    (kind, level, limit), (start, high, low, _), buys = c["waits"], c["prices"], c["order"] == 1
    below, above = min(start, level) if low <= level else None, max(start, level) if high >= level else None
    if kind == LIMIT:
        return below if buys else above
    if kind not in (STOP, STOP_LIMIT):
        return start
    stop = above if buys else below
    if kind == STOP or stop is None or (stop <= limit if buys else stop >= limit):
        return stop
    return limit if (low <= limit if buys else high >= limit) else None


def fills(c):
    return c["order"] in ENTRIES and raw_price(c) is not None


def ordered(c):
    """What an entry that fills orders, by its kind and after the leverage cap."""
    (kind, value), price, cash = c["sizing"][:2], raw_price(c), cash_of(c)
    wanted = {"fraction": cash * value / price, "quantity": value, "cash": value / price}[kind]
    return min(wanted * price, cash) / price


def lots_broken(c):
    """16: an entry is due, reached, and of 2^53 lots or more. These cases have no slippage."""
    return c["lot"] > 0 and fills(c) and ordered(c) / c["lot"] >= 2.0**53


def step_refusals(c):
    yield from common_refusals(c)
    if c["bar_words"] not in (None, 10 + c["K"]):
        yield 13, 0
    have = places(c)
    if c["points"] >= have["points"] or c["trades"] >= have["trades"] or c["bars"] >= MOST:
        yield 14, 0
    if bar_broken(c):
        yield 11, c["bars"]
    yield from ((15, place) for place in lists_broken(c))
    if lots_broken(c):
        yield 16, c["bars"]


def finish_refusals(c):
    yield from common_refusals(c)
    if abs(c["qty"]) > 2.0**-52 and c["bars"] > 0 and c["trades"] >= places(c)["trades"]:
        yield 14, 0


def common_refusals(c):
    if c["rows_room"] < c["D"] * (7 + c["K"]):
        yield 10, 0
    if c["cut"] is not None:
        yield 10, c["cut"]
    yield from ((12, place) for place in settings_broken(c))
    if state_broken(c):
        yield 13, 0


def answer(refusals):
    """The answer of a call: 0 where nothing is broken."""
    found = sorted(refusals, key=lambda r: (ORDER.index(r[0]), r[1]))
    return refusal(*found[0]) if found else 0


# ---- the words of a call

SIZINGS = ["fraction", "quantity", "cash", "target", "risk", "unknown"]
SLIPPAGES = ["fixed", "impact", "unknown"]
KINDS = ["market", "limit", "stop", "stop-limit", "unknown"]


def settings_of(c):
    sizing, (slippage, cost) = c["sizing"], c["slippage"]
    lookback = sizing[2] if sizing[0] == "target" else 0
    values = [c["K"], c["D"], bits(c["capital"]), 0, 0, SIZINGS.index(sizing[0]), bits(sizing[1]), lookback, bits(c["taker"]),
              SLIPPAGES.index(slippage), bits(cost), 0, 0, 0, 0, 0, 0, c["liquidation"], 0, bits(c["participation"]),
              KINDS.index(c["kind"]), bits(c["level"]), bits(c["limit"]), bits(c["maker"]), bits(c["lot"])]
    return setting_words(values, [None if c[name] is None else bits(c[name]) for name in LEVELS])


def state_of(c):
    """One unit is held, bought for 1 of 1,000; or none."""
    held = c["qty"] != 0
    entered = [0, 0] if c["entered"] is None else [1, c["entered"]]
    account = [cash_of(c), 1.0, 1.0] if held else [cash_of(c), 0.0, 0.0]
    kind, level, limit = c["waits"]
    words = [c["bars"], c["held"], c["points"], c["trades"], c["order"], 0, *entered, *map(bits, account), LAST_TIME if held else 0, 0, 0,
             bits(1.0 if held else 0.0), LAST_TIME, bits(1.0), kind, bits(level), bits(limit), bits(0.25), bits(0.5)]
    assert len(words) == STATE_WORDS
    return words


def bar_of(c):
    slots = (c["slots"] + [0.0] * c["K"])[: c["K"]]
    funding = [0, *map(bits, c["unsupplied"])] if c["funding"] is None else [1, *map(bits, c["funding"])]
    words = [c["time"], *map(bits, c["prices"]), bits(c["volume"]), c["mask"], *map(bits, slots), *funding]
    size = len(words) if c["bar_words"] is None else c["bar_words"]
    return (words + [0] * size)[:size]


def lent(c):
    rooms = {SETTINGS: settings_of(c), STATE: state_of(c), METRICS: [0] * METRIC_WORDS}
    for room, content in rooms.items():
        yield lend(room, content[:-1] if c["cut"] == room else content)
    yield lend(ROWS, [], c["rows_room"])
    yield lend(EQUITY, [], c["equity_room"])
    yield lend(TRADES, [], c["trades_room"])
    for i, listed in enumerate(c["lists"]):
        yield lend_bytes(LISTS + i, listed)


def held_after(c):
    """What is held after the fill, and the cash: an entry takes the place of what was held."""
    if not fills(c):
        return c["qty"], cash_of(c)
    qty = ordered(c)
    if c["lot"] > 0:
        qty = math.floor(qty / c["lot"]) * c["lot"]
    signed = qty if c["order"] == 1 else -qty
    return (signed, cash_of(c) - signed * raw_price(c)) if qty > 2.0**-52 else (c["qty"], cash_of(c))


def step_call(c):
    """What is held is worth its price at the close."""
    told = answer(step_refusals(c))
    if told:
        return line(STEP, *bar_of(c)), line(told)
    qty, cash = held_after(c)
    return line(STEP, *bar_of(c)), line(told, c["time"], bits(cash + qty * c["prices"][3]))


def finish_call(c, figures_of):
    """What is held is sold at the last close, for what it was bought, and the last point is what is left; the points and the trades before are
    of zeros."""
    told = answer(finish_refusals(c))
    if told:
        return line(FINISH), line(told)
    closed = c["qty"] != 0 and c["bars"] > 0
    trade = [LAST_TIME, LAST_TIME, bits(1.0), bits(1.0), bits(1.0), 0, 0, 6]
    trades = [0] * 8 * c["trades"] + (trade if closed else [])
    noted = [bits(0.25), bits(0.5)]
    points = [0] * c["points"]
    if closed and points:
        points[-1] = bits(1000.0)
    figures = figures_of(bits(c["capital"]), points, trades)
    return line(FINISH), line(told, *figures, *(trade + noted if closed else []))


def price(at, x):
    return {"prices": [x if i == at else 1.0 for i in range(4)]}


def step(kind, selector=0, skip=0, n=0):
    return bytes([kind, selector]) + skip.to_bytes(2, "little") + n.to_bytes(4, "little") + bytes(8)


def entry(*args, **fields):
    return {"lists": [step(*args, **fields), b"", b"", b""]}


def in_list(i, steps):
    return {"lists": [steps if i == j else b"" for j in range(4)]}


DEEP = {"K": 0, "rows_room": 28679, "mask": 0, "slots": []}
SHORT, BAD_SECOND, GOOD_TWO = bytes([27] * 15), step(27) + step(34), step(27) + step(28)
TREES = ["entry", "exit", "short entry", "short exit"]
GIVEN = {name: 1.0 for name in LEVELS} | {"liquidation": 1}
FULL = {"trades": 2, "entered": None}
# An entry is due, flat.
DUE = {"order": 1, "qty": 0.0, "entered": None}
# The same on a bar with a range.
WIDE = DUE | {"prices": [2.0, 4.0, 1.0, 3.0]}
# One fault for each number, in the paper's order.
FAULTS = [(10, {"rows_room": 26}), (12, {"capital": NAN}), (13, {"trades": 3}), (14, {"points": 4}),
          (11, price(0, INF)), (15, entry(0)), (16, {"order": 1, "lot": 2.0**-60})]

STEPS = [
    ("step", {}),
    # 10
    ("room of rows just large enough", {}),
    ("room of rows one word short", {"rows_room": 26}),
    ("room of no rows", {"rows_room": 0}),
    ("settings one word short", {"cut": SETTINGS}),
    ("state one word short", {"cut": STATE}),
    ("settings and room of rows one word short", {"cut": SETTINGS, "rows_room": 26}),
    # 12: K, D, lookback
    ("K 64", {"K": 64, "rows_room": 213, "bar_words": 74, "mask": 0}),
    ("K 65", {"K": 65, "rows_room": 216, "bar_words": 75, "mask": 0}),
    ("D 0", {"D": 0}),
    ("D 1", {"D": 1}),
    ("D 4096", DEEP | {"D": 4096}),
    ("D 4097", DEEP | {"D": 4097}),
    ("lookback 2, D 3", {"sizing": ("target", 0.5, 2)}),
    ("lookback 3, D 3", {"sizing": ("target", 0.5, 3)}),
    ("lookback 4095, D 4096", DEEP | {"D": 4096, "sizing": ("target", 0.5, 4095)}),
    ("lookback 4096, D 4096", DEEP | {"D": 4096, "sizing": ("target", 0.5, 4096)}),
    ("lookback 4096, D 4097", DEEP | {"D": 4097, "sizing": ("target", 0.5, 4096)}),
    # 13 and 14
    *[("rows held %d" % n, {"held": n}) for n in (0, 3, 4)],
    *[("equity points %d" % n, {"points": n}) for n in (3, 4, 5)],
    *[("trades %d" % n, {"trades": n}) for n in (1, 2, 3)],
    *[("bars seen %d" % n, {"bars": n}) for n in (MOST - 1, MOST, MOST + 1)],
    ("entry bar 2 of 3", {"entered": 2}),
    ("entry bar 3 of 3", {"entered": 3}),
    ("no entry bar", {"entered": None}),
    ("bar one word short", {"bar_words": 11}),
    ("bar one word long", {"bar_words": 13}),
    # 12: values and kinds
    ("capital 0", {"capital": 0.0}),
    ("capital infinite", {"capital": INF}),
    ("capital no number", {"capital": NAN}),
    ("sizing by quantity", {"sizing": ("quantity", 1.0)}),
    ("sizing by cash", {"sizing": ("cash", 1.0)}),
    ("sizing of an unknown kind", {"sizing": ("unknown", 0.0)}),
    ("fraction no number", {"sizing": ("fraction", NAN)}),
    ("quantity infinite", {"sizing": ("quantity", INF)}),
    ("cash infinite", {"sizing": ("cash", INF)}),
    ("target no number", {"sizing": ("target", NAN, 2)}),
    ("taker fee below 0", {"taker": -1.0}),
    ("taker fee no number", {"taker": NAN}),
    ("slippage by volume", {"slippage": ("impact", 1.0)}),
    ("slippage of an unknown kind", {"slippage": ("unknown", 0.0)}),
    ("basis points infinite", {"slippage": ("fixed", INF)}),
    ("impact no number", {"slippage": ("impact", NAN)}),
    ("participation 1", {"participation": 1.0}),
    ("participation infinite", {"participation": INF}),
    # 12: entries
    *[("order kind " + kind, {"kind": kind}) for kind in KINDS],
    *[("%s %s" % (name, x), {name: x}) for name in ("level", "limit", "maker") for x in (-5.0, INF, NAN)],
    ("level infinite, of a limit", {"kind": "limit", "level": -INF}),
    ("limit no number, of a stop", {"kind": "stop", "limit": NAN}),
    ("order kind unknown, all three not finite", {"kind": "unknown", "level": INF, "limit": NAN, "maker": INF}),
    ("limit and maker not finite", {"limit": INF, "maker": INF}),
    ("participation and order kind", {"participation": NAN, "kind": "unknown"}),
    # 12: levels
    ("levels given", GIVEN),
    ("stop loss infinite", GIVEN | {"stop": INF}),
    ("trailing stop infinite", GIVEN | {"trailing": INF}),
    ("take profit infinite", GIVEN | {"profit": INF}),
    ("max leverage infinite", GIVEN | {"leverage": INF}),
    ("max position infinite", GIVEN | {"position": INF}),
    ("all levels infinite", {name: INF for name in LEVELS}),
    ("risk sizing with a stop loss", {"sizing": ("risk", 1.0), "stop": 1.0}),
    ("risk sizing without a stop loss", {"sizing": ("risk", 1.0)}),
    ("risk no number, no stop loss", {"sizing": ("risk", NAN)}),
    *[("lot %r" % lot, {"lot": lot}) for lot in (1.0, -0.0, -5e-324, -1.0, INF, -INF, NAN)],
    ("maker and lot", {"maker": INF, "lot": -1.0}),
    # 11
    ("time any word", {"time": bits(NAN)}),
    ("open no number", price(0, NAN)),
    ("high infinite", price(1, INF)),
    ("low no number", price(2, NAN)),
    ("close infinite", price(3, INF)),
    ("close the largest number", price(3, sys.float_info.max)),
    ("volume infinite", {"volume": INF}),
    ("present slot infinite", {"slots": [INF, 0.0]}),
    ("absent slot infinite", {"slots": [1.0, INF]}),
    ("slot bit below K", {"mask": 0b10}),
    ("slot bit at K", {"mask": 0b100}),
    ("highest slot bit", {"mask": 1 << 63}),
    ("funding supplied", {"funding": (0.0, 0.0)}),
    ("mark infinite", {"funding": (INF, 0.0)}),
    ("rate no number", {"funding": (0.0, NAN)}),
    ("mark and rate of no funding", {"unsupplied": (INF, NAN)}),
    ("volume no number on the last bar", {"volume": NAN, "bars": MOST - 1}),
    # 15
    *[("kind %d" % kind, entry(kind)) for kind in (0, 4, 9, 12, 13, 27, 33, 34)],
    *[("kind %d over %d rows from %d back" % (kind, skip, n), entry(kind, 1, skip, n))
      for kind in (9, 10, 11, 12) for skip, n in ((0, 2), (1, 0), (2, 0), (3, 2), (4, 2), (1, 3), (65535, 2))],
    *[("kind %d over %d" % (kind, selector), entry(kind, selector, 1)) for kind in (10, 11) for selector in (2, 6, 7, 255)],
    ("slot 1", entry(2, 1)),
    ("slot 2", entry(2, 2)),
    ("look-back 2", entry(2, 1, n=2)),
    ("look-back 3", entry(2, 1, n=3)),
    ("jump just past the list", entry(32)),
    ("jump too far", entry(32, skip=1)),
    ("unused field", entry(27, 1)),
    *[(tree + " of 15 bytes", in_list(i, SHORT)) for i, tree in enumerate(TREES)],
    *[("second step of " + tree, in_list(i, BAD_SECOND)) for i, tree in enumerate(TREES)],
    ("second step of all four", {"lists": [BAD_SECOND] * 4}),
    ("four good lists", {"lists": [GOOD_TWO] * 4}),
    # 16
    *[("%r in lots of %r" % (q, lot), DUE | {"sizing": ("quantity", q), "lot": lot})
      for q, lot in ((3.7, 1.0), (0.5, 1.0), (1.0, 2.0**-52), (1.0, 2.0**-53), (1.0 - 2.0**-53, 2.0**-53), (1.0, 5e-324), (900.0, 1e300))],
    ("short in lots of 3", DUE | {"order": 2, "lot": 3.0}),
    ("the cap in too many lots", DUE | {"sizing": ("quantity", 1e300), "lot": 2.0**-44}),
    ("the cap in lots", DUE | {"sizing": ("quantity", 1e300), "lot": 2.0**-43}),
    ("no entry due, a lot of the least number", {"lot": 5e-324}),
    ("an exit due, a lot of the least number", {"order": 3, "lot": 5e-324, "qty": 0.0, "entered": None}),
    *[("kind %d at %r and %r of order %d in lots of %r" % (*waits, order, lot), WIDE | {"order": order, "waits": waits, "lot": lot})
      for waits in ((LIMIT, 0.5, 0.0), (LIMIT, 1.5, 0.0), (STOP, 3.5, 0.0), (STOP, 5.0, 0.0), (STOP_LIMIT, 3.5, 3.0), (STOP_LIMIT, 1.5, 5.0))
      for order in ENTRIES for lot in (3.0, 2.0**-50)],
    # several at once
    *[(" ".join(str(n) for n, _ in FAULTS[i:]), {k: v for _, fault in reversed(FAULTS[i:]) for k, v in fault.items()})
      for i in range(len(FAULTS))],
]

FINISHES = [
    ("room of rows one word short", {"rows_room": 26}),
    ("settings one word short", {"cut": SETTINGS}),
    ("state one word short", {"cut": STATE}),
    ("metrics one word short", {"cut": METRICS}),
    ("D 0", {"D": 0}),
    ("D 3", {"D": 3}),
    ("capital infinite", {"capital": INF}),
    ("trades 1", {"trades": 1}),
    ("trades 3", {"trades": 3}),
    ("equity points 4", {"points": 4}),
    ("equity points 5", {"points": 5}),
    ("bars seen %d" % MOST, {"bars": MOST}),
    ("bars seen %d" % (MOST + 1), {"bars": MOST + 1}),
    ("entry bar 3 of 3", {"entered": 3}),
    ("trades full, one open", FULL),
    ("trades full, one open, no bar seen", FULL | {"bars": 0}),
    ("trades full, none open", FULL | {"qty": 0.0}),
]


def calls(figures_of):
    for _, change in STEPS:
        yield from lent(GOOD | change)
        yield step_call(GOOD | change)
    for _, change in FINISHES:
        yield from lent(GOOD | change)
        yield finish_call(GOOD | change, figures_of)

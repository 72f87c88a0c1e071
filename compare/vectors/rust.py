"""The lists that the Rust original answers: leaves as they are, and rules, runs, metrics and roots as calls for the program `calls`.

compare/README.md has the line formats of the oracle, which makes the cases and answers them.
"""
import os
import subprocess

import steps
import tables
from words import (EQUITY, FIGURES, FINISH, FRESH, METRIC_WORDS, METRICS, ROOT, ROWS, RULE, RUN, SETTINGS, STATE, STATE_WORDS, STEP, STEPS,
                   TABLE, TRADES, TRADE_WORDS, bits, lend, lend_bytes, line, refusal, setting_words, words)

HERE = os.path.dirname(os.path.abspath(__file__))
ORACLE = os.path.join(HERE, "../oracle/target/release/oracle")

# The rooms of a run.
ROW_ROOM, EQUITY_ROOM, TRADE_ROOM = 4096, 4096, 8192
RUN_WORDS = 30


def oracle(*args, given=None):
    ran = subprocess.run([ORACLE, *args], input=given, stdout=subprocess.PIPE, text=True, check=True)
    return ran.stdout


def seeds():
    """The lists, each with what answers it and its seed."""
    with open(os.path.join(HERE, "seeds")) as listed:
        rows = [row.split() for row in listed if not row.startswith("#")]
    return {name: (kind, seed) for name, kind, seed in rows}


SEEDS = seeds()


def cases(name):
    """The cases of a list, and its answers."""
    kind, seed = SEEDS[name]
    given = oracle("gen", name, seed)
    return given, oracle(kind, given=given)


def leaves():
    """Cases and answers of the program `leaves`."""
    both = [cases(name) for name, (kind, _) in SEEDS.items() if kind == "leaf"]
    return "".join(given for given, _ in both), "".join(told for _, told in both)


def pairs(name):
    given, told = cases(name)
    return zip(given.splitlines(), told.splitlines(), strict=True)


def roots():
    for given, told in pairs("root"):
        yield line(ROOT, *words(given)), told


# ---- metrics


def points(equities):
    return [word for equity in equities for word in (0, equity)]


RUST_TRADE = 8
# Two words of a trade that no figure reads.
UNREAD = [0x5A5AA5A55A5AA5A5, 0x7FF0000000000000]


def ten_words(trades):
    """Trades of the Rust's eight words as trades of ten."""
    return [word for i in range(0, len(trades), RUST_TRADE) for word in trades[i : i + RUST_TRADE] + UNREAD]


def figures():
    yield lend(METRICS, [], METRIC_WORDS)
    for given, told in pairs("metrics"):
        initial, count, *rest = words(given[2:])
        yield lend(EQUITY, points(rest[:count]))
        yield lend(TRADES, ten_words(rest[count + 1 :]))
        yield line(FIGURES, initial), line(0, *words(told))
    yield from ragged_figures()


def ragged_figures():
    """13: trades, then points, that are not whole records."""
    two = points([bits(100.0), bits(101.0)])
    one = TRADE_WORDS
    for equity, trades in (([], list(range(one - 1))), (two, list(range(one + 1))), (two[:1], []), (two[:3], list(range(one)))):
        yield lend(EQUITY, equity)
        yield lend(TRADES, trades)
        yield line(FIGURES, bits(100.0)), line(refusal(13, 0))


def figures_of(initial, equities, trades):
    """The nine figures of one case; trades have the Rust's eight words."""
    given = "M " + line(initial, len(equities), *equities, len(trades) // RUST_TRADE, *trades)
    return words(oracle("metrics", given=given + "\n"))


# ---- rules


def rules():
    for given, told in pairs("rule"):
        table, rest = given.split(" ", 1)
        data = bytes.fromhex(table)
        count, *rest = words(rest)
        yield from rule_case(data, rest[:-4], count, rest[-4:], words(told))


def rule_case(data, rows, count, position, told):
    """The four rules by the plain evaluator, and by their steps over the window."""
    slots, depth = tables.window(data, 0)
    width = 7 + slots
    assert len(rows) == count * width
    held = [rows[i * width : (i + 1) * width] for i in range(count)]
    ran = [steps.run(steps.code(tree), held[-depth:], position) for tree in tables.check(data)[2]]
    assert [says for says, _ in ran] == told
    yield lend_bytes(TABLE, data)
    yield lend(ROWS, rows)
    for tree in range(4):
        yield tables.translate_call(data, tree)
    yield line(RULE, *position), line(*told)
    yield line(RUN, *position, slots, depth), line(*told, *(visits for _, visits in ran))


# ---- runs


def settings_of(run):
    """The settings of a run's first line, in which each optional one stands behind a flag."""
    assert len(run) == RUN_WORDS
    optional = [run[i + 1] if run[i] else None for i in range(12, 22, 2)]
    return setting_words([*run[:12], 0, 0, 0, 0, 0, *run[22:]], optional)


def fresh_call(run):
    """Cash is the capital, and every other word is 0."""
    return line(FRESH), line(0, *[run[2] if i == 8 else 0 for i in range(STATE_WORDS)])


def runs(name):
    given, told = cases(name)
    answers = iter(told.splitlines())
    yield lend(METRICS, [], METRIC_WORDS)
    yield lend(STATE, [], STATE_WORDS)
    for text in given.splitlines():
        letter, _, rest = text.partition(" ")
        if letter == "R":
            run = words(rest)
            yield lend(SETTINGS, settings_of(run))
            yield lend(ROWS, [], ROW_ROOM)
            yield lend(EQUITY, [], EQUITY_ROOM)
            yield lend(TRADES, [], TRADE_ROOM)
            yield fresh_call(run)
            seen = 0
        elif letter == "T":
            data = bytes.fromhex(rest)
            yield lend_bytes(TABLE, data)
            for tree in range(4):
                yield tables.translate_call(data, tree)
        elif letter == "B":
            answer = next(answers)
            refused = answer == "refused 16"
            yield line(STEP, *words(rest)), line(refusal(16, seen)) if refused else line(0, *words(answer))
            seen += not refused
        else:
            yield line(FINISH), line(0, *words(next(answers)))
    assert next(answers, None) is None


# The runs of `orders` before those that may decide twice, and every how many-th is taken.
DECIDED_ONCE, EVERY = 69, 4


def kept_orders():
    """Runs of `orders` whose settings name market orders from the second bar on: an order keeps its kind, level and limit."""
    number, stepped, settings = 0, False, None
    for given, told in runs("orders"):
        taken = number < DECIDED_ONCE and number % EVERY == 0
        call, *content = words(given)
        if call == SETTINGS:
            stepped, settings = False, content[1:]
        if taken:
            yield given, told
        if taken and call == STEP and not stepped:
            stepped = True
            yield lend(SETTINGS, settings[:20] + [0, bits(-50.0), bits(50.0)] + settings[23:])
        number += call == FINISH


# The bars of a call over many, at most: so that a line stays short.
DAY = 16


def days(name):
    """The runs of a list with their bars in calls over many: a call stops at a bar that is refused, and the next goes on behind it."""
    bars, told, trades, point = [], [], 0, []

    def call(answer):
        done = len(told)
        pair = line(STEPS, *[word for bar in bars for word in bar]), line(answer, done, trades, *point)
        bars.clear()
        told.clear()
        return pair

    for given, answer in runs(name):
        number, *content = words(given)
        if number != STEP:
            if bars:
                yield call(0)
            if number == FRESH:
                trades, point = 0, []
            if number == FINISH:
                # No bars at all, and a list that is not whole bars.
                yield call(0)
                bars.append([0] * 7)
                yield call(refusal(13, 0))
            yield given, answer
            continue
        bars.append(content)
        said, *rest = words(answer)
        if said:
            yield call(said)
            continue
        told.append(rest)
        point = rest[:2]
        trades += len(rest) > 2
        if len(bars) == DAY:
            yield call(0)

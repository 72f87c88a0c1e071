"""Rule tables: the check, the depth of the window and the steps of each, as calls for the program `calls`.

The answers are worked out here from document 01, "The rule table" and "Refusal numbers", and request 8, by recursive descent over the
nodes; the engine goes over the table from its last node to its first and knows nothing of this.
"""
import math
import random
import struct

import steps
from words import CHECK, DEPTH, NODE_ROOM, SILENT, TABLE, TRANSLATE, UNTOUCHED, bits, lend_bytes, line, refusal

OPERAND, CONDITION, SERIES = "operand", "condition", "series"

# "one child that must be a Price or a Ref" (request 8)
SERIES_KINDS = (2, 3)
EXTREMES = (9, 10)

# "Kinds": the sort; the children's sorts (None: as many conditions as the node says); selectors; what n is; the constant.
KINDS = {
    1: (OPERAND, [], 1, "zero", "finite"),
    2: (OPERAND, [], 1, "slot", "zero"),
    3: (OPERAND, [], 7, "zero", "zero"),
    4: (OPERAND, [OPERAND], 1, "any", "zero"),
    24: (CONDITION, [OPERAND] * 3, 1, "zero", "zero"),
    25: (CONDITION, [OPERAND], 1, "any", "zero"),
    26: (CONDITION, [OPERAND], 1, "any", "zero"),
    27: (CONDITION, None, 1, "zero", "zero"),
    28: (CONDITION, None, 1, "zero", "zero"),
    29: (CONDITION, [CONDITION], 1, "zero", "zero"),
    30: (CONDITION, [], 2, "zero", "zero"),
    31: (CONDITION, [], 5, "any", "zero"),
}
for kind in range(5, 9):
    KINDS[kind] = (OPERAND, [OPERAND] * 2, 1, "zero", "zero")
for kind in EXTREMES:
    KINDS[kind] = (OPERAND, [SERIES], 1, "bars", "zero")
for kind in range(16, 24):
    KINDS[kind] = (CONDITION, [OPERAND] * 2, 1, "zero", "zero")


# ---- the checker


class Refused(Exception):
    pass


class Misfit(Exception):
    pass


def own_bytes_right(node, version, slots):
    kind, selector, children, n, bits = node
    if kind not in KINDS or (version == 1 and kind in EXTREMES):
        return False
    _, takes, selectors, use_of_n, constant = KINDS[kind]
    if selector >= selectors:
        return False
    if takes is not None and children != 0:
        return False
    if use_of_n == "zero" and n != 0:
        return False
    if use_of_n == "slot" and n >= slots:
        return False
    if use_of_n == "bars" and not 1 <= n <= 4095:
        return False
    if constant == "zero":
        return bits == 0
    return math.isfinite(struct.unpack("<d", struct.pack("<Q", bits))[0])


def read_tree(nodes, at, end, sort):
    """The tree of that sort at node `at`, as (number, node, children), and the number just past it."""
    if at == end:
        raise Misfit(at)
    node = nodes[at]
    has, takes = KINDS[node[0]][:2]
    if has != sort if sort != SERIES else node[0] not in SERIES_KINDS:
        raise Misfit(at)
    wanted = [CONDITION] * node[2] if takes is None else takes
    below, next_at = [], at + 1
    for child in wanted:
        tree, next_at = read_tree(nodes, next_at, end, child)
        below.append(tree)
    return (at, node, below), next_at


def too_deep(tree, level):
    number, _, below = tree
    found = [number] if level > 32 else []
    for child in below:
        found += too_deep(child, level + 1)
    return found


def reach(tree):
    _, (kind, _, _, n, _), below = tree
    most = max((reach(child) for child in below), default=0)
    if kind in (4, 25, 26):
        return n + most
    if kind in (22, 23):
        return 1 + most
    if kind in EXTREMES:
        return n - 1 + most
    return most


def check(data):
    if len(data) < 16:
        raise Refused(1, 0)
    if data[:3] != b"RTB":
        raise Refused(2, 0)
    slots = data[3]
    version, total, *counts = struct.unpack("<6H", data[4:16])
    if version not in (1, 2):
        raise Refused(3, 0)
    if slots > 64 or not 2 <= total <= 256 or counts[0] < 1 or counts[1] < 1 or sum(counts) != total:
        raise Refused(4, 0)
    if len(data) != 16 + 16 * total:
        raise Refused(5, 0)
    nodes = [struct.unpack("<BBHIQ", data[16 + 16 * i : 32 + 16 * i]) for i in range(total)]
    for number, node in enumerate(nodes):
        if not own_bytes_right(node, version, slots):
            raise Refused(6, number)
    trees, at = [], 0
    for count in counts:
        if count:
            try:
                tree, past = read_tree(nodes, at, at + count, CONDITION)
            except Misfit as place:
                raise Refused(7, place.args[0])
            if past != at + count:
                raise Refused(7, past)
            trees.append(tree)
        else:
            trees.append(None)
        at += count
    there = [tree for tree in trees if tree]
    deep = [number for tree in there for number in too_deep(tree, 1)]
    if deep:
        raise Refused(8, min(deep))
    for tree in there:
        if reach(tree) > 4095:
            raise Refused(9, tree[0])
    return total, max(reach(tree) for tree in there) + 1, trees


def told(data):
    """What `tablecheck` writes."""
    try:
        return "accepted nodes %d rows %d\n" % check(data)[:2]
    except Refused as why:
        return "refused %d at %d\n" % why.args


def check_call(data):
    try:
        return line(CHECK), line(0, *check(data)[:2])
    except Refused as why:
        return line(CHECK), line(refusal(*why.args), 0, 0)


def window(data, lookback):
    """K and D of an accepted table."""
    rows = check(data)[1]
    return data[3], max(rows, lookback + 1)


def depth_call(data, lookback):
    try:
        slots, rows = window(data, lookback)
        answer = (0, rows, 8 * (7 + slots) * rows) if lookback <= 4095 else (refusal(12, 7), 0, 0)
    except Refused as why:
        answer = (refusal(*why.args), 0, 0)
    return line(DEPTH, lookback), line(*answer)


def tests(tree):
    """The tests of a tree in table order, as (number, reach): comparisons, crosses, Between, Rising and Falling."""
    number, (kind, *_), below = tree
    own = [(number, reach(tree))] if 16 <= kind <= 26 else []
    return own + [test for child in below for test in tests(child)]


def silent(data, rows):
    """The numbers of the tests that reach back so many bars or more."""
    return [number for tree in check(data)[2] if tree for number, back in tests(tree) if back >= rows]


def silent_call(data, rows, size=None, short_by=0):
    """The silent tests into a list of so many words, of one for each of them, or of so many less."""
    try:
        numbers = silent(data, rows)
        places = len(numbers) - short_by if size is None else size
        if places < len(numbers):
            answer = [refusal(10, 18)] + [UNTOUCHED] * places + [0]
        else:
            answer = [0] + numbers + [UNTOUCHED] * (places - len(numbers)) + [len(numbers)]
    except Refused as why:
        places = size or 0
        answer = [refusal(*why.args)] + [UNTOUCHED] * places + [0]
    return line(SILENT, rows, places), line(*answer)


def told_depth(data, lookback):
    """What `depth` writes of an accepted table; a dump has a header of 256 bytes."""
    slots, rows = window(data, lookback)
    row = 8 * (7 + slots)
    return "rows %d\nbytes a row %d\nbytes of the window %d\nbytes of a dump %d\n" % (rows, row, row * rows, 256 + row * rows)


def translate_call(data, tree, short_by=0):
    """A tree into a room of 64 bytes a node, or of so many bytes less."""
    size = NODE_ROOM * struct.unpack("<4H", data[8:16])[tree] - short_by
    if short_by:
        return line(TRANSLATE, tree, size), line(refusal(10, 3 + tree), 0)
    listed = steps.code(check(data)[2][tree])
    return line(TRANSLATE, tree, size), line(0, len(listed), *steps.words(listed))


# ---- writing tables


def node(kind, selector=0, children=0, n=0, constant=0):
    return struct.pack("<BBHIQ", kind, selector, children, n, constant)


def const(x):
    return [node(1, constant=bits(x))]


def ref(slot):
    return [node(2, n=slot)]


def price(selector):
    return [node(3, selector)]


CLOSE = price(3)


def prev(a, n):
    return [node(4, n=n)] + a


def extreme(kind, series, n):
    return [node(kind, n=n)] + series


def two(kind, a, b):
    return [node(kind)] + a + b


def between(x, low, high):
    return [node(24)] + x + low + high


def trend(kind, a, n):
    return [node(kind, n=n)] + a


def group(kind, *conditions):
    return [node(kind, children=len(conditions))] + sum(conditions, [])


def negated(c):
    return [node(29)] + c


def in_position(selector):
    return [node(30, selector)]


def bars_since(selector, k):
    return [node(31, selector, n=k)]


def header(slots, total, counts, mark=b"RTB", version=1):
    return mark + struct.pack("<B6H", slots, version, total, *counts)


def table(slots, *trees, **fields):
    trees = list(trees) + [[]] * (4 - len(trees))
    counts = fields.pop("counts", [len(tree) for tree in trees])
    total = fields.pop("total", sum(counts))
    return header(slots, total, counts, **fields) + b"".join(sum(trees, []))


YES, NO = group(27), group(28)
EXAMPLE = table(2, two(22, ref(0), ref(1)), two(17, CLOSE, prev(CLOSE, 2)))


def nest(levels):
    """A condition of that many levels."""
    c = YES
    for _ in range(levels - 1):
        c = negated(c)
    return c


def nest_operand(levels):
    a = CLOSE
    for _ in range(levels - 2):
        a = prev(a, 1)
    return two(16, a, CLOSE)


# ---- the cases


def headers():
    yield EXAMPLE
    for size in (0, 1, 2, 3, 15, 16, 17, 31, 127):
        yield EXAMPLE[:size]
    yield EXAMPLE + b"\0"
    yield EXAMPLE + b"\0" * 16
    for mark in (b"rTB", b"RtB", b"RTb", b"TRB", b"\0\0\0", b"RTA"):
        yield mark + EXAMPLE[3:]
    for version in (0, 1, 2, 256, 257, 65535):
        yield table(0, YES, NO, version=version)
    for slots in (0, 1, 2, 63, 64, 65, 66, 128, 255):
        yield table(slots, YES, NO)
    for total in (0, 1, 2, 3, 255, 256, 257, 258, 65535):
        yield table(0, YES, NO, total=total)
    for counts in ([0, 2, 0, 0], [2, 0, 0, 0], [1, 1, 1, 0], [1, 1, 0, 1], [1, 2, 0, 0], [0, 0, 1, 1], [65535, 3, 0, 0], [1, 1, 65535, 65535]):
        yield table(0, YES, NO, counts=counts, total=2)
    # the sum of the counts does not wrap at 16 bits
    yield table(0, YES, NO, counts=[1, 1, 32768, 32768], total=2)
    yield table(0, YES, NO)
    yield table(0, YES, NO, YES)
    yield table(0, YES, NO, [], NO)
    yield table(0, YES, NO, YES, NO)
    # as many nodes as there may be, and one more
    full = group(27, *[YES] * 254)
    yield table(0, full, YES)
    yield table(0, YES, full)
    yield table(0, full, YES + YES, counts=[255, 2, 0, 0], total=257)
    yield table(0, YES, YES, group(27, *[NO] * 253))
    # several of the header's rules at once
    yield b"RTX" + table(65, YES, NO, version=2)[3:]
    yield table(65, YES, NO, version=2)
    yield table(65, YES, NO) + b"x"
    yield table(64, YES, NO) + b"x"
    yield b"RTB"


def nodes():
    def with_node(bad, slots=2):
        yield table(slots, [bad], YES)
        yield table(slots, YES, [bad])
        yield table(slots, YES, NO, group(27, NO, [bad], YES))

    for kind in list(range(0, 36)) + [64, 128, 255]:
        yield from with_node(node(kind))
    # each field of each kind: set where it is unused, and out of its range
    for kind in sorted(set(KINDS) - set(EXTREMES)):
        for selector in (1, 2, 4, 5, 6, 7, 255):
            yield table(2, YES, [node(kind, selector)])
        for children in (1, 2, 256, 65535):
            yield table(2, YES, [node(kind, children=children)])
        for n in (1, 2, 63, 64, 4095, 4096, 65536, 4294967295):
            yield table(2, YES, [node(kind, n=n)])
        for constant in (1, 1 << 63, bits(1.5), bits(math.inf), bits(-math.inf), bits(math.nan), 0x7FEFFFFFFFFFFFFF, 0xFFF0000000000001):
            yield table(2, YES, [node(kind, constant=constant)])
    # a constant, finite or not
    for word in (0, 1 << 63, 1, 0x000FFFFFFFFFFFFF, 0x7FEFFFFFFFFFFFFF, 0xFFEFFFFFFFFFFFFF, 0x7FF0000000000000,
                 0xFFF0000000000000, 0x7FF0000000000001, 0x7FF8000000000000, 0xFFFFFFFFFFFFFFFF):
        yield table(0, two(16, [node(1, constant=word)], CLOSE), YES)
    # slots on both sides of K
    for slots in (0, 1, 2, 63, 64):
        for slot in (0, 1, 2, 62, 63, 64, 65, 4294967295):
            yield table(slots, two(16, ref(slot), CLOSE), YES)
    for selector in range(9):
        yield table(0, two(16, price(selector), CLOSE), YES)
        yield table(0, in_position(selector), YES)
        yield table(0, bars_since(selector, 7), YES)
    # the lowest wrong node, and a wrong node beside what later rules refuse
    yield table(0, two(16, [node(9)], [node(10)]), YES)
    yield table(0, CLOSE, [node(0)])
    yield table(0, [node(0)], CLOSE)
    yield table(0, nest(40), [node(12)])
    yield table(0, trend(25, CLOSE, 5000), [node(30, 2)])


def orders():
    yield table(0, CLOSE, YES)  # an operand is no condition
    yield table(0, YES, CLOSE)
    yield table(0, YES, NO, CLOSE, YES)
    yield table(0, two(16, YES, CLOSE), YES)  # nor a condition an operand
    yield table(0, two(16, CLOSE, YES), YES)
    yield table(0, prev(CLOSE, 1), YES)
    yield table(0, two(16, two(5, CLOSE, CLOSE), two(8, CLOSE, YES)), YES)
    yield table(0, between(CLOSE, CLOSE, NO), YES)
    yield table(0, negated(CLOSE), YES)
    yield table(0, group(27, YES, CLOSE, YES), YES)
    yield table(0, trend(26, NO, 3), YES)
    # cut short: just past the tree's count
    yield table(0, [node(16)], YES)
    yield table(0, [node(16)] + CLOSE, YES)
    yield table(0, YES, [node(16)] + CLOSE)
    yield table(0, YES, NO, [node(29)])
    yield table(0, YES, NO, [], [node(24)] + CLOSE + CLOSE)
    yield table(0, YES, NO, [node(22)] + CLOSE, YES)
    yield table(0, [node(27, children=3)] + YES + YES, YES)
    for children in (1, 2, 255, 256, 65535):
        yield table(0, [node(28, children=children)], YES)
        yield table(0, YES, [node(28, children=children)] + YES)
    # complete too soon: just past its last fitting node
    yield table(0, YES + YES, NO)
    yield table(0, YES, NO + NO)
    yield table(0, YES + CLOSE, NO)
    yield table(0, two(16, CLOSE, CLOSE) + CLOSE, NO)
    yield table(0, [node(27, children=1)] + YES + YES, NO)
    yield table(0, YES, NO, YES + YES, NO)
    yield table(0, YES, NO, [], YES + NO)
    # two trees wrong: the lower place
    yield table(0, CLOSE, CLOSE)
    yield table(0, YES + YES, CLOSE)
    yield table(0, [node(29)], CLOSE)
    yield table(0, YES, [node(29)], CLOSE, CLOSE)
    # one tree's end is not another's
    yield table(0, two(16, CLOSE, CLOSE), YES, counts=[2, 2, 0, 0])
    yield table(0, YES, two(16, CLOSE, CLOSE), counts=[2, 2, 0, 0])
    yield table(0, YES, two(16, CLOSE, CLOSE), counts=[1, 2, 1, 0])
    # an order that is wrong beside nesting and reach that are too
    yield table(0, nest(40), CLOSE)
    yield table(0, trend(25, CLOSE, 5000), YES + YES)


def nestings():
    for levels in (1, 2, 31, 32, 33, 34, 60):
        yield table(0, nest(levels), YES)
        yield table(0, YES, nest(levels))
        yield table(0, YES, NO, [], nest(levels))
        yield table(0, group(27, YES, nest(levels - 1) if levels > 1 else YES, NO), YES)
        if levels > 1:
            yield table(0, nest_operand(levels), YES)
            yield table(0, two(16, CLOSE, nest_operand(levels)[1:-1]), YES)
    yield table(0, nest(33), nest(40))
    yield table(0, YES, nest(40), nest(33))
    yield table(0, group(28, nest(31), nest(32), nest(33)), YES)
    yield table(0, group(28, nest(32), nest(31)), YES)
    yield table(0, nest(33), trend(25, CLOSE, 5000))
    yield table(0, trend(25, CLOSE, 5000), nest(33))


def reaches():
    for n in (0, 1, 4094, 4095, 4096, 65535, 65536, 4294967295):
        yield table(0, trend(25, CLOSE, n), YES)
        yield table(0, YES, trend(26, CLOSE, n))
        yield table(0, two(17, prev(CLOSE, n), CLOSE), YES)
        yield table(0, two(17, CLOSE, prev(const(1.0), n)), YES)
        yield table(0, two(22, CLOSE, prev(CLOSE, n)), YES)
        yield table(0, two(23, prev(CLOSE, n), CLOSE), YES)
        yield table(0, between(CLOSE, CLOSE, prev(CLOSE, n)), YES)
        yield table(0, YES, NO, trend(26, CLOSE, n))
        yield table(0, YES, NO, [], trend(26, CLOSE, n))
        yield table(0, bars_since(2, n), YES)  # its n is no reach
    for a, b in ((2047, 2048), (2048, 2048), (4095, 0), (4095, 1), (4294967295, 1), (4294967295, 4294967295), (2147483648, 2147483648)):
        yield table(0, trend(25, prev(CLOSE, a), b), YES)
        yield table(0, two(16, prev(prev(CLOSE, a), b), CLOSE), YES)
        yield table(0, two(16, prev(CLOSE, a), prev(CLOSE, b)), YES)
        yield table(0, two(22, prev(prev(CLOSE, a), b), const(1.0)), YES)
    # sums of n that would wrap at 32 bits, or at 64 with enough of them
    deep = CLOSE
    for _ in range(30):
        deep = prev(deep, 4294967295)
    yield table(0, two(16, deep, CLOSE), YES)
    yield table(0, two(22, prev(prev(CLOSE, 2), 3), const(1.0)), YES)
    yield table(0, negated(group(27, trend(25, CLOSE, 7), trend(26, CLOSE, 9))), trend(25, CLOSE, 8))
    # the first such tree
    yield table(0, trend(25, CLOSE, 4096), trend(25, CLOSE, 4097))
    yield table(0, YES, trend(25, CLOSE, 4096), trend(25, CLOSE, 4097))
    yield table(0, YES, trend(25, CLOSE, 4095), trend(25, CLOSE, 4097), YES)


def extremes():
    """Highest and Lowest: n, what they stand over, their reach, their version (request 8)."""
    for kind in EXTREMES:
        for n in (0, 1, 2, 20, 4094, 4095, 4096, 65536, 4294967295):
            for version in (1, 2):
                yield table(1, two(16, CLOSE, extreme(kind, price(1), n)), two(17, extreme(kind, ref(0), n), CLOSE), version=version)
        for below in (const(1.0), ref(0), ref(1), price(6), price(7), prev(CLOSE, 1), two(5, CLOSE, CLOSE), YES, [], extreme(9, CLOSE, 2)):
            yield table(1, YES, two(16, extreme(kind, below, 3), CLOSE), version=2)
            yield table(1, trend(25, extreme(kind, below, 3), 1), YES, version=2)
        # over the next tree's node, which is no child of it
        yield table(0, [node(16)] + CLOSE + [node(kind, n=2)], two(16, CLOSE, CLOSE), version=2)
        yield table(0, [node(25), node(kind, n=2)], CLOSE, version=2)
        for fields in ({"selector": 1}, {"children": 1}, {"constant": 1}):
            yield table(0, two(16, [node(kind, n=2, **fields)] + CLOSE, CLOSE), YES, version=2)
        # n - 1 and what is above it, on both sides of 4,095
        for n, back in ((4095, 0), (4095, 1), (4095, 2), (2048, 2048), (2048, 2049), (1, 4095), (1, 4096), (2, 4294967295)):
            yield table(0, two(16, CLOSE, prev(extreme(kind, CLOSE, n), back)), YES, version=2)
            yield table(0, YES, trend(26, extreme(kind, CLOSE, n), back), version=2)
        yield table(0, two(22, extreme(kind, CLOSE, 4095), CLOSE), YES, version=2)
        yield table(0, YES, NO, [], two(23, CLOSE, prev(extreme(kind, CLOSE, 4095), 1)), version=2)
        # on the 31st, 32nd and 33rd level
        for levels in (30, 31, 32):
            yield table(0, nest_operand(levels)[:-2] + extreme(kind, CLOSE, 5) + CLOSE, YES, version=2)
    # the example, of either version, and of none
    for version in (1, 2, 3, 258, 512):
        yield EXAMPLE[:4] + version.to_bytes(2, "little") + EXAMPLE[6:]


def random_operand(rng, slots, room):
    if room < 3 or rng.random() < 0.4:
        leaves = [lambda: const(rng.uniform(-100, 100)), lambda: price(rng.randrange(7))]
        if slots:
            leaves.append(lambda: ref(rng.randrange(slots)))
        return rng.choice(leaves)()
    if rng.random() < 0.4:
        return prev(random_operand(rng, slots, room - 1), rng.choice((0, 1, 5, 500)))
    a = random_operand(rng, slots, (room - 1) // 2)
    return two(rng.randrange(5, 9), a, random_operand(rng, slots, (room - 1) // 2))


def random_condition(rng, slots, room):
    if room < 8 or rng.random() < 0.3:
        return rng.choice([in_position(rng.randrange(2)), bars_since(rng.randrange(5), rng.randrange(100)), YES, NO])
    part = (room - 1) // 3
    what = rng.randrange(6)
    if what == 0:
        return two(rng.randrange(16, 24), random_operand(rng, slots, part), random_operand(rng, slots, part))
    if what == 1:
        return between(*[random_operand(rng, slots, part) for _ in range(3)])
    if what == 2:
        return trend(rng.randrange(25, 27), random_operand(rng, slots, part), rng.randrange(1000))
    if what == 3:
        return negated(random_condition(rng, slots, part))
    return group(rng.randrange(27, 29), *[random_condition(rng, slots, part) for _ in range(rng.randrange(4))])


def random_table(rng):
    slots = rng.choice((0, 1, 2, 8, 64))
    trees = [random_condition(rng, slots, 30) for _ in range(4)]
    for short in (2, 3):
        if rng.random() < 0.4:
            trees[short] = []
    return table(slots, *trees)


def damaged(rng, data):
    """A good table with a few bytes changed, a node moved, or a count shifted."""
    data = bytearray(data)
    what = rng.randrange(5)
    if what == 0:
        for _ in range(rng.randrange(1, 3)):
            data[rng.randrange(len(data))] = rng.choice((0, 1, 2, 16, 27, 28, 255, rng.randrange(256)))
    elif what == 1:
        at = 16 * rng.randrange(1, len(data) // 16)
        data[at] = rng.randrange(33)
    elif what == 2 and len(data) > 48:
        a, b = 16 * rng.randrange(1, len(data) // 16), 16 * rng.randrange(1, len(data) // 16)
        data[a : a + 16], data[b : b + 16] = data[b : b + 16], data[a : a + 16]
    elif what == 3:
        x, y = rng.sample(range(4), 2)
        data[8 + 2 * x] = (data[8 + 2 * x] + 1) % 256
        data[8 + 2 * y] = (data[8 + 2 * y] - 1) % 256
    else:
        at = 16 * rng.randrange(1, len(data) // 16)
        data[at + 2] = rng.randrange(4)
    return bytes(data)


def at_random():
    rng = random.Random(1)
    for _ in range(150):
        good = random_table(rng)
        yield good
        yield damaged(rng, good)


def cases():
    for part in (headers, nodes, orders, nestings, reaches, at_random, extremes):
        yield from part()


# A lookback within the reach of most tables, above it, the largest, and one more.
LOOKBACKS = [0, 1, 100, 4095, 4096]
# Numbers of rows that have nothing to do with the table.
WINDOWS = [0, 1, 2, 500, 4095, 4096, 4097, (1 << 64) - 1]
# As many nodes as a table has whose steps are listed.
FEW_NODES = 40


def calls():
    refused = set()
    for i, data in enumerate(cases()):
        yield lend_bytes(TABLE, data)
        yield check_call(data)
        yield depth_call(data, LOOKBACKS[i % len(LOOKBACKS)])
        try:
            total, needed = check(data)[:2]
        except Refused as why:
            yield silent_call(data, 1, size=i % 3)
            refused.add(why.args[0])
            yield line(TRANSLATE, i % 4, NODE_ROOM), line(refusal(*why.args), 0)
            continue
        # one row short, half of them, as many as are needed, any number; a list of just enough places, and of one more or less
        for rows in sorted({needed - 1, needed // 2, needed, WINDOWS[i % len(WINDOWS)]}):
            yield silent_call(data, rows)
        yield silent_call(data, needed - 1, size=len(silent(data, needed - 1)) + 1)
        if silent(data, needed - 1):
            yield silent_call(data, needed - 1, short_by=1)
        if total <= FEW_NODES:
            yield translate_call(data, i % 2)
            yield translate_call(data, i % 2, short_by=1)
            yield translate_call(data, 2 + i % 2)
    assert refused == set(range(1, 10)), refused

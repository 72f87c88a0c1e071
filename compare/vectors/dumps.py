"""A loss of power: the size of a dump, dumps, parts of them and restores, as calls for the program `calls`.

The image is request 11 written once more: FIELDS says which bytes hold which word of the state, `order` in which order bytes are written, and
`broken` what 19 is given for. After its answer a dump tells the area, a part the count and the area, a restore the state and the rows: those it
was lent where it is refused.
A case is the good call with something changed (GOOD, as in refusals.py); D is 3 and K 2 in it, so that an image has 472 bytes.
"""
import math

import refusals
from refusals import INF, MOST, NAN, settings_broken, settings_of, state_broken, state_of
from words import (AREA, DUMP, DUMP_BYTES, PART, RESTORE, ROWS, SETTINGS, STATE, STATE_WORDS, UNTOUCHED, bits, lend, lend_bytes, line, number, refusal)

HEAD, MARK, VERSION = 256, b"WDP", 1
# The first byte, how many, the word of the state. Equity points and trades are not in an image.
FIELDS = [(8, 4, 0), (12, 4, 1), (16, 1, 4), (17, 1, 17), (18, 1, 6), (20, 4, 7), (24, 8, 5),
          *[(32 + 8 * i, 8, 8 + i) for i in range(9)], *[(104 + 8 * i, 8, 18 + i) for i in range(4)]]
# The words of a state that are floats.
FLOATS = [8, 9, 10, 12, 13, 14, 16, 18, 19, 20, 21]
# A byte of flash that is cleared.
CLEARED = 0xFF

# "words" of the state that differ; the area's bytes and what stands in it; which bytes of the order are to be written.
GOOD = refusals.GOOD | {"words": {}, "area": 472, "from": 0, "upto": 472}


def size(slots, depth):
    """256 + D·8·(7 + K) bytes, always."""
    return HEAD + depth * 8 * (7 + slots)


def order(length):
    """The places of the bytes as they are written: the body, then the header, and of it the mark last."""
    return [*range(HEAD, length), *range(len(MARK), HEAD), *range(len(MARK))]


# ---- what is lent

def state_words(c):
    words = state_of(c)
    for i, word in c["words"].items():
        words[i] = word
    return words[:-1] if c["cut"] == STATE else words


def row(c, i):
    """A row with its first slot present and the others absent."""
    slots = [bits(0.5 + i)] + [0] * c["K"]
    return [60 * (i + 1), *map(bits, (100.0 + i, 102.0 + i, 99.0 + i, 101.0 + i, 7.0)), min(c["K"], 1), *slots[:c["K"]]]


def row_room(c):
    """The rows held, and what stands behind them."""
    held = [word for i in range(c["held"]) for word in row(c, i)]
    return (held + [UNTOUCHED] * c["rows_room"])[:c["rows_room"]]


def lent(c):
    settings = settings_of(c)
    yield lend(SETTINGS, settings[:-1] if c["cut"] == SETTINGS else settings)
    yield lend(STATE, state_words(c))
    yield lend(ROWS, row_room(c))


# ---- the image

def plain(words):
    """A state as it is written: of a NaN there is one pattern, and a word that its kind does not use is 0."""
    words = [bits(number(word)) if i in FLOATS else word for i, word in enumerate(words)]
    if words[4] not in (1, 2, 3):
        words[4] = words[5] = 0
    if words[4] not in (1, 2) or words[17] not in (1, 2, 3):
        words[17] = words[18] = 0
    if words[17] != 3:
        words[19] = 0
    words[6:8] = [1, words[7]] if words[6] else [0, 0]
    return words


def image_of(c):
    """The image of a state and of the last D rows that it holds."""
    rows = [row(c, i) for i in range(c["held"])][-c["D"]:]
    words = plain(state_words(c))
    words[1] = len(rows)
    image = bytearray(size(c["K"], c["D"]))
    image[:8] = MARK + bytes([c["K"]]) + VERSION.to_bytes(2, "little") + c["D"].to_bytes(2, "little")
    for first, n, word in FIELDS:
        image[first:first + n] = words[word].to_bytes(n, "little")
    body = b"".join(word.to_bytes(8, "little") for words in rows for word in words)
    image[HEAD:HEAD + len(body)] = body
    return image


def written(image, area, start, end):
    """The area with bytes `start` to `end` of the order of writing."""
    area = bytearray(area)
    for place in order(len(image))[start:end]:
        area[place] = image[place]
    return area


def field(image, first, n):
    return int.from_bytes(image[first:first + n], "little")


def state_in(image):
    """The state that an image says: equity points and trades are counted from 0."""
    words = [0] * STATE_WORDS
    for first, n, word in FIELDS:
        words[word] = field(image, first, n)
    return words


def rows_in(image):
    """The rows that it says, word by word."""
    return [field(image, HEAD + 8 * i, 8) for i in range(field(image, 12, 4) * (7 + image[3]))]


def row_broken(words):
    """A row that 11 would refuse, or with a word in an absent slot."""
    prices, mask, slots = words[1:6], words[6], words[7:]
    present = [word for k, word in enumerate(slots) if mask >> k & 1]
    absent = [word for k, word in enumerate(slots) if not mask >> k & 1]
    return mask >> len(slots) != 0 or any(absent) or not all(math.isfinite(number(word)) for word in prices + present)


def broken(image):
    """19: "another mark or version, D outside 1 to 4,096, K above 64, a size not theirs, more rows than D or bars seen, an entry bar not below
    bars seen, a row 11 would refuse, an unknown kind or a nonzero spare byte"."""
    if len(image) < HEAD or image[:3] != MARK or field(image, 4, 2) != VERSION:
        return True
    slots, depth = image[3], field(image, 6, 2)
    if not 1 <= depth <= 4096 or slots > 64 or len(image) != size(slots, depth):
        return True
    seen, rows, (way, kind, entered), entry_bar = field(image, 8, 4), field(image, 12, 4), image[16:19], field(image, 20, 4)
    if rows > min(depth, seen) or way > 3 or kind > 3 or entered > 1 or (entered and entry_bar >= seen):
        return True
    # Spare: bytes 19 and 136 to 255, and what its kind does not use: a delay, a kind, a level, a limit, an entry bar.
    unused = [image[19], *image[136:HEAD], way == 0 and field(image, 24, 8), way not in (1, 2) and kind, kind == 0 and field(image, 104, 8),
              kind != 3 and field(image, 112, 8), not entered and entry_bar]
    words, width = rows_in(image), 7 + slots
    zeros = image[HEAD + 8 * len(words):]
    return any(unused) or any(zeros) or any(row_broken(words[i:i + width]) for i in range(0, len(words), width))


# ---- the calls

def common(c):
    """10 for rows, settings and state."""
    if c["rows_room"] < c["D"] * (7 + c["K"]):
        yield 10, 0
    if c["cut"] is not None:
        yield 10, c["cut"]


def dump_refusals(c):
    yield from common(c)
    if c["area"] < size(c["K"], c["D"]):
        yield 10, AREA
    yield from held_refusals(c)


def part_refusals(c):
    """As of a dump, with no area that could be short."""
    yield from common(c)
    yield from held_refusals(c)


def held_refusals(c):
    """12 and 13, of settings and state."""
    yield from ((12, place) for place in sorted(settings_broken(c)))
    # No books are lent, so that of equity points and trades only the counts are looked at.
    if state_broken(c | {"points": 0, "trades": 0}) or max(c["points"], c["trades"]) > MOST:
        yield 13, 0


def restore_refusals(c, image):
    yield from common(c)
    yield from ((12, place) for place in sorted(settings_broken(c)))
    if broken(image):
        yield 19, 0
    elif (field(image, 6, 2), image[3]) != (c["D"], c["K"]):
        yield 20, 0


def first(refusals):
    return next((refusal(*found) for found in refusals), 0)


def dump(c, area):
    """The call, and the area that it leaves."""
    told = first(dump_refusals(c))
    after = area if told else written(image_of(c), area, c["from"], c["upto"])
    eights = [after[i:i + 8].hex() for i in range(0, len(after), 8)]
    return (line(DUMP, c["from"], c["upto"]), " ".join([line(told), *eights])), after


def dumps(*changes):
    """Calls one after another on one cleared area."""
    area = bytes([CLEARED] * (GOOD | changes[0])["area"])
    yield lend_bytes(AREA, area)
    for change in changes:
        yield from lent(GOOD | change)
        call, area = dump(GOOD | change, area)
        yield call


def part(c):
    """A part from the place `from` on, over an area that holds something else."""
    told = first(part_refusals(c))
    area = bytearray([CLEARED] * c["area"])
    yield from lent(c)
    yield lend_bytes(AREA, bytes(area))
    used = UNTOUCHED
    if not told:
        stretch = image_of(c)[c["from"]:c["from"] + c["area"]]
        area[:len(stretch)], used = stretch, len(stretch)
    eights = [area[i:i + 8].hex() for i in range(0, len(area), 8)]
    yield line(PART, c["from"], UNTOUCHED), " ".join([line(told, used), *eights])


def restore(c, image):
    """Into a state and rows that hold something else."""
    told = first(restore_refusals(c, image))
    settings = settings_of(c)
    state, rows = [UNTOUCHED] * (STATE_WORDS - (c["cut"] == STATE)), [UNTOUCHED] * c["rows_room"]
    yield lend(SETTINGS, settings[:-1] if c["cut"] == SETTINGS else settings)
    yield lend(STATE, state)
    yield lend(ROWS, rows)
    yield lend_bytes(AREA, bytes(image))
    if not told:
        state, window = state_in(image), rows_in(image)
        rows[:len(window)] = window
    yield line(RESTORE), line(told, *state, *rows)


def cut(n, change={}):
    """What a supply lost after n bytes leaves of a cleared area."""
    image = image_of(GOOD | change)
    return written(image, bytes([CLEARED] * len(image)), 0, n)


def changed(places, change={}):
    """An image with bytes changed."""
    image = image_of(GOOD | change)
    for place, byte in places.items():
        image[place] = byte
    return image


# ---- the cases

SIZES = [(2, 14), (0, 1), (64, 4096), (65, 1), (2, 0), (2, 4097), (2**63, 2**61)]

# Flat, and no order works.
FLAT = {"qty": 0.0, "entered": None}
# A stop-limit works: two bars are still waited, stop 105.0, limit 106.0.
WORKING = FLAT | {"order": 1, "words": {5: 2, 17: 3, 18: bits(105.0), 19: bits(106.0)}}
# Words that their kinds do not use, and NaNs of other patterns.
ODD = {"words": {4: 7, 5: 9, 6: 0, 7: 5, 8: 0xFFF0000000000001, 17: 2, 18: bits(105.0), 19: bits(106.0), 20: 0x7FF8000000000001}}

DUMPS = [
    ("whole", [{}]),
    ("a longer area keeps its rest", [{"area": 480, "upto": 480}]),
    ("of five rows the last three", [{"held": 5, "bars": 5, "rows_room": 45}]),
    ("one row, and two zero rows", [{"held": 1}]),
    ("no rows, D 1, K 0", [FLAT | {"K": 0, "D": 1, "held": 0, "bars": 0, "area": 312, "upto": 312}]),
    ("an order works", [WORKING]),
    ("unused words and NaNs", [ODD]),
    ("rows, header and mark one after another", [{"upto": 216}, {"from": 216, "upto": 469}, {"from": 469}]),
    ("pages that end within a word", [{"upto": 100}, {"from": 100, "upto": 300}, {"from": 300}]),
    ("all but the last byte", [{"upto": 471}]),
    ("no byte", [{"from": 9, "upto": 9}, {"from": 472, "upto": 2**64 - 1}, {"from": 9, "upto": 3}]),
    # 10
    ("room of rows one word short", [{"rows_room": 26}]),
    ("settings one word short", [{"cut": SETTINGS}]),
    ("state one word short", [{"cut": STATE}]),
    ("area one byte short", [{"area": 471}]),
    ("area and capital", [{"area": 471, "capital": NAN}]),
    # 12
    ("capital no number", [{"capital": NAN}]),
    ("lookback 3, D 3", [{"sizing": ("target", 0.5, 3)}]),
    ("a level infinite, and held too many", [{"stop": INF, "held": 4}]),
    # 13
    ("rows held 4 of 3", [{"held": 4}]),
    ("equity points %d" % (MOST + 1), [{"points": MOST + 1}]),
    ("more equity points than any room", [{"points": MOST}]),
    ("entry bar 3 of 3", [{"entered": 3}]),
]

PARTS = [
    ("whole", {}),
    ("a part longer than the image", {"area": 480}),
    ("no place", {"area": 0}),
    ("the mark", {"area": 3}),
    ("a page of the header", {"area": 64, "from": 64}),
    ("the last byte of the header and the first of the rows", {"area": 2, "from": 255}),
    ("from within a word of the header to within one of a row", {"area": 100, "from": 201}),
    ("a row", {"area": 72, "from": 256}),
    ("from within a word of a row", {"area": 30, "from": 261}),
    ("within one word", {"area": 3, "from": 266}),
    ("the end", {"area": 64, "from": 440}),
    ("the last byte", {"area": 8, "from": 471}),
    ("at the end", {"area": 8, "from": 472}),
    ("far past the end", {"area": 8, "from": 2**64 - 1}),
    ("of five rows the last three", {"held": 5, "bars": 5, "rows_room": 45, "area": 216, "from": 256}),
    ("a row and zero rows", {"held": 1, "area": 128, "from": 300}),
    ("zero rows", {"held": 1, "area": 40, "from": 350}),
    ("no rows, D 1, K 0", FLAT | {"K": 0, "D": 1, "held": 0, "bars": 0, "area": 312}),
    ("an order works", WORKING | {"area": 256}),
    ("unused words and NaNs", ODD | {"area": 256}),
    # 10, 12, 13
    ("room of rows one word short", {"rows_room": 26}),
    ("settings one word short", {"cut": SETTINGS}),
    ("state one word short", {"cut": STATE}),
    ("capital no number", {"capital": NAN, "area": 8}),
    ("a level infinite, and held too many", {"stop": INF, "held": 4, "area": 8}),
    ("rows held 4 of 3", {"held": 4, "area": 8}),
    ("equity points %d" % (MOST + 1), {"points": MOST + 1, "area": 8}),
    ("entry bar 3 of 3, and past the end", {"entered": 3, "area": 8, "from": 472}),
]

CUTS = [0, 1, 216, 217, 469, 470, 471]

# Bytes of an image that is no whole one any more, in the paper's order.
DAMAGED = [
    ("mark", {2: 0}), ("version", {4: 2}), ("D 0", {6: 0}), ("D 4097", {6: 1, 7: 16}), ("K 65", {3: 65}), ("D 2: another size", {6: 2}),
    ("four rows", {12: 4}), ("rows above bars seen", {8: 2}), ("entry bar 3 of 3", {20: 3}), ("order 4", {16: 4}), ("kind 4", {16: 1, 17: 4}),
    ("entered 2", {18: 2}), ("delay of no order", {24: 1}), ("spare byte 19", {19: 1}), ("spare byte 136", {136: 1}), ("spare byte 255", {255: 1}),
    ("close of a row infinite", {294: 0xF0, 295: 0x7F}), ("slot bit 2", {304: 4}), ("word of an absent slot", {320: 1}),
]

RESTORES = [
    ("whole", {}, image_of(GOOD)),
    ("into a larger room", {"rows_room": 30}, image_of(GOOD)),
    ("one row", {}, image_of(GOOD | {"held": 1})),
    ("an order works", {}, image_of(GOOD | WORKING)),
    *[("cut after %d bytes" % n, {}, cut(n)) for n in CUTS],
    ("no byte", {}, b""),
    ("a byte short", {}, image_of(GOOD)[:-1]),
    ("a byte long", {}, image_of(GOOD) + b"\0"),
    *[(name, {}, changed(places)) for name, places in DAMAGED],
    ("a byte of a zero row", {}, changed({471: 1}, {"held": 1})),
    ("level of a market entry", {}, changed({104: 1}, WORKING | {"words": {17: 0}})),
    # 20
    ("D of the settings 2", {"D": 2}, image_of(GOOD)),
    ("K of the settings 1", {"K": 1}, image_of(GOOD)),
    # 10 and 12, before the image is looked at
    ("room of rows one word short", {"rows_room": 26}, cut(471)),
    ("settings one word short", {"cut": SETTINGS}, cut(471)),
    ("state one word short", {"cut": STATE}, cut(471)),
    ("capital infinite", {"capital": INF}, cut(471)),
]


def calls():
    for slots, depth in SIZES:
        good = slots <= 64 and 1 <= depth <= 4096
        yield line(DUMP_BYTES, slots, depth), line(size(slots, depth) if good else 0)
    for _, changes in DUMPS:
        yield from dumps(*changes)
    for _, change in PARTS:
        yield from part(GOOD | change)
    for _, change, image in RESTORES:
        yield from restore(GOOD | change, image)

"""Lines of words for the program `calls`: the numbers of rooms and calls, and records as words.

A line is words of 64 bits, 16 hexadecimal digits each. Every list here is pairs of a line and its answer, a line too; a line that
lends a room is answered by nothing (None). docs/INTERFACE.md has the words of each record.
"""
import struct

# Widths. The mask of the given settings is their last word.
SETTING_WORDS = 32
STATE_WORDS = 22
TRADE_WORDS = 10
METRIC_WORDS = 9

# Rooms, by their numbers; 3 to 6 are the lists of steps.
ROWS, EQUITY, TRADES, LISTS, SETTINGS, STATE, METRICS, TOTALS, CLOSES, BLOCKS, AREA, DIFFERENCES, TABLE = 0, 1, 2, 3, 7, 8, 9, 11, 12, 13, 14, 15, 31

# Calls.
CHECK, DEPTH, TRANSLATE, RULE, RUN, FRESH, STEP, FINISH, FIGURES, ROOT, SILENT, STEPS, DUMP_BYTES, DUMP, RESTORE, PART = range(32, 48)
TOTALS_ADD, TOTALS_JOIN, APPEND, ASK, COMPARE = range(48, 53)

NODE_ROOM = 64
# What a word of a list holds that `calls` lends to a call.
UNTOUCHED = (1 << 64) - 1
FIRST_OPTIONAL = 12


def bits(x):
    """A float's word; a NaN is one pattern."""
    return 0x7FF8000000000000 if x != x else struct.unpack("<Q", struct.pack("<d", x))[0]


def number(word):
    """The float of a word."""
    return struct.unpack("<d", struct.pack("<Q", word))[0]


def line(*words):
    return " ".join("%016x" % word for word in words)


def words(text):
    return [int(word, 16) for word in text.split()]


def refusal(which, place):
    """A refused call's answer."""
    return (which << 32) + place


def byte_words(data):
    """Bytes as words of eight, zeros after the last."""
    data += bytes(-len(data) % 8)
    return [int.from_bytes(data[i : i + 8], "big") for i in range(0, len(data), 8)]


def lend(room, content, size=None):
    """Lends a room of words: these, and zeros up to its size."""
    return line(room, len(content) if size is None else size, *content), None


def lend_bytes(room, data):
    return line(room, len(data), *byte_words(data)), None


def setting_words(values, optional):
    """Settings from 0 on; the optional ones, None where they are not given, stand from 12 on."""
    values = list(values)
    mask = 0
    for i, value in enumerate(optional, FIRST_OPTIONAL):
        if value is not None:
            values[i] = value
            mask |= 1 << i
    return values + [0] * (SETTING_WORDS - 1 - len(values)) + [mask]

/* Yshturpa: a trading-rule engine whose answers, and the depth of bar history they need, are proved.
 *
 * Words in, words out. All words are 64 bits: a float's word is its IEEE 754 binary64 bit pattern, a time's its two's
 * complement. A float that a call works out and that is a NaN is written as 0x7ff8000000000000. Link libyshturpa.a
 * (`pkg-config --cflags --libs yshturpa`), which is called libcapi.a where the repository builds it.
 *
 * Every call but ysh_root, ysh_dump_bytes and ysh_version answers one word: 0 where it did its work, else a refusal: the refusal's number times
 * 2^32 plus its place (YSH_NUMBER, YSH_PLACE; what each number means stands below). A refused call changes nothing that was lent to it;
 * ysh_steps and ysh_accounts, which take many bars, leave those done that came before the refused one.
 *
 * What a caller has to see to is what the types say and no more: each pointer points at as many elements as the length
 * behind it says, words lie on 8-byte boundaries, and what is lent for writing overlaps nothing else. A list or room of length 0 is
 * empty and its pointer is not looked at: it may be null. A pointer with no length behind it (nodes, rows, bytes, count,
 * used, answer, visits, done, held, high, high_bar, low, low_bar) points at one word and is never null. Any content of any room (buffer) gets an
 * answer. Beside that: the stack that a call takes (docs/PERFORMANCE.md, "Footprint"), and the FPU in its default mode: round to nearest, subnormals on
 * (no FTZ or DAZ). No call keeps memory of its own: calls over different rooms may run at the same time.
 *
 * On aarch64 the library reads 16 bytes at such 8-byte boundaries: a fault where the MMU is off or alignment is checked. Turn the MMU on, with
 * the rooms in normal memory, or build the library with FLAGS=-mstrict-align (docs/BUILDING.md, "Other processors").
 *
 * docs/INTERFACE.md has the records, rooms and calls in full, docs/RULES.md what a rule, a fill and each figure mean.
 */
#ifndef YSHTURPA_H
#define YSHTURPA_H

#include <stddef.h>
#include <stdint.h>

#ifdef __cplusplus
extern "C" {
#endif

/* The version, as one number: major * 1,000,000 + minor * 1,000 + patch. A later version has a larger number; docs/STABILITY.md says what it may
 * add. ysh_version answers that of the library that is linked. */
#define YSH_VERSION 1000000 /* 1.0.0 */

#define YSH_NUMBER(answer) ((uint32_t)((answer) >> 32))
#define YSH_PLACE(answer) ((uint32_t)(answer))

/* ---- refusals, by number: what is said, and what commonly causes it */

enum {
    /* 1 to 9: the rule table. Nothing else was looked at. */
    YSH_REFUSED_SIZE = 1,       /* under 16 bytes: an empty file, or a length that is not the table's. Place 0 */
    YSH_REFUSED_MARK = 2,       /* the first three bytes are not "RTB": it is no rule table. Place 0 */
    YSH_REFUSED_VERSION = 3,    /* the version is not 1 or 2: a later format, or written with the high byte first. Place 0 */
    YSH_REFUSED_COUNTS = 4,     /* K above 64; nodes not 2 to 256; no entry or no exit; four counts that do not sum to the nodes;
                                 * a count written with the high byte first. Place 0 */
    YSH_REFUSED_LENGTH = 5,     /* not 16 + 16 * nodes bytes: cut short, or something follows it, a newline perhaps. Place 0 */
    YSH_REFUSED_NODE = 6,       /* a node's own bytes: a kind that does not exist (Highest and Lowest in a table of version 1), an n of
                                 * theirs that is not 1 to 4,095, a selector out of range, a slot at or above K (K was
                                 * not raised with it), a constant that is not finite, a field that the kind does not use and that
                                 * is not 0 (memory that was not cleared). Place: the lowest such node */
    YSH_REFUSED_TREE = 7,       /* an operand where a condition belongs, or the other way round; Highest or Lowest over what is no Price and
                                 * no Ref; nodes not in prefix order; a tree that
                                 * wants more or fewer nodes than its count. Place: the first node that cannot stand there; just past
                                 * the tree's count where it is cut short; the first surplus node */
    YSH_REFUSED_NESTING = 8,    /* deeper than 32 levels, the root being 1, operands counted too. Place: the lowest such node */
    YSH_REFUSED_REACH = 9,      /* a tree that looks back more than 4,095 bars, its Prevs added up. Place: the first such tree's root */

    /* 10 to 16: the other things handed over. */
    YSH_REFUSED_ROOM = 10,      /* a room is too small. Place: its number (YSH_ROOM_ROWS ..). Commonly: the rows were laid out for another
                                 * D or K than settings 0 and 1 say; the room for steps was sized by steps and not by nodes; the
                                 * settings or the state are those of an older header, with fewer words */
    YSH_REFUSED_BAR = 11,       /* a price, the volume, a present slot, or the mark or rate of a supplied funding is not finite, or a bit
                                 * of the mask at or above K is set. Commonly: an indicator that has no value yet was handed over as a
                                 * NaN, with its bit set, in place of absent. Place: the bars seen, which is this bar's number */
    YSH_REFUSED_SETTING = 12,   /* a setting. Place: its number (YSH_SLOTS ..). 0: K above 64. 1: D is 0, above 4,096, or not above the lookback
                                 * of a volatility target. 5, 9, 20: a kind that does not exist. 12: risk sizing without a stop loss
                                 * (its word may be there and its bit of YSH_GIVEN not). 7: from ysh_depth alone, a lookback above
                                 * 4,095. 24: negative, or not finite. Else, and 12 too: not finite. 20 to 24 commonly: words that were
                                 * spare in an older header and were not cleared; 21 and 22 are looked at even where the order kind
                                 * does not use them */
    YSH_REFUSED_RECORDS = 13,   /* Place 0. Any of these:
                                 * - the bar is not exactly 10 + K words: two bars at once, the three words of funding left out, or
                                 *   another K than the settings';
                                 * - rows for ysh_rule, ysh_why, ysh_why_over or ysh_run that are not whole rows of 7 + K words; positions for ysh_why_over that
                                 *   are not whole, or are more than the rows;
                                 * - equity points or trades for ysh_metrics or ysh_compare, or trades for ysh_totals, that are not whole records;
                                 * - totals with a count above 4,294,967,295, or with more wins and losses than trades: words that no call
                                 *   wrote; other totals that are not exactly 43 words;
                                 * - the state counts more rows, equity points or trades than the room has places for: a smaller room
                                 *   than the call before had, or a state that ysh_fresh did not begin;
                                 * - a count of the state, or the bars seen of a position, is above 4,294,967,295;
                                 * - an entry bar that is not below the bars seen */
    YSH_REFUSED_FULL = 14,      /* Place 0. Any of these:
                                 * - a step, and the equity room has no free place, or the trade room has none, even where nothing is open;
                                 * - a step, and 4,294,967,295 bars were seen;
                                 * - finish, a position is to be closed, and the trade room has no free place */
    YSH_REFUSED_STEPS = 15,     /* a list of steps. Place: 1,024 times the list (0 to 3, as the trees) plus its lowest bad step. Any of these:
                                 * - the whole room was handed over and not the `used` bytes of it: bad at the first step past the list;
                                 * - it is not a multiple of 16 bytes, or above 1,024 steps: bad at 0;
                                 * - it was translated from a table with more slots than setting 0 says, or that looks further back
                                 *   than D, setting 1, allows (a look-back has to be below D);
                                 * - a kind that does not exist, an unused field that is not 0, a jump past the end of the list */
    YSH_REFUSED_QUANTITY = 16,  /* an entry is due, the bar reaches its level where it has one, and its quantity, or with slippage by volume the
                                 * one that is probed for it, is 2^53 lots or more. Commonly: a lot in other units than the quantity, or far
                                 * too small a one. Nothing has changed, and the same order is due again at the next step: another lot,
                                 * sizing or cap in its settings, or another price, lets the run go on. Place: the bars seen, which is this
                                 * bar's number */

    /* 17: the trades of totals (ysh_totals). */
    YSH_REFUSED_TRADE = 17,     /* a trade for ysh_totals whose pnl is not finite or whose reason is not 1 to 6. Commonly: a trade room was
                                 * handed over with its free places, and not the trades of a run alone. Place: its number in the list, from 0 */

    /* 18: a question over bars (ysh_stretch). */
    YSH_REFUSED_STRETCH = 18,   /* the first bar is after the last, or one of them is not among the bars held: always where none is held.
                                 * Commonly: the last bar was taken for one past the end. Place 0 */

    /* 19 and 20: an image of a dump. */
    YSH_REFUSED_IMAGE = 19,     /* no whole image: the write was cut off, the length is not that of its D and K (hand over the image alone, not
                                 * the whole area), a spare byte is not 0, or a field is out of its range. Place 0 */
    YSH_REFUSED_OTHER = 20,     /* a whole image, of another D or K than settings 1 and 0 say: another table's. Place 0 */

    /* 21: an account of ysh_accounts. It stands in the account's status. */
    YSH_REFUSED_PROFILE = 21,   /* outside the profile: the table has a short tree, setting 15 is given and not at most 1, or the table or setting 0 has
                                 * more slots than the stream. Place 0 */

    /* 22: the totals. */
    YSH_REFUSED_TOTAL = 22      /* the totals, with what is to be added, would be of more than 4,294,967,295 trades. Place 0 */
};

/* ---- sizes, in words unless said */

#define YSH_TABLE_BYTES 4112                      /* the largest table, in bytes: 16 + 16 * 256 */
#define YSH_SETTING_WORDS 32                      /* word i is setting i; word 31: which optional ones are given */
#define YSH_STATE_WORDS 22
#define YSH_BAR_WORDS(slots) (10 + (slots))       /* time open high low close volume mask, slots, supplied mark rate */
#define YSH_ROW_WORDS(slots) (7 + (slots))        /* time open high low close volume mask, slots */
#define YSH_POINT_WORDS 2                         /* time, equity */
#define YSH_TRADE_WORDS 10
#define YSH_METRIC_WORDS 9
#define YSH_TOTAL_WORDS 43                        /* of exact totals; 43 zeros are the totals of nothing */
#define YSH_BLOCK_WORDS 4                         /* of 64 closes: high, its first bar, low, its first bar */
#define YSH_BLOCKS_WORDS(bars) (4 * (((bars) + 63) / 64))   /* the blocks of so many closes */
#define YSH_DIFFERENCE_WORDS 5                    /* of a line that tells of a difference: sort, number, word, the first run's, the second's */
#define YSH_DIFFERENCES_WORDS(trades) (5 * (10 * (trades) + 3))   /* always enough, for the trades of the shorter list */
#define YSH_POSITION_WORDS 4                      /* for ysh_why_over: qty, entered, entry_bar, bars_seen, as ysh_why takes them */
#define YSH_PLACE_WORDS 256                       /* the lines of a row that ysh_why_over is asked for: YSH_MOST_LINES of YSH_LINE_WORDS */
#define YSH_STREAM_WORDS 2                        /* slots, bars taken */
#define YSH_STATUS_WORDS 3                        /* number, place, bar of the stream */
#define YSH_STEP_BYTES(nodes) (64 * (nodes))      /* room for the steps of a tree of so many nodes, in bytes */
#define YSH_DUMP_BYTES(slots, depth) (256 + (depth) * 8 * (7 + (slots)))   /* of a dump, in bytes: what ysh_dump_bytes answers for a K
                                                   * and a D in range, for an area that is laid out by the compiler */

/* ---- limits */

#define YSH_MOST_SLOTS 64                         /* K */
#define YSH_MOST_DEPTH 4096                       /* D, in rows */
#define YSH_MOST_REACH 4095                       /* of a tree, and a volatility target's lookback */
#define YSH_MOST_NODES 256
#define YSH_MOST_NESTING 32
#define YSH_MOST_STEPS 1024                       /* of a list */
#define YSH_MOST_BARS 4294967295                  /* bars seen, and every other count of a state */

/* ---- rooms, by number: the place of refusal 10 */

enum {
    YSH_ROOM_ROWS, YSH_ROOM_EQUITY, YSH_ROOM_TRADES,
    YSH_ROOM_ENTRY, YSH_ROOM_EXIT, YSH_ROOM_SHORT_ENTRY, YSH_ROOM_SHORT_EXIT,
    YSH_ROOM_SETTINGS, YSH_ROOM_STATE, YSH_ROOM_METRICS,
    YSH_ROOM_LINES = 10,
    YSH_ROOM_TOTALS = 11,
    YSH_ROOM_CLOSES = 12, YSH_ROOM_BLOCKS = 13,
    YSH_ROOM_DUMP = 14,
    YSH_ROOM_DIFFERENCES = 15,
    YSH_ROOM_STREAM = 16, YSH_ROOM_STATUS = 17,
    YSH_ROOM_SILENT = 18,
    YSH_ROOM_COUNTS = 19
};

/* ---- the trees of a table, by number */

enum { YSH_TREE_ENTRY, YSH_TREE_EXIT, YSH_TREE_SHORT_ENTRY, YSH_TREE_SHORT_EXIT };

/* ---- the kinds of a node */

enum {
    /* operands */
    YSH_CONST = 1,              /* the constant of bytes 8 to 15 */
    YSH_REF = 2,                /* slot n */
    YSH_PRICE = 3,              /* of this bar; selector YSH_OPEN .. YSH_OHLC4 */
    YSH_PREV = 4,               /* its operand, n bars back */
    YSH_ADD = 5, YSH_SUB = 6, YSH_MUL = 7,
    YSH_DIV = 8,                /* a NaN where the divisor is nearer to 0 than 2^-52 */
    YSH_HIGHEST = 9, YSH_LOWEST = 10,   /* of the last n bars, over one YSH_PRICE or YSH_REF; in a table of version 2 */
    /* conditions */
    YSH_GT = 16, YSH_LT = 17, YSH_GE = 18, YSH_LE = 19,
    YSH_EQ = 20, YSH_NE = 21,   /* nearer than 2^-52, or not */
    YSH_CROSS_ABOVE = 22,       /* at or below a bar before, above now */
    YSH_CROSS_BELOW = 23,       /* at or above a bar before, below now */
    YSH_BETWEEN = 24,           /* value, low, high: both ends belong to it */
    YSH_RISING = 25,            /* above what it was n bars back */
    YSH_FALLING = 26,           /* below what it was n bars back */
    YSH_ALL = 27, YSH_ANY = 28, /* of the conditions below, bytes 2 and 3 say how many */
    YSH_NOT = 29,
    YSH_IN_POSITION = 30,       /* selector YSH_FLAT or YSH_HELD */
    YSH_BARS_SINCE_ENTRY = 31   /* selector YSH_SINCE_GT .., against n */
};

/* the selectors of YSH_PRICE, of YSH_IN_POSITION and of YSH_BARS_SINCE_ENTRY */

enum { YSH_OPEN, YSH_HIGH, YSH_LOW, YSH_CLOSE, YSH_VOLUME, YSH_HLC3, YSH_OHLC4 };

enum { YSH_FLAT, YSH_HELD };

enum { YSH_SINCE_GT, YSH_SINCE_LT, YSH_SINCE_GE, YSH_SINCE_LE, YSH_SINCE_EQ };

/* ---- the kinds of a step that are no node's, or mean another thing there */

enum {
    YSH_STEP_HIGHEST_SLOT = 11, YSH_STEP_LOWEST_SLOT = 12, /* as YSH_HIGHEST and YSH_LOWEST, which are over a price in a step */
    YSH_STEP_YES = 27, YSH_STEP_NO = 28,                  /* sets the answer */
    YSH_STEP_JUMP_AT_NO = 32, YSH_STEP_JUMP_AT_YES = 33   /* passes over as many steps as bytes 2 and 3 say */
};

/* ---- settings, by number: the place of refusal 12, and the word that holds them. F: a float's word; N: a number */

enum {
    YSH_SLOTS,                  /* N  K, at most 64: the table's byte 3 */
    YSH_DEPTH,                  /* N  D, 1 to 4,096: what ysh_depth says, or more */
    YSH_CAPITAL,                /* F  the cash at the start */
    YSH_WARMUP,                 /* N  nothing is decided on bars numbered below it */
    YSH_DELAY,                  /* N  bars that an order waits: with 0 it is due on the next bar, a market order at its open */
    YSH_SIZING_KIND,            /* N  YSH_SIZE_FRACTION .. */
    YSH_SIZING_VALUE,           /* F */
    YSH_LOOKBACK,               /* N  rows; looked at for a volatility target only */
    YSH_TAKER_BPS,              /* F  the fee of every fill but a limit's (YSH_MAKER_BPS), basis points of its value */
    YSH_SLIPPAGE_KIND,          /* N  YSH_SLIP_FIXED or YSH_SLIP_VOLUME */
    YSH_SLIPPAGE_VALUE,         /* F */
    YSH_FUNDING,                /*    0 off, any other on; so too YSH_LIQUIDATION and YSH_PARTIAL_FILLS */
    YSH_STOP_LOSS,              /* F  percent of the entry price, where given */
    YSH_TRAILING_STOP,          /* F  percent of the most favourable price since the entry, where given */
    YSH_TAKE_PROFIT,            /* F  percent of the entry price, where given */
    YSH_MAX_LEVERAGE,           /* F  times the equity, 1 where not given */
    YSH_MAX_POSITION,           /* F  percent of the equity, where given */
    YSH_LIQUIDATION,
    YSH_PARTIAL_FILLS,
    YSH_PARTICIPATION,          /* F  with partial fills: the share of a bar's volume that an entry may take, 1 being all of it */
    YSH_ENTRY_KIND,             /* N  YSH_AT_MARKET .. */
    YSH_LEVEL_PCT,              /* F  percent that a limit or a stop, or a stop-limit's stop, stands over the deciding bar's close; below
                                 *    0 it stands under it, for a long and for a short alike */
    YSH_LIMIT_PCT,              /* F  percent, in the same way, of a stop-limit's limit; finite, but not used, for the other kinds */
    YSH_MAKER_BPS,              /* F  the fee of a limit's entry, basis points of its value */
    YSH_LOT,                    /* F  a quantity is a whole number of lots, rounded down; 0: any quantity */
    /* 25 to 30 are spare: none of them is looked at; write 0 */
    YSH_GIVEN = 31              /* bit i is set where setting i is given, i from 12 to 16; other bits are not looked at */
};

/* the kinds of sizing: what YSH_SIZING_VALUE is. Any other kind is refused (12 at 5) */

enum {
    YSH_SIZE_FRACTION,          /* the fraction of the equity: 0.5 is half */
    YSH_SIZE_QUANTITY,          /* the quantity */
    YSH_SIZE_CASH,              /* the money */
    YSH_SIZE_VOLATILITY,        /* the volatility of a bar that the position is to have: 0.01 is 1 percent; YSH_LOOKBACK rows measure it */
    YSH_SIZE_RISK               /* percent of the equity lost where the stop loss is met, which has to be given */
};

/* the kinds of slippage: what YSH_SLIPPAGE_VALUE is. Any other kind is refused (12 at 9) */

enum {
    YSH_SLIP_FIXED,             /* basis points of the price */
    YSH_SLIP_VOLUME             /* a coefficient: times the quantity, over the bar's volume, it is a fraction of the price */
};

/* the order kinds of an entry: when it fills, and at which price before slippage. Any other kind is refused (12 at 20) */

enum {
    YSH_AT_MARKET,              /* at the open */
    YSH_AT_LIMIT,               /* a long where low <= level, at the level, or at the open where that is lower; a short mirrors */
    YSH_AT_STOP,                /* a long where high >= level, at the level, or at the open where that is higher; a short mirrors */
    YSH_AT_STOP_LIMIT           /* as a stop where its price is no worse than the limit, else at the limit where the bar reaches that */
};

/* ---- the state's words */

enum {
    YSH_BARS_SEEN, YSH_ROWS_HELD, YSH_EQUITY_POINTS, YSH_TRADES,
    YSH_ORDER,                  /* YSH_ORDER_NONE .. */
    YSH_ORDER_DELAY,            /* the bars that it still waits */
    YSH_ENTERED,                /* 0: no entry bar; any other: YSH_ENTRY_BAR is one */
    YSH_ENTRY_BAR,
    YSH_CASH,
    YSH_QTY,                    /* below 0 for a short */
    YSH_ENTRY_PRICE, YSH_ENTRY_TIME, YSH_ENTRY_FEE, YSH_FEES_PAID,
    YSH_EXTREME,                /* the most favourable price since the entry */
    YSH_LAST_TIME, YSH_LAST_CLOSE,
    YSH_ORDER_KIND,             /* YSH_AT_MARKET .. of an entry that works; any other word is a market order. 0 for an exit or none */
    YSH_ORDER_LEVEL,            /* its level, a price; 0 where it has none */
    YSH_ORDER_LIMIT,            /* a stop-limit's limit, a price; 0 where it has none */
    YSH_OPEN_FUNDING,           /* what the open trade has paid in funding; below 0 it was received */
    YSH_OPEN_WORST              /* its least favourable price so far */
};

/* the orders that may be working; any other word is none */

enum { YSH_ORDER_NONE, YSH_ORDER_LONG, YSH_ORDER_SHORT, YSH_ORDER_EXIT };

/* ---- the words of a bar and of a row: slot k is word YSH_SLOT + k */

enum { YSH_BAR_TIME, YSH_BAR_OPEN, YSH_BAR_HIGH, YSH_BAR_LOW, YSH_BAR_CLOSE, YSH_BAR_VOLUME, YSH_BAR_MASK, YSH_SLOT };

/* a bar's last three words, by its K: 0 where no funding is supplied and any other word where it is, mark, rate */

#define YSH_BAR_FUNDED(slots) (7 + (slots))
#define YSH_BAR_MARK(slots) (8 + (slots))
#define YSH_BAR_RATE(slots) (9 + (slots))

/* ---- the words of a trade, and why it ended */

enum {
    YSH_TRADE_ENTRY_TIME, YSH_TRADE_EXIT_TIME, YSH_TRADE_ENTRY_PRICE, YSH_TRADE_EXIT_PRICE,
    YSH_TRADE_QTY, YSH_TRADE_PNL, YSH_TRADE_RETURN_PCT, YSH_TRADE_REASON,
    YSH_TRADE_FUNDING,          /* funding paid during it, not part of the pnl; below 0 it was received */
    YSH_TRADE_WORST             /* the least favourable price: the entry's fill, then each bar's low for a long or high for a short, from the
                                 * entry bar to the closing bar, both included */
};

enum {
    YSH_REASON_SIGNAL = 1,      /* the exit rule, or the short exit rule */
    YSH_REASON_STOP_LOSS = 2,
    YSH_REASON_TRAILING_STOP = 3,
    YSH_REASON_TAKE_PROFIT = 4,
    YSH_REASON_LIQUIDATION = 5, /* the equity would have been 0 at a price that the bar reached */
    YSH_REASON_END = 6          /* ysh_finish closed it */
};

/* ---- the words of the metrics: floats, but the last, which is a number */

enum {
    YSH_PNL, YSH_RETURN_PCT, YSH_SHARPE, YSH_SORTINO, YSH_CALMAR, YSH_MAX_DRAWDOWN_PCT, YSH_WIN_RATE_PCT, YSH_PROFIT_FACTOR,
    YSH_NUM_TRADES
};

/* ---- calls */

/* Checks a rule table. Refusals 1 to 9. Done: how many nodes it has, and how many rows its rules need. */
uint64_t ysh_check(const uint8_t *table, size_t table_len, uint64_t *nodes, uint64_t *rows);

/* How deep the window has to be: the rows a table's rules need and, for a volatility target, one more than its lookback
 * (give 0 where sizing is another); and the bytes that so many rows take. Refusals 1 to 9, then 12 at 7 for a lookback above 4,095. */
uint64_t ysh_depth(const uint8_t *table, size_t table_len, uint64_t lookback, uint64_t *rows, uint64_t *bytes);

/* Which tests of a table fall silent over a window of so many rows: a comparison, a cross, Between, Rising or Falling that
 * reaches back so many bars or more answers no, whatever the rows hold, and every other test answers as over all rows. Done:
 * the numbers of their nodes, in table order, and how many there are: none for as many rows as ysh_check names. 256 words are
 * always enough. Refusals 1 to 9, then 10 (room 18). */
uint64_t ysh_silent(const uint8_t *table, size_t table_len, uint64_t rows,
                    uint64_t *list, size_t list_len, uint64_t *count);

/* Translates tree 0 entry, 1 exit, 2 short entry or 3 short exit of a table into steps, 16 bytes each. Done: how many bytes
 * of the room the list takes (hand these over, not the whole room); 0 for an absent tree, and for a tree of any other number.
 * Refusals 1 to 9, then 10 (room 3 + tree). */
uint64_t ysh_translate(const uint8_t *table, size_t table_len, uint64_t tree,
                       uint8_t *room, size_t room_len, uint64_t *used);

/* The state before the first bar. Refusal 10 (room 7 or 8); the settings themselves are judged by ysh_step. */
uint64_t ysh_fresh(const uint64_t *settings, size_t settings_len, uint64_t *state, size_t state_len);

/* One bar. Refusals 10 (room 0, 7 or 8), 12, 13, 14, 11, 15, 16, in this order. */
uint64_t ysh_step(const uint64_t *settings, size_t settings_len, uint64_t *state, size_t state_len,
                  const uint64_t *bar, size_t bar_len,
                  uint64_t *rows, size_t rows_len, uint64_t *equity, size_t equity_len,
                  uint64_t *trades, size_t trades_len,
                  const uint8_t *entry, size_t entry_len, const uint8_t *exit, size_t exit_len,
                  const uint8_t *short_entry, size_t short_entry_len,
                  const uint8_t *short_exit, size_t short_exit_len);

/* Many bars in one call, one after another: `bars` are records of 10 + K words each. `done` is how many were done; it is written
 * whatever the answer is. At the first bar that would be refused it stops: the bars before it stay done, that bar changes nothing, and
 * the answer is the one that ysh_step gives for it. State and rooms are word for word those of one ysh_step a bar. A list that is
 * not whole records is refused as a bar of that length is (10, 12, 13), and no bar is done. No bars: done is 0, and nothing is
 * refused but rooms 7 and 8. */
uint64_t ysh_steps(const uint64_t *settings, size_t settings_len, uint64_t *state, size_t state_len,
                   const uint64_t *bars, size_t bars_len,
                   uint64_t *rows, size_t rows_len, uint64_t *equity, size_t equity_len,
                   uint64_t *trades, size_t trades_len,
                   const uint8_t *entry, size_t entry_len, const uint8_t *exit, size_t exit_len,
                   const uint8_t *short_entry, size_t short_entry_len,
                   const uint8_t *short_exit, size_t short_exit_len, uint64_t *done);

/* Closes an open position at the last close, if a bar was seen; the last equity point, where there is one, becomes the equity
 * after that, and the nine metrics are given. Refusals 10 (room 0, 7, 8 or 9), 12, 13, 14. */
uint64_t ysh_finish(const uint64_t *settings, size_t settings_len, uint64_t *state, size_t state_len,
                    const uint64_t *rows, size_t rows_len, uint64_t *equity, size_t equity_len,
                    uint64_t *trades, size_t trades_len, uint64_t *metrics, size_t metrics_len);

/* ---- four accounts on one stream (docs/INTERFACE.md, "Four accounts on one stream") ---- */

/* The words of the stream (room 16), and of the status of an account (room 17). */
enum { YSH_STREAM_SLOTS, YSH_STREAM_BARS };

enum {
    YSH_STATUS_NUMBER,          /* 0 while the account runs; the number that stopped it */
    YSH_STATUS_PLACE,           /* the place that goes with the number */
    YSH_STATUS_BAR              /* the bar of the stream at which it was stopped, numbered from 0 */
};

/* What one account is handed, and what it is lent for writing. */
typedef struct {
    const uint8_t *table; size_t table_len;
    const uint64_t *settings; size_t settings_len;
    const uint8_t *entry; size_t entry_len;           /* steps of trees 0 and 1, as ysh_translate wrote them */
    const uint8_t *exit; size_t exit_len;
    uint64_t *state; size_t state_len;
    uint64_t *rows; size_t rows_len;
    uint64_t *equity; size_t equity_len;
    uint64_t *trades; size_t trades_len;
    uint64_t *status; size_t status_len;
} ysh_account;

/* One account of ysh_accounts, as its parameters and as the fields of a ysh_account. */
#define YSH_ACCOUNT_PARAMETERS(a) \
    const uint8_t *a##_table, size_t a##_table_len, const uint64_t *a##_settings, size_t a##_settings_len, \
    const uint8_t *a##_entry, size_t a##_entry_len, const uint8_t *a##_exit, size_t a##_exit_len, \
    uint64_t *a##_state, size_t a##_state_len, uint64_t *a##_rows, size_t a##_rows_len, \
    uint64_t *a##_equity, size_t a##_equity_len, uint64_t *a##_trades, size_t a##_trades_len, \
    uint64_t *a##_status, size_t a##_status_len
#define YSH_ACCOUNT_FIELDS(a) \
    (a).table, (a).table_len, (a).settings, (a).settings_len, (a).entry, (a).entry_len, (a).exit, (a).exit_len, \
    (a).state, (a).state_len, (a).rows, (a).rows_len, (a).equity, (a).equity_len, (a).trades, (a).trades_len, \
    (a).status, (a).status_len

/* Four accounts over bars of one stream: records of 10 + slots words, slots being the stream's. `done` is how many bars the stream took; it is
 * written whatever the answer is. At the first bar that the stream refuses it stops: that bar changes no account and stops none. Each account is
 * handed its own part of the bars taken (six words, its K lowest bits of the mask, slots 0 to K - 1, the three words of funding) and leaves state
 * and rooms word for word as one ysh_step a bar would, with empty short lists. At the first bar that an account itself refuses it is stopped, with
 * number, place and bar in its status, and the others go on; a stopped account is not touched until its number is set to 0 again. So are 1 to 9 of its
 * table, and then 21 for one outside the profile, told at the first bar of a call. The answer is the stream's alone. Refusals 10 (room 16 or
 * 17), 12 at 0, 13; then, of a bar, 14 and 11 at the stream's bars. No bars: done is 0, and nothing is refused but rooms 16 and 17. */
uint64_t ysh_accounts(uint64_t *stream, size_t stream_len, const uint64_t *bars, size_t bars_len, uint64_t *done,
                      YSH_ACCOUNT_PARAMETERS(a), YSH_ACCOUNT_PARAMETERS(b), YSH_ACCOUNT_PARAMETERS(c), YSH_ACCOUNT_PARAMETERS(d));

/* The same, over an array of four. */
static inline uint64_t ysh_four(uint64_t *stream, size_t stream_len, const uint64_t *bars, size_t bars_len, uint64_t *done,
                                const ysh_account account[4])
{
    return ysh_accounts(stream, stream_len, bars, bars_len, done, YSH_ACCOUNT_FIELDS(account[0]), YSH_ACCOUNT_FIELDS(account[1]),
                        YSH_ACCOUNT_FIELDS(account[2]), YSH_ACCOUNT_FIELDS(account[3]));
}

/* ---- power loss and restart (docs/INTERFACE.md, "Power loss and restart") ---- */

/* The bytes of a dump for a K and a D: 256 + D * 8 * (7 + K). 0 for a K above 64 or a D outside 1 to 4,096. */
uint64_t ysh_dump_bytes(uint64_t slots, uint64_t depth);

/* Writes bytes `from` to `upto` of a dump's order of writing into the area: 0 and the size for all of it, or one stretch after another. The order: rows
 * first, then the header, and the mark's last byte last of all. It is promised between calls: what an area holds while a call runs is not. So a dump in
 * one call is for memory that keeps its power until the call ends. For flash: dump into memory, program the image page by page without its first 8
 * bytes, wait until all of it stands there, and then program those 8, alone. Byte 2 of the flash must not be the mark's before. No other call may be
 * running. Refusals 10 (room 0, 7, 8 or 14), 12, 13. */
uint64_t ysh_dump(const uint64_t *settings, size_t settings_len, const uint64_t *state, size_t state_len,
                  const uint64_t *rows, size_t rows_len, uint8_t *area, size_t area_len, uint64_t from, uint64_t upto);

/* Bytes `at` to `at + part_len` of the image, in the order of their places and not of writing, into the part, which may be of any length: a page
 * is made in a page's memory. Past the image's end nothing is written; `used` says how many bytes were. State and rows must not change between the
 * parts of one dump. Refusals 10 (room 0, 7 or 8), 12, 13. */
uint64_t ysh_dump_part(const uint64_t *settings, size_t settings_len, const uint64_t *state, size_t state_len,
                       const uint64_t *rows, size_t rows_len, uint64_t at, uint8_t *part, size_t part_len, uint64_t *used);

/* Reads an image of exactly the size back: the state, with equity points and trades counted from 0, and its rows over the first words of
 * the row room. Refusals 10 (room 0, 7 or 8), 12, 19 for what is no whole image, 20 for one of another D or K. */
uint64_t ysh_restore(const uint64_t *settings, size_t settings_len, uint64_t *state, size_t state_len,
                     const uint8_t *image, size_t image_len, uint64_t *rows, size_t rows_len);

/* Answers one tree of a table (0 to 3) over rows and a position, at the newest row: 1 yes, 0 no; no where the tree is
 * absent or the number is another. `entered` is 0 where there is no entry bar. Refusals 1 to 9, then 13. */
uint64_t ysh_rule(const uint8_t *table, size_t table_len, uint64_t tree, const uint64_t *rows, size_t rows_len,
                  uint64_t qty, uint64_t entered, uint64_t entry_bar, uint64_t bars_seen, uint64_t *answer);

/* Why one tree of a table (0 to 3) says yes or no over rows and a position, at the newest row: the chain of nodes from its root to
 * what decided, a line of YSH_LINE_WORDS words for each. Done: the lines, at most YSH_MOST_LINES, and how many there are; what stands past
 * them is not touched. None for an absent tree, and for a tree of any other number. A line: node, answer (1 yes, 0 no), sort, how many
 * of the four words after it are used, those four (0 where unused). Refusals 1 to 9, then 10 (room 10: a list of fewer than 32
 * lines), then 13. */
enum {
    YSH_LINE_WORDS = 8,
    YSH_MOST_LINES = 32,
    YSH_LINES_ROOM = 10,        /* YSH_ROOM_LINES, by the name that it had first */
    YSH_WHY_LINK = 0,           /* All, Any or Not: the next line is the child that decided; where there is none, no child decided alone */
    YSH_WHY_VALUES = 1,         /* the values compared: two; a cross's now, then before; Rising and Falling now, then; value, low, high */
    YSH_WHY_MISSING = 2,        /* the first missing leaf: its node, and how many bars back it was looked at */
    YSH_WHY_FIRST_BAR = 3,      /* a cross at bar 0 */
    YSH_WHY_TOO_FEW_BARS = 4,   /* Rising or Falling with fewer bars before this one than it looks back */
    YSH_WHY_POSITION = 5,       /* InPosition */
    YSH_WHY_SINCE_ENTRY = 6,    /* BarsSinceEntry: that number of bars */
    YSH_WHY_NO_ENTRY = 7        /* BarsSinceEntry while flat or with no entry bar */
};
uint64_t ysh_why(const uint8_t *table, size_t table_len, uint64_t tree, const uint64_t *rows, size_t rows_len,
                 uint64_t qty, uint64_t entered, uint64_t entry_bar, uint64_t bars_seen,
                 uint64_t *lines, size_t lines_len, uint64_t *count);

/* ysh_why for each of the newest rows, as many as there are positions (YSH_POSITION_WORDS words each), oldest first, with one check of the table. Row i of
 * them is asked as if it were the newest: over all rows up to it, with position i. Done: its lines stand from word YSH_PLACE_WORDS * i on, and counts[i]
 * says how many they are; what stands past them in its place is not touched, nor what stands past the places and the counts. It is proved to be a call of
 * ysh_why for each row. A year of rows is asked part by part: rows up to the last row of the part, and the positions of the part. Refusals 1 to 9, then 10
 * (room 10: fewer than YSH_PLACE_WORDS words a row; room 19: fewer counts than rows), then 13, also where there are more positions than rows. */
uint64_t ysh_why_over(const uint8_t *table, size_t table_len, uint64_t tree, const uint64_t *rows, size_t rows_len,
                      const uint64_t *positions, size_t positions_len, uint64_t *lines, size_t lines_len,
                      uint64_t *counts, size_t counts_len);

/* Runs a list of steps over all the rows handed over; no step of it looks back `depth` bars or more. Done: 1 yes or 0 no, and
 * how many steps were visited. Refusals 12 for slots (at 0) or depth (at 1), then 13, then 15 at the lowest bad step. */
uint64_t ysh_run(const uint8_t *steps, size_t steps_len, const uint64_t *rows, size_t rows_len,
                 uint64_t slots, uint64_t depth,
                 uint64_t qty, uint64_t entered, uint64_t entry_bar, uint64_t bars_seen,
                 uint64_t *answer, uint64_t *visits);

/* The nine metrics of equity points and trades. Refusals 10 (room 9), then 13 for lists that are not whole records. */
uint64_t ysh_metrics(uint64_t initial, const uint64_t *equity, size_t equity_len,
                     const uint64_t *trades, size_t trades_len, uint64_t *metrics, size_t metrics_len);

/* ---- exact totals over the trades of many runs: the words of a record */

enum {
    YSH_TOTAL_BY_REASON = 0,    /* word 0 to 5: trades that ended by reason 1 to 6 */
    YSH_TOTAL_WINS = 6,         /* trades with a pnl above 0; a pnl of 0 of either sign is neither a win nor a loss */
    YSH_TOTAL_LOSSES = 7,       /* trades with a pnl below 0 */
    YSH_TOTAL_SUM = 8,          /* word 8 to 41: the sum of all pnl in units of 2^-1074, exactly: two's complement, lowest word first */
    YSH_TOTAL_FLOAT = 42        /* the word of the float nearest to that sum, ties to even; 0 is +0.0 */
};

/* Adds the trades of a list, whole records of YSH_TRADE_WORDS words, to totals, of which the first YSH_TOTAL_WORDS words are looked at.
 * Begin with 43 zeros. Every order and every grouping of the same trades leaves the same words. 10, 13, 17, 22. */
uint64_t ysh_totals(uint64_t *totals, size_t totals_len, const uint64_t *trades, size_t trades_len);

/* Adds other totals, exactly YSH_TOTAL_WORDS words, to totals: those of another machine, say. 10, 13, 22. */
uint64_t ysh_totals_join(uint64_t *totals, size_t totals_len, const uint64_t *other, size_t other_len);

/* ---- two runs compared (docs/INTERFACE.md, "Two runs compared"): the sorts of a line */

enum {
    YSH_DIFFERENCE_EQUITY = 1,  /* the first point that both have whose equity differs; its two words */
    YSH_DIFFERENCE_TRADE = 2,   /* a word, 0 to 9, of a trade that both have; its two words */
    YSH_DIFFERENCE_TRADES = 3,  /* from this trade on one list alone has trades; how many each has */
    YSH_DIFFERENCE_POINTS = 4   /* from this point on one list alone has points; how many each has */
};

/* Writes what differs between two runs, a line of YSH_DIFFERENCE_WORDS words each, in the order of the sorts, and how many lines there are.
 * Words are compared, not floats. Equal runs have no lines. Refusals 13, then 10 (room 15: it does not hold them all). */
uint64_t ysh_compare(const uint64_t *equity, size_t equity_len, const uint64_t *trades, size_t trades_len,
                     const uint64_t *other_equity, size_t other_equity_len, const uint64_t *other_trades, size_t other_trades_len,
                     uint64_t *lines, size_t lines_len, uint64_t *count);

/* ---- the high and the low of a stretch of closes (docs/INTERFACE.md, "High and low of a stretch") ---- */

/* Appends a close to the `held` closes, and to the block of 64 that it falls into; `held` is one more then. Begin with `held` 0, whatever
 * the rooms hold. Refusals 10 (room 12 or 13: no place for it), then 11 at the bars held for a close that is not finite. */
uint64_t ysh_append(uint64_t *held, uint64_t close, uint64_t *closes, size_t closes_len, uint64_t *blocks, size_t blocks_len);

/* The highest and the lowest of the closes of bars `first` to `last`, both included, each with the earliest bar that has it. Refusals 13 for
 * a `held` above what the rooms hold, then 18 for bars that are not held or not in order. */
uint64_t ysh_stretch(uint64_t held, uint64_t first, uint64_t last, const uint64_t *closes, size_t closes_len,
                     const uint64_t *blocks, size_t blocks_len, uint64_t *high, uint64_t *high_bar, uint64_t *low, uint64_t *low_bar);

/* The square root of a float's word, correctly rounded. */
uint64_t ysh_root(uint64_t word);

/* The version of the library, as YSH_VERSION has the header's. */
uint64_t ysh_version(void);

#ifdef __cplusplus
}
#endif

#endif

/* The box: restores the newer whole image, marks it consumed, takes bars, and dumps when its supply falls. This file and flash.c are what a driver
 * needs; docs/FLASH.md says why each line is where it is. BREAKS is 0 here; a build that sets it breaks one rule, and must go wrong. */
#include "board.h"
#include "box.h"
#include "flash.h"

#ifndef BREAKS
#define BREAKS 0
#endif
enum { TRIES = 10 };
enum { KEEPS_ALL, OLD_IMAGE_LEFT, HEADER_WITH_MARK, ERASED_WHILE_VALID, MARK_FIRST, BAR_BETWEEN_PAGES };

/* All of the memory that the box has. What it holds at reset is chance. */
static struct {
    uint64_t settings[YSH_SETTING_WORDS], state[YSH_STATE_WORDS], rows[DEPTH * ROW];
    uint64_t point[YSH_POINT_WORDS], trades[2 * YSH_TRADE_WORDS];
    uint8_t steps[TREES][STEP_ROOM], page[PAGE];
    uint64_t used[TREES];
    unsigned spare;             /* the erased area, for the next dump */
    volatile unsigned supply_lost;
} box;

void box_supply_lost(void)
{
    box.supply_lost = 1;
}

static void must(const char *call, uint64_t answer)
{
    if (answer != 0)
        box_failed(call, answer);
}

/* ---- the engine */

static void begin(void)
{
    uint64_t rows, bytes;
    strategy_settings(box.settings);
    must("ysh_depth", ysh_depth(strategy_table, TABLE_BYTES, LOOKBACK, &rows, &bytes));
    if (rows > DEPTH)
        box_failed("DEPTH", rows);
    for (uint64_t tree = 0; tree < TREES; tree++)
        must("ysh_translate", ysh_translate(strategy_table, TABLE_BYTES, tree, box.steps[tree], STEP_ROOM, &box.used[tree]));
    must("ysh_fresh", ysh_fresh(box.settings, YSH_SETTING_WORDS, box.state, YSH_STATE_WORDS));
}

/* One bar. Its point and trades are sent out at once, so the rooms for them begin at 0 each time, as they do after a restore. */
static void step(const uint64_t *bar)
{
    must("ysh_step", ysh_step(box.settings, YSH_SETTING_WORDS, box.state, YSH_STATE_WORDS, bar, BAR, box.rows, DEPTH * ROW,
                              box.point, YSH_POINT_WORDS, box.trades, 2 * YSH_TRADE_WORDS, box.steps[0], box.used[0],
                              box.steps[1], box.used[1], box.steps[2], box.used[2], box.steps[3], box.used[3]));
    told_bar(box.state, box.rows, box.point, box.trades);
    box.state[YSH_EQUITY_POINTS] = box.state[YSH_TRADES] = 0;
}

/* Bytes `at` and on of the image, as many as `len` or as there are, into the page's memory. */
static uint64_t part(uint64_t at, uint64_t len)
{
    uint64_t used;
    must("ysh_dump_part", ysh_dump_part(box.settings, YSH_SETTING_WORDS, box.state, YSH_STATE_WORDS, box.rows, DEPTH * ROW,
                                        at, box.page, len, &used));
    return used;
}

/* ---- what makes an area's bytes an image: its first word, or, where a program unit is larger than that, a seal of the driver's own (-DSEALED) */

#ifndef SEALED

enum { LEFT_ERASED = FIRST_WORD };

static int committed(unsigned area)
{
    return flash_area(area)[MARK_AT] == MARK;
}

static void commit(unsigned area)
{
    part(0, FIRST_WORD);
    flash_program(area, 0, box.page, FIRST_WORD);
}

/* Flash that erases to ones always lets a word be programmed to zeros. */
static void take_back(unsigned area)
{
    static const uint8_t zeros[FIRST_WORD];
    flash_program(area, 0, zeros, FIRST_WORD);
}

#else

enum { LEFT_ERASED = 0 };

static const uint8_t seal[SEAL_BYTES] = "the image before this is whole.";

static int committed(unsigned area)
{
    int same = 1;
    for (int i = 0; i < SEAL_BYTES; i++)
        same &= flash_seal(area)[i] == seal[i];
    return same;
}

static void commit(unsigned area)
{
    flash_program_seal(area, seal);
}

/* A unit that can be programmed once is taken back by an erase of its own block, until that is blank: what a torn seal left goes too. */
static void take_back(unsigned area)
{
    int blank = 0;
    for (int tries = 0; !blank && tries < TRIES; tries++) {
        flash_erase_seal(area);
        blank = 1;
        for (int i = 0; i < SEAL_BYTES; i++)
            blank &= flash_seal(area)[i] == 0xff;
    }
}

#endif

/* Takes an area's commit back, and looks: from then on it is refused whatever else it holds. */
static void unmark(unsigned area)
{
    for (int tries = 0; committed(area); tries++) {
        if (tries == TRIES)
            box_failed("a commit stays", area);
        take_back(area);
    }
}

/* The bars that an area's image has seen, by its header: the newer image is the one with more. */
static uint32_t bars_seen(unsigned area)
{
    const uint8_t *at = flash_area(area) + 8;
    return at[0] | (uint32_t)at[1] << 8 | (uint32_t)at[2] << 16 | (uint32_t)at[3] << 24;
}

/* Restores the newer whole image. Answers its area, or AREAS where none is whole. */
static unsigned restore(void)
{
    unsigned newer = committed(1) && (!committed(0) || bars_seen(1) > bars_seen(0));
    for (unsigned turn = 0; turn < AREAS; turn++) {
        unsigned area = turn == 0 ? newer : 1 - newer;
        if (committed(area) &&
            ysh_restore(box.settings, YSH_SETTING_WORDS, box.state, YSH_STATE_WORDS, flash_area(area), IMAGE, box.rows, DEPTH * ROW) == 0)
            return area;
    }
    return AREAS;
}

/* Before the first bar: the other area is erased, ahead of the dump that will need it; then the image that the box goes on from is consumed. Where the
 * supply falls meanwhile, nothing is begun any more: that image is still the box's state. */
static void make_ready(unsigned from)
{
    box.spare = from == 0 ? 1 : 0;
    for (unsigned area = 0; area < AREAS; area++)
        if (area != from && BREAKS != OLD_IMAGE_LEFT)
            unmark(area);
    if (box.supply_lost)
        box_waits(0);
    flash_erase(box.spare);
#ifdef SEALED
    take_back(box.spare);
#endif
    if (box.supply_lost)
        box_waits(0);
    if (BREAKS == ERASED_WHILE_VALID && from < AREAS)
        flash_erase(from);
    else if (BREAKS != OLD_IMAGE_LEFT && from < AREAS)
        unmark(from);
}

/* Every page of the image with the first word left erased, then the first word alone. */
static void dump(void)
{
    if (BREAKS == MARK_FIRST)
        commit(box.spare);
    for (uint64_t at = 0; at < IMAGE; at += PAGE) {
        uint64_t used = part(at, PAGE), skip = at == 0 ? LEFT_ERASED : 0;
        if (BREAKS == HEADER_WITH_MARK && at == 0)
            continue;
        flash_program(box.spare, at + skip, box.page + skip, used - skip);
        if (BREAKS == BAR_BETWEEN_PAGES && at == 0)
            step(market_bar(box.state[YSH_BARS_SEEN]));
    }
    if (BREAKS == HEADER_WITH_MARK)
        flash_program(box.spare, 0, box.page, part(0, PAGE));
    else if (BREAKS != MARK_FIRST)
        commit(box.spare);
}

_Noreturn void box_start(void)
{
    const uint64_t *bar;
    unsigned from;
    box.supply_lost = 0;
    interrupts_on();            /* a supply that fell before is told now */
    begin();
    from = restore();
    if (from < AREAS)
        told_restored(box.state, box.rows);
    else
        told_nothing();
    make_ready(from);
    while (!box.supply_lost && (bar = market_bar(box.state[YSH_BARS_SEEN])))
        step(bar);
    dump();
    box_waits(1);
}

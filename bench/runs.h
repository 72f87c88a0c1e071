/* Tables, bars and runs for programs that measure the calls, and what such a program needs of the world outside: memcpy, memset and write. */
#ifndef RUNS_H
#define RUNS_H

#include <stddef.h>
#include <stdint.h>

#include "yshturpa.h"

enum { DAY = 1440, LARGE_NODES = 254, MOST_ROWS = 4096, MOST_TRADES = 10000, MOST_POINTS = MOST_ROWS + 4 * DAY + 200 };

void *memcpy(void *to, const void *from, size_t size);
void *memset(void *to, int byte, size_t size);
long write(int file, const void *bytes, unsigned long size);

static void say(const char *name, uint64_t units)
{
    char line[64], digits[20];
    size_t end = 0, many = 0;
    while (name[end])
        line[end] = name[end], end++;
    line[end++] = ' ';
    do
        digits[many++] = (char)('0' + units % 10);
    while (units /= 10);
    while (many)
        line[end++] = digits[--many];
    line[end++] = '\n';
    write(1, line, end);
}

/* Ends the program where a call was refused. */
static void must(uint64_t answer)
{
    if (answer != 0) {
        say("refused", answer >> 32);
        __builtin_trap();
    }
}

static uint64_t word_of(double x)
{
    uint64_t word;
    memcpy(&word, &x, sizeof word);
    return word;
}

/* A number of chance from 0 to below 1; the same on every processor. */
static double chance(void)
{
    static uint64_t seed = 1;
    seed = seed * UINT64_C(6364136223846793005) + UINT64_C(1442695040888963407);
    return (double)(seed >> 11) / 9007199254740992.0;
}

/* ---- tables: the paper's example, and one of 254 nodes of which each is visited */

static uint8_t small_table[16 + 16 * 7], large_table[16 + 16 * LARGE_NODES];

static uint8_t *put_node(uint8_t *at, uint8_t kind, uint8_t selector, uint16_t children, uint32_t n, double constant)
{
    uint64_t bits = word_of(constant);
    memset(at, 0, 16);
    at[0] = kind, at[1] = selector, at[2] = (uint8_t)children, at[4] = (uint8_t)n, at[5] = (uint8_t)(n >> 8);
    for (int i = 0; i < 8; i++)
        at[8 + i] = (uint8_t)(bits >> 8 * i);
    return at + 16;
}

static void put_header(uint8_t *table, uint8_t slots, const uint8_t counts[4])
{
    uint16_t nodes = (uint16_t)(counts[0] + counts[1] + counts[2] + counts[3]);
    memset(table, 0, 16);
    memcpy(table, "RTB", 3);
    table[3] = slots, table[4] = 1, table[6] = (uint8_t)nodes;
    for (int tree = 0; tree < 4; tree++)
        table[8 + 2 * tree] = counts[tree];
}

static uint8_t *put_cross(uint8_t *at, uint8_t kind)
{
    at = put_node(at, kind, 0, 0, 0, 0);
    at = put_node(at, YSH_REF, 0, 0, 0, 0);
    return put_node(at, YSH_REF, 0, 0, 1, 0);
}

static uint8_t *put_below_before(uint8_t *at, uint32_t depth)
{
    at = put_node(at, YSH_LT, 0, 0, 0, 0);
    at = put_node(at, YSH_PRICE, YSH_CLOSE, 0, 0, 0);
    at = put_node(at, YSH_PREV, 0, 0, depth - 1, 0);
    return put_node(at, YSH_PRICE, YSH_CLOSE, 0, 0, 0);
}

/* All or Any of so many comparisons of the close with a number, which hold or do not, and one thing more. */
static uint8_t *put_group(uint8_t *at, uint8_t kind, uint8_t compares, int many)
{
    at = put_node(at, kind, 0, (uint16_t)(many + 1), 0, 0);
    for (int i = 0; i < many; i++) {
        at = put_node(at, compares, 0, 0, 0, 0);
        at = put_node(at, YSH_PRICE, YSH_CLOSE, 0, 0, 0);
        at = put_node(at, YSH_CONST, 0, 0, 0, -1.0 - i);
    }
    return at;
}

static void write_tables(uint8_t slots, uint32_t depth)
{
    const uint8_t few[4] = {3, 4, 0, 0}, many[4] = {64, 62, 64, 64};
    uint8_t *at = small_table + 16;
    put_header(small_table, slots, few);
    put_below_before(put_cross(at, YSH_CROSS_ABOVE), depth);
    at = large_table + 16;
    put_header(large_table, slots, many);
    at = put_cross(put_group(at, YSH_ALL, YSH_GE, 20), YSH_CROSS_ABOVE);
    at = put_below_before(put_group(at, YSH_ANY, YSH_LT, 19), depth);
    at = put_cross(put_group(at, YSH_ALL, YSH_GE, 20), YSH_CROSS_BELOW);
    put_cross(put_group(at, YSH_ANY, YSH_LT, 20), YSH_CROSS_ABOVE);
}

/* ---- a run over a walk: a room of D rows that is full */

typedef struct {
    uint64_t settings[YSH_SETTING_WORDS], state[YSH_STATE_WORDS], status[YSH_STATUS_WORDS];
    uint64_t rows[MOST_ROWS * YSH_ROW_WORDS(64)], equity[MOST_POINTS * YSH_POINT_WORDS], trades[MOST_TRADES * YSH_TRADE_WORDS];
    uint8_t steps[4][YSH_STEP_BYTES(64)];
    uint64_t used[4], seen;
    size_t rows_len;
} Run;

static Run the, others[3];
static uint64_t bars[MOST_ROWS * YSH_BAR_WORDS(64)], slots;
static uint64_t stream[YSH_STREAM_WORDS];

static const uint64_t *bar_of(uint64_t number)
{
    return bars + number % MOST_ROWS * YSH_BAR_WORDS(slots);
}

static void write_bars(uint64_t of_slots)
{
    double last = 100.0;
    slots = of_slots;
    for (uint64_t i = 0; i < MOST_ROWS; i++) {
        uint64_t *bar = bars + i * YSH_BAR_WORDS(slots);
        double open = last;
        last = 100.0 + 20.0 * chance();
        bar[YSH_BAR_TIME] = 60 * i;
        bar[YSH_BAR_OPEN] = word_of(open), bar[YSH_BAR_CLOSE] = word_of(last);
        bar[YSH_BAR_HIGH] = word_of((open > last ? open : last) + 0.5);
        bar[YSH_BAR_LOW] = word_of((open > last ? last : open) - 0.5);
        bar[YSH_BAR_VOLUME] = word_of(1000.0);
        bar[YSH_BAR_MASK] = slots == 64 ? UINT64_MAX : (UINT64_C(1) << slots) - 1;
        for (uint64_t slot = 0; slot < slots; slot++)
            bar[YSH_SLOT + slot] = word_of(100.0 + 20.0 * chance());
        memset(bar + YSH_SLOT + slots, 0, 3 * sizeof *bar);
    }
}

static inline void step(Run *run, const uint64_t *bar)
{
    must(ysh_step(run->settings, YSH_SETTING_WORDS, run->state, YSH_STATE_WORDS, bar, YSH_BAR_WORDS(slots), run->rows, run->rows_len,
                  run->equity, sizeof run->equity / 8, run->trades, sizeof run->trades / 8, run->steps[0], run->used[0],
                  run->steps[1], run->used[1], run->steps[2], run->used[2], run->steps[3], run->used[3]));
}

static void step_many(Run *run, const uint64_t *from, uint64_t count)
{
    uint64_t done;
    must(ysh_steps(run->settings, YSH_SETTING_WORDS, run->state, YSH_STATE_WORDS, from, count * YSH_BAR_WORDS(slots), run->rows,
                   run->rows_len, run->equity, sizeof run->equity / 8, run->trades, sizeof run->trades / 8, run->steps[0], run->used[0],
                   run->steps[1], run->used[1], run->steps[2], run->used[2], run->steps[3], run->used[3], &done));
}

/* A run whose room of `depth` rows is full. */
static void begin(Run *run, const uint8_t *table, size_t bytes, uint64_t depth)
{
    memset(run->settings, 0, sizeof run->settings);
    run->settings[YSH_SLOTS] = slots, run->settings[YSH_DEPTH] = depth;
    run->settings[YSH_CAPITAL] = word_of(10000.0), run->settings[YSH_SIZING_VALUE] = word_of(0.5);
    run->settings[YSH_TAKER_BPS] = word_of(4.5);
    run->settings[YSH_STOP_LOSS] = word_of(4.0), run->settings[YSH_TAKE_PROFIT] = word_of(6.0);
    run->settings[YSH_GIVEN] = UINT64_C(1) << YSH_STOP_LOSS | UINT64_C(1) << YSH_TAKE_PROFIT;
    run->rows_len = depth * YSH_ROW_WORDS(slots);
    memset(run->status, 0, sizeof run->status);
    for (uint64_t tree = 0; tree < 4; tree++)
        must(ysh_translate(table, bytes, tree, run->steps[tree], sizeof run->steps[tree], &run->used[tree]));
    must(ysh_fresh(run->settings, YSH_SETTING_WORDS, run->state, YSH_STATE_WORDS));
    step_many(run, bars, depth);
}

#endif

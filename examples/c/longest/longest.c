/* The longest call that a box may be in when its supply drops, for one table, measured where it is run: on the box.
 *
 *     longest TABLE [SETTINGS]
 *
 * TABLE is a rule table, SETTINGS the 32 words of a box, little-endian (`ysh compile --words`). It makes single steps that do the most that a
 * step of this table can do: the room is full, so that all rows move up; every list runs to its end (its jumps are set to pass over
 * nothing); an order fills, sized over the whole lookback where the sizing is by volatility, the bar leaves the position, and the rules are asked again. Then the first
 * page of a dump. `ysh holdup --call` takes the sum: what has to end before the first program can begin.
 *
 * On a box without an operating system put its own clock into `now`. Under one, other work counts into the longest time; the middle one
 * is told beside it. */
#define _POSIX_C_SOURCE 199309L
#include <inttypes.h>
#include <stdio.h>
#include <stdlib.h>
#include <string.h>
#include <time.h>

#include "yshturpa.h"

enum { TREES = 4, TRIALS = 2001, PAGE = 256, TRADE_PLACES = 4 };

/* Nanoseconds. */
static uint64_t now(void)
{
    struct timespec time;
    clock_gettime(CLOCK_MONOTONIC, &time);
    return (uint64_t)time.tv_sec * UINT64_C(1000000000) + (uint64_t)time.tv_nsec;
}

static uint64_t word_of(double x)
{
    uint64_t word;
    memcpy(&word, &x, sizeof word);
    return word;
}

static void fail(const char *what, const char *why)
{
    fprintf(stderr, "longest: %s: %s\n", what, why);
    exit(2);
}

static void must(const char *call, uint64_t answer)
{
    if (answer != 0) {
        fprintf(stderr, "longest: %s: refused %" PRIu32 " at %" PRIu32 "\n", call, YSH_NUMBER(answer), YSH_PLACE(answer));
        exit(1);
    }
}

static void *room(size_t bytes)
{
    void *memory = calloc(1, bytes);
    if (memory == NULL)
        fail("memory", "there is not enough");
    return memory;
}

/* ---- what is measured: a box that is full */

typedef struct {
    uint8_t table[YSH_TABLE_BYTES];
    size_t table_len;
    uint64_t settings[YSH_SETTING_WORDS], slots, depth;
    uint64_t full[YSH_STATE_WORDS], state[YSH_STATE_WORDS];
    uint64_t *kept, *rows, *bar, equity[YSH_POINT_WORDS], trades[TRADE_PLACES * YSH_TRADE_WORDS];
    size_t rows_len, bar_len, steps;
    uint8_t *lists[TREES];
    uint64_t used[TREES];
} Box;

static size_t read_file(const char *path, uint8_t *into, size_t most)
{
    FILE *file = fopen(path, "rb");
    if (file == NULL)
        fail(path, "cannot be read");
    size_t length = fread(into, 1, most, file);
    if (fgetc(file) != EOF)
        fail(path, "longer than it may be");
    fclose(file);
    return length;
}

/* The settings that are handed over, or the plainest that the table runs with. */
static void choose_settings(Box *box, const char *path)
{
    uint8_t bytes[8 * YSH_SETTING_WORDS];
    uint64_t length;
    if (path != NULL && read_file(path, bytes, sizeof bytes) != sizeof bytes)
        fail(path, "not 32 words of 8 bytes");
    for (size_t word = 0; path != NULL && word < YSH_SETTING_WORDS; word++)
        for (int byte = 7; byte >= 0; byte--)
            box->settings[word] = box->settings[word] << 8 | bytes[8 * word + byte];
    if (path == NULL) {
        must("ysh_depth", ysh_depth(box->table, box->table_len, 0, &box->settings[YSH_DEPTH], &length));
        box->settings[YSH_SLOTS] = box->table[3];
        box->settings[YSH_CAPITAL] = word_of(10000.0);
        box->settings[YSH_SIZING_KIND] = YSH_SIZE_FRACTION;
        box->settings[YSH_SIZING_VALUE] = word_of(0.5);
        box->settings[YSH_STOP_LOSS] = word_of(1.0);
        box->settings[YSH_GIVEN] = UINT64_C(1) << YSH_STOP_LOSS;
    }
    box->slots = box->settings[YSH_SLOTS];
    box->depth = box->settings[YSH_DEPTH];
    if (box->slots > YSH_MOST_SLOTS || box->depth < 1 || box->depth > YSH_MOST_DEPTH)
        fail(path, "a K or a D that no box has");
}

/* A list that runs to its end whatever the bars hold, and then says no, so that the next list is run too, or yes. */
static void run_to_the_end(Box *box, int tree, uint8_t last)
{
    uint8_t *list = box->lists[tree];
    for (uint64_t at = 0; at < box->used[tree]; at += 16)
        if (list[at] == YSH_STEP_JUMP_AT_NO || list[at] == YSH_STEP_JUMP_AT_YES)
            list[at + 2] = list[at + 3] = 0;
    if (box->used[tree] == 0 || box->used[tree] >= 16 * YSH_MOST_STEPS)
        return;
    memset(list + box->used[tree], 0, 16);
    list[box->used[tree]] = last;
    box->used[tree] += 16;
}

static void translate(Box *box)
{
    static const uint8_t last[TREES] = {YSH_STEP_NO, YSH_STEP_YES, YSH_STEP_YES, YSH_STEP_YES};
    for (int tree = 0; tree < TREES; tree++) {
        size_t length = YSH_STEP_BYTES(YSH_MOST_NODES);
        box->lists[tree] = room(length + 16);
        must("ysh_translate", ysh_translate(box->table, box->table_len, (uint64_t)tree, box->lists[tree], length, &box->used[tree]));
        box->steps += box->used[tree] / 16;
        run_to_the_end(box, tree, last[tree]);
    }
}

/* A bar about a price, or one that reaches every stop there is. */
static void write_bar(Box *box, uint64_t *words, uint64_t number, int wide)
{
    double close = 100.0 + (double)(number % 17) * 0.25, reach = wide ? 99.0 : 0.5;
    words[YSH_BAR_TIME] = number * 60000;
    words[YSH_BAR_OPEN] = word_of(close);
    words[YSH_BAR_HIGH] = word_of(close + reach);
    words[YSH_BAR_LOW] = word_of(close - reach);
    words[YSH_BAR_CLOSE] = word_of(close + 0.25);
    words[YSH_BAR_VOLUME] = word_of(1000.0);
    words[YSH_BAR_MASK] = box->slots == 64 ? UINT64_MAX : (UINT64_C(1) << box->slots) - 1;
    for (uint64_t slot = 0; slot < box->slots; slot++)
        words[YSH_SLOT + slot] = word_of(close + (double)slot);
}

/* A room of just D rows, all of them held, and a state that has seen more. */
static void fill(Box *box)
{
    size_t width = YSH_ROW_WORDS(box->slots);
    box->rows_len = box->depth * width;
    box->bar_len = YSH_BAR_WORDS(box->slots);
    box->kept = room(8 * box->rows_len);
    box->rows = room(8 * box->rows_len);
    box->bar = room(8 * box->bar_len);
    for (uint64_t row = 0; row < box->depth; row++) {
        write_bar(box, box->bar, row, 0);
        memcpy(box->kept + row * width, box->bar, 8 * width);
    }
    must("ysh_fresh", ysh_fresh(box->settings, YSH_SETTING_WORDS, box->full, YSH_STATE_WORDS));
    uint64_t seen = box->settings[YSH_WARMUP] < 1000000000 ? box->settings[YSH_WARMUP] : 0;
    box->full[YSH_BARS_SEEN] = seen + box->depth + 100;
    box->full[YSH_ROWS_HELD] = box->depth;
    box->full[YSH_LAST_TIME] = (box->depth - 1) * 60000;
    box->full[YSH_LAST_CLOSE] = word_of(100.0);
}

static void held(Box *box, double qty)
{
    box->state[YSH_QTY] = word_of(qty);
    box->state[YSH_ENTERED] = 1;
    box->state[YSH_ENTRY_BAR] = box->state[YSH_BARS_SEEN] - 1;
    box->state[YSH_ENTRY_PRICE] = box->state[YSH_EXTREME] = box->state[YSH_OPEN_WORST] = word_of(100.0);
}

/* ---- the measurements */

static const char *const CASES[] = {
    "the rules are asked", "a long order fills", "a short order fills", "an exit fills, and the rules are asked", "a long is held", "a short is held",
};

enum { CASE_COUNT = sizeof CASES / sizeof CASES[0] };

static void prepare(Box *box, int what, int wide)
{
    memcpy(box->state, box->full, sizeof box->state);
    memcpy(box->rows, box->kept, 8 * box->rows_len);
    write_bar(box, box->bar, box->depth, wide);
    if (what == 1)
        box->state[YSH_ORDER] = YSH_ORDER_LONG;
    if (what == 2)
        box->state[YSH_ORDER] = YSH_ORDER_SHORT;
    if (what == 3) {
        held(box, 1.0);
        box->state[YSH_ORDER] = YSH_ORDER_EXIT;
    }
    if (what == 4 || what == 5)
        held(box, what == 4 ? 1.0 : -1.0);
}

static uint64_t step(Box *box)
{
    uint64_t began = now();
    uint64_t answer = ysh_step(box->settings, YSH_SETTING_WORDS, box->state, YSH_STATE_WORDS, box->bar, box->bar_len, box->rows, box->rows_len,
                               box->equity, YSH_POINT_WORDS, box->trades, TRADE_PLACES * YSH_TRADE_WORDS,
                               box->lists[0], box->used[0], box->lists[1], box->used[1], box->lists[2], box->used[2], box->lists[3], box->used[3]);
    uint64_t took = now() - began;
    must("ysh_step", answer);
    return took;
}

static uint64_t first_page(Box *box)
{
    uint8_t page[PAGE];
    uint64_t used;
    uint64_t began = now();
    uint64_t answer = ysh_dump_part(box->settings, YSH_SETTING_WORDS, box->full, YSH_STATE_WORDS, box->kept, box->rows_len, 0, page, PAGE, &used);
    uint64_t took = now() - began;
    must("ysh_dump_part", answer);
    return took;
}

static int compare(const void *a, const void *b)
{
    uint64_t x = *(const uint64_t *)a, y = *(const uint64_t *)b;
    return (x > y) - (x < y);
}

/* The longest of many, and the one in the middle. */
typedef struct {
    uint64_t longest, middle;
} Spread;

static Spread spread_of(uint64_t times[TRIALS])
{
    qsort(times, TRIALS, sizeof times[0], compare);
    Spread spread = {times[TRIALS - 1], times[TRIALS / 2]};
    return spread;
}

static Spread measure_steps(Box *box, const char **what)
{
    static uint64_t times[TRIALS];
    Spread most = {0, 0};
    for (int one = 0; one < 2 * CASE_COUNT; one++) {
        for (int trial = 0; trial < TRIALS; trial++) {
            prepare(box, one / 2, one % 2);
            times[trial] = step(box);
        }
        Spread spread = spread_of(times);
        if (spread.middle > most.middle) {
            most.middle = spread.middle;
            *what = CASES[one / 2];
        }
        if (spread.longest > most.longest)
            most.longest = spread.longest;
    }
    return most;
}

static Spread measure_pages(Box *box)
{
    static uint64_t times[TRIALS];
    for (int trial = 0; trial < TRIALS; trial++)
        times[trial] = first_page(box);
    return spread_of(times);
}

static void tell(const char *what, Spread spread, const char *more)
{
    printf("%-6s %" PRIu64 ".%03" PRIu64 " us at the longest, %" PRIu64 ".%03" PRIu64 " us in the middle%s\n", what, spread.longest / 1000,
           spread.longest % 1000, spread.middle / 1000, spread.middle % 1000, more);
}

int main(int count, char **words)
{
    static Box box;
    char more[160];
    const char *what = "";
    if (count < 2 || count > 3)
        fail("longest TABLE [SETTINGS]", "a rule table was expected, and the 32 words of its settings where these are known");
    box.table_len = read_file(words[1], box.table, sizeof box.table);
    choose_settings(&box, count == 3 ? words[2] : NULL);
    translate(&box);
    fill(&box);
    printf("table  D %" PRIu64 ", K %" PRIu64 ", %zu steps in its lists; %d steps of each case\n", box.depth, box.slots, box.steps, 2 * TRIALS);
    Spread steps = measure_steps(&box, &what), page = measure_pages(&box);
    snprintf(more, sizeof more, ": most where %s", what);
    tell("step", steps, more);
    snprintf(more, sizeof more, ": the first %d bytes", PAGE);
    tell("dump", page, more);
    uint64_t call = steps.longest + page.longest;
    printf("call   ysh holdup --call %" PRIu64 ".%03" PRIu64 "us\n", call / 1000, call % 1000);
    return 0;
}

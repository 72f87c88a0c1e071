/* A box that loses its supply: powercut BYTES FILE. It steps over half of a day, erases the area to ones, programs its image page by page and is cut after BYTES
 * bytes were programmed; what the area then holds is left in FILE. Then it starts again: it reads FILE, restores what is there, or says that the
 * image is refused and begins afresh with all bars, and goes on. A box that was never cut runs beside it, and both print their trades. */
#include <inttypes.h>
#include <stdio.h>
#include <stdlib.h>
#include <string.h>

#include "yshturpa.h"

enum { SLOTS = 0, DEPTH = 3, BARS = 60, CUT = 30, TREES = 4, NODES = 8, ROOM = YSH_STEP_BYTES(NODES) };
enum { PAGE = 128, FIRST_WORD = 8, MOST = YSH_DUMP_BYTES(SLOTS, DEPTH) };

static uint64_t word_of(double x)
{
    uint64_t word;
    memcpy(&word, &x, sizeof word);
    return word;
}

static void must(const char *call, uint64_t answer)
{
    if (answer != 0) {
        printf("%s: refused %" PRIu32 " at %" PRIu32 "\n", call, YSH_NUMBER(answer), YSH_PLACE(answer));
        exit(1);
    }
}

/* Entry: Rising(close, 1). Exit: Falling(close, 2). */
static const uint8_t table[16 + 16 * 4] = {
    'R', 'T', 'B', SLOTS, 1, 0, 4, 0, 2, 0, 2, 0, 0, 0, 0, 0,
    YSH_RISING, 0, 0, 0, 1, 0, 0, 0, 0, 0, 0, 0, 0, 0, 0, 0,  YSH_PRICE, YSH_CLOSE, 0, 0, 0, 0, 0, 0, 0, 0, 0, 0, 0, 0, 0, 0,
    YSH_FALLING, 0, 0, 0, 2, 0, 0, 0, 0, 0, 0, 0, 0, 0, 0, 0, YSH_PRICE, YSH_CLOSE, 0, 0, 0, 0, 0, 0, 0, 0, 0, 0, 0, 0, 0, 0,
};

typedef struct {
    uint64_t settings[YSH_SETTING_WORDS], state[YSH_STATE_WORDS], rows[DEPTH * YSH_ROW_WORDS(SLOTS)];
    uint64_t equity[BARS * YSH_POINT_WORDS], trades[(BARS + 1) * YSH_TRADE_WORDS];
    uint8_t steps[TREES][ROOM];
    uint64_t used[TREES];
} Box;

static void begin(Box *box)
{
    memset(box, 0, sizeof *box);
    box->settings[YSH_SLOTS] = SLOTS;
    box->settings[YSH_DEPTH] = DEPTH;
    box->settings[YSH_CAPITAL] = word_of(10000.0);
    box->settings[YSH_SIZING_KIND] = YSH_SIZE_FRACTION;
    box->settings[YSH_SIZING_VALUE] = word_of(0.5);
    box->settings[YSH_TAKER_BPS] = word_of(5.0);
    for (uint64_t tree = 0; tree < TREES; tree++)
        must("ysh_translate", ysh_translate(table, sizeof table, tree, box->steps[tree], ROOM, &box->used[tree]));
    must("ysh_fresh", ysh_fresh(box->settings, YSH_SETTING_WORDS, box->state, YSH_STATE_WORDS));
}

static void step(Box *box, int number)
{
    int phase = number % 12, height = phase < 6 ? phase : 12 - phase;
    double last = 100.0 + 2.0 * height;
    uint64_t bar[YSH_BAR_WORDS(SLOTS)] = {0};
    bar[YSH_BAR_TIME] = (uint64_t)number * 60000;
    bar[YSH_BAR_OPEN] = bar[YSH_BAR_CLOSE] = word_of(last);
    bar[YSH_BAR_HIGH] = word_of(last + 0.5);
    bar[YSH_BAR_LOW] = word_of(last - 0.5);
    bar[YSH_BAR_VOLUME] = word_of(1000.0);
    must("ysh_step", ysh_step(box->settings, YSH_SETTING_WORDS, box->state, YSH_STATE_WORDS, bar, YSH_BAR_WORDS(SLOTS), box->rows, sizeof box->rows / 8,
                              box->equity, sizeof box->equity / 8, box->trades, sizeof box->trades / 8, box->steps[0], box->used[0], box->steps[1],
                              box->used[1], box->steps[2], box->used[2], box->steps[3], box->used[3]));
}

/* One program of a flash: it clears bits, and is cut where the supply is gone. */
static void program(uint8_t *flash, const uint8_t *bytes, uint64_t len, uint64_t *supply)
{
    for (uint64_t i = 0; i < len && *supply > 0; i++, --*supply)
        flash[i] &= bytes[i];
}

/* Bytes `at` to `at + len` of the image, made in a page's memory, and programmed where they belong. */
static void program_part(const Box *box, uint8_t *area, uint64_t at, uint64_t len, uint64_t *supply)
{
    uint8_t page[PAGE];
    uint64_t used = 0;
    must("ysh_dump_part", ysh_dump_part(box->settings, YSH_SETTING_WORDS, box->state, YSH_STATE_WORDS, box->rows, sizeof box->rows / 8, at, page, len, &used));
    program(area + at, page, used, supply);
}

/* The plan of docs/FLASH.md: every page of the image with the first word left erased, then the first word alone. */
static void dump(const Box *box, uint8_t *area, uint64_t size, uint64_t supply)
{
    program_part(box, area, FIRST_WORD, PAGE - FIRST_WORD, &supply);
    for (uint64_t at = PAGE; at < size; at += PAGE)
        program_part(box, area, at, PAGE, &supply);
    program_part(box, area, 0, FIRST_WORD, &supply);
}

static void print_trades(const char *who, const Box *box, uint64_t after)
{
    for (uint64_t i = 0; i < box->state[YSH_TRADES]; i++) {
        const uint64_t *trade = box->trades + i * YSH_TRADE_WORDS;
        if (trade[YSH_TRADE_EXIT_TIME] >= after)
            printf("%s: in at %" PRIu64 ", out at %" PRIu64 ", pnl bits %016" PRIx64 "\n", who, trade[YSH_TRADE_ENTRY_TIME], trade[YSH_TRADE_EXIT_TIME],
                   trade[YSH_TRADE_PNL]);
    }
}

int main(int count, char **words)
{
    static Box unbroken, box, again;
    static uint8_t area[MOST], image[MOST];
    uint64_t size = ysh_dump_bytes(SLOTS, DEPTH), answer;
    FILE *flash;
    int next = CUT;
    if (count != 3) {
        printf("usage: powercut BYTES FILE\n");
        return 1;
    }
    begin(&unbroken);
    begin(&box);
    for (int i = 0; i < CUT; i++)
        step(&box, i);
    memset(area, 0xff, size);
    dump(&box, area, size, strtoull(words[1], NULL, 10));
    flash = fopen(words[2], "wb");
    if (!flash || fwrite(area, 1, size, flash) != size || fclose(flash) != 0)
        return 1;

    begin(&again);
    flash = fopen(words[2], "rb");
    if (!flash || fread(image, 1, size, flash) != size || fclose(flash) != 0)
        return 1;
    answer = ysh_restore(again.settings, YSH_SETTING_WORDS, again.state, YSH_STATE_WORDS, image, size, again.rows, sizeof again.rows / 8);
    printf("size %" PRIu64 "\n", size);
    if (answer == 0) {
        printf("restored at bar %" PRIu64 ", %" PRIu64 " rows\n", again.state[YSH_BARS_SEEN], again.state[YSH_ROWS_HELD]);
    } else {
        printf("refused %" PRIu32 " at %" PRIu32 ", beginning afresh\n", YSH_NUMBER(answer), YSH_PLACE(answer));
        next = 0;
    }
    for (int i = 0; i < BARS; i++)
        step(&unbroken, i);
    for (int i = next; i < BARS; i++)
        step(&again, i);
    print_trades("unbroken", &unbroken, CUT * UINT64_C(60000));
    print_trades("again", &again, CUT * UINT64_C(60000));
    return 0;
}

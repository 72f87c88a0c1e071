/* The table, the settings and the bars. */
#include "strategy.h"

#define NODE(kind, selector, children, n) kind, selector, children, 0, n, 0, 0, 0, 0, 0, 0, 0, 0, 0, 0, 0

/* In a section of its own, so that `run` can hand the very bytes to `ysh holdup`. */
__attribute__((section(".table"))) const uint8_t strategy_table[TABLE_BYTES] = {
    'R', 'T', 'B', 2, 2, 0, NODES, 0, 9, 0, 6, 0, 3, 0, 1, 0,
    /* entry: the fast average crosses above the slow one, or the close is over the high of the twenty bars before it */
    NODE(YSH_ANY, 0, 2, 0),
    NODE(YSH_CROSS_ABOVE, 0, 0, 0), NODE(YSH_REF, 0, 0, 0), NODE(YSH_REF, 0, 0, 1),
    NODE(YSH_GT, 0, 0, 0), NODE(YSH_PRICE, YSH_CLOSE, 0, 0), NODE(YSH_PREV, 0, 0, 1), NODE(YSH_HIGHEST, 0, 0, 20), NODE(YSH_PRICE, YSH_HIGH, 0, 0),
    /* exit: the close is below that of 30 bars before, or nine bars have passed */
    NODE(YSH_ANY, 0, 2, 0),
    NODE(YSH_LT, 0, 0, 0), NODE(YSH_PRICE, YSH_CLOSE, 0, 0), NODE(YSH_PREV, 0, 0, 30), NODE(YSH_PRICE, YSH_CLOSE, 0, 0),
    NODE(YSH_BARS_SINCE_ENTRY, YSH_SINCE_GE, 0, 9),
    /* short entry: the fast average crosses below the slow one; short exit: five bars have passed */
    NODE(YSH_CROSS_BELOW, 0, 0, 0), NODE(YSH_REF, 0, 0, 0), NODE(YSH_REF, 0, 0, 1),
    NODE(YSH_BARS_SINCE_ENTRY, YSH_SINCE_GE, 0, 5),
};

static uint64_t word_of(double x)
{
    union { double x; uint64_t word; } both = {x};
    return both.word;
}

void strategy_settings(uint64_t settings[YSH_SETTING_WORDS])
{
    for (int i = 0; i < YSH_SETTING_WORDS; i++)
        settings[i] = 0;
    settings[YSH_SLOTS] = SLOTS;
    settings[YSH_DEPTH] = DEPTH;
    settings[YSH_CAPITAL] = word_of(10000.0);
    settings[YSH_SIZING_KIND] = YSH_SIZE_VOLATILITY;
    settings[YSH_SIZING_VALUE] = word_of(0.01);
    settings[YSH_LOOKBACK] = LOOKBACK;
    settings[YSH_TAKER_BPS] = word_of(4.0);
    settings[YSH_MAKER_BPS] = word_of(1.0);
    settings[YSH_SLIPPAGE_VALUE] = word_of(2.0);
    settings[YSH_FUNDING] = 1;
    settings[YSH_ENTRY_KIND] = YSH_AT_LIMIT;
    settings[YSH_LEVEL_PCT] = word_of(0.25);
    settings[YSH_TRAILING_STOP] = word_of(2.0);
    settings[YSH_GIVEN] = UINT64_C(1) << YSH_TRAILING_STOP;
}

/* The mean of the last `length` closes up to bar `number`, where there are as many. */
static void average(uint64_t bars[][BAR], unsigned number, unsigned slot, unsigned length)
{
    union { uint64_t word; double x; } close;
    double sum = 0.0;
    if (number + 1 < length)
        return;
    for (unsigned back = 0; back < length; back++) {
        close.word = bars[number - back][YSH_BAR_CLOSE];
        sum += close.x;
    }
    bars[number][YSH_SLOT + slot] = word_of(sum / length);
    bars[number][YSH_BAR_MASK] |= UINT64_C(1) << slot;
}

/* A walk in quarters, funding every sixteenth bar. Slots beyond the two averages hold the bar's number. */
void strategy_day(uint64_t bars[][BAR], unsigned count)
{
    double last = 1000.0;
    uint32_t chance = 20261;
    for (unsigned i = 0; i < count; i++) {
        double before = last;
        chance = chance * 1664525 + 1013904223;
        last += 0.25 * ((int)(chance >> 27) - 15) + (i / 24 % 2 ? -0.75 : 0.75);
        for (unsigned word = 0; word < BAR; word++)
            bars[i][word] = 0;
        bars[i][YSH_BAR_TIME] = (uint64_t)i * 60000;
        bars[i][YSH_BAR_OPEN] = word_of(before);
        bars[i][YSH_BAR_HIGH] = word_of((last > before ? last : before) + 0.5);
        bars[i][YSH_BAR_LOW] = word_of((last < before ? last : before) - 0.5);
        bars[i][YSH_BAR_CLOSE] = word_of(last);
        bars[i][YSH_BAR_VOLUME] = word_of(100.0 + (chance >> 24));
        average(bars, i, 0, 3);
        average(bars, i, 1, 8);
        for (unsigned slot = 2; slot < SLOTS; slot++) {
            bars[i][YSH_SLOT + slot] = word_of(i);
            bars[i][YSH_BAR_MASK] |= UINT64_C(1) << slot;
        }
        if (i % 16 == 15) {
            bars[i][YSH_BAR_FUNDED(SLOTS)] = 1;
            bars[i][YSH_BAR_MARK(SLOTS)] = word_of(last);
            bars[i][YSH_BAR_RATE(SLOTS)] = word_of(0.0001);
        }
    }
}

/* The box that was never broken, and the comparison with it. */
#include "unbroken.h"

struct unbroken unbroken;

void copy_words(uint64_t *to, const uint64_t *from, uint64_t words)
{
    while (words--)
        *to++ = *from++;
}

uint64_t unbroken_step(uint64_t *state, const uint64_t *bar, uint64_t *rows, uint64_t rows_len)
{
    return ysh_step(unbroken.settings, YSH_SETTING_WORDS, state, YSH_STATE_WORDS, bar, BAR, rows, rows_len,
                    unbroken.points, DAY * YSH_POINT_WORDS, unbroken.trades, (DAY + 1) * YSH_TRADE_WORDS, unbroken.steps[0], unbroken.used[0],
                    unbroken.steps[1], unbroken.used[1], unbroken.steps[2], unbroken.used[2], unbroken.steps[3], unbroken.used[3]);
}

uint64_t unbroken_run(void)
{
    uint64_t state[YSH_STATE_WORDS], refused = 0;
    strategy_day(unbroken.bars, DAY);
    strategy_settings(unbroken.settings);
    for (uint64_t tree = 0; tree < TREES; tree++)
        refused |= ysh_translate(strategy_table, TABLE_BYTES, tree, unbroken.steps[tree], STEP_ROOM, &unbroken.used[tree]);
    refused |= ysh_fresh(unbroken.settings, YSH_SETTING_WORDS, state, YSH_STATE_WORDS);
    copy_words(unbroken.states[0], state, YSH_STATE_WORDS);
    for (uint64_t i = 0; i < DAY; i++) {
        refused |= unbroken_step(state, unbroken.bars[i], unbroken.rows, DAY * ROW);
        copy_words(unbroken.states[i + 1], state, YSH_STATE_WORDS);
    }
    return refused;
}

int same_words(const uint64_t *a, const uint64_t *b, uint64_t words)
{
    while (words-- > 0)
        if (*a++ != *b++)
            return 0;
    return 1;
}

int as_unbroken(const uint64_t *state, const uint64_t *rows, uint64_t number)
{
    uint64_t held = number < DEPTH ? number : DEPTH;
    for (int word = 0; word < YSH_STATE_WORDS; word++)
        if (word != YSH_ROWS_HELD && word != YSH_EQUITY_POINTS && word != YSH_TRADES && state[word] != unbroken.states[number][word])
            return 0;
    return state[YSH_ROWS_HELD] == held && same_words(rows, unbroken.rows + (number - held) * ROW, held * ROW);
}

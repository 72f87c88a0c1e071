/* A box that was never broken, with rooms for the whole day: what it held after each bar. */
#ifndef UNBROKEN_H
#define UNBROKEN_H

#include "strategy.h"

enum { DAY = DEPTH + 97 };

extern struct unbroken {
    uint64_t bars[DAY][BAR];
    uint64_t settings[YSH_SETTING_WORDS], states[DAY + 1][YSH_STATE_WORDS], rows[DAY * ROW];
    uint64_t points[DAY * YSH_POINT_WORDS], trades[(DAY + 1) * YSH_TRADE_WORDS];
    uint8_t steps[TREES][STEP_ROOM];
    uint64_t used[TREES];
} unbroken;

/* Runs it over the day. 0, or what was refused. */
uint64_t unbroken_run(void);

/* A step of its strategy, over another state and other rows; the equity and trade rooms are its own. */
uint64_t unbroken_step(uint64_t *state, const uint64_t *bar, uint64_t *rows, uint64_t rows_len);

/* A box's state and window after so many bars, word for word. How many rows, points and trades are in its rooms is the box's own. */
int as_unbroken(const uint64_t *state, const uint64_t *rows, uint64_t number);

void copy_words(uint64_t *to, const uint64_t *from, uint64_t words);
int same_words(const uint64_t *a, const uint64_t *b, uint64_t words);

#endif

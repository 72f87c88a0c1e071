/* The box, and what is around it. */
#ifndef BOX_H
#define BOX_H

#include "strategy.h"

/* From reset on. It ends with the supply. */
_Noreturn void box_start(void);

/* The interrupt of the supply: it has fallen, the capacitors hold. */
void box_supply_lost(void);

/* The market: the bar after the `number` that the box has taken, or null where the day is over. */
const uint64_t *market_bar(uint64_t number);

/* What the box tells: what it restored, or that there was nothing; each bar's point and trades as they come. */
void told_restored(const uint64_t *state, const uint64_t *rows);
void told_nothing(void);
void told_bar(const uint64_t *state, const uint64_t *rows, const uint64_t *point, const uint64_t *trades);

/* Nothing is left to do until the supply is gone. A second one for what must not happen. */
_Noreturn void box_waits(int dumped);
_Noreturn void box_failed(const char *call, uint64_t answer);

#endif

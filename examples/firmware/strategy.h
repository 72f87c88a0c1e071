/* What the box runs: a table of 19 nodes with two slots that needs a window of 31 rows, its settings, and a made-up day of bars. */
#ifndef STRATEGY_H
#define STRATEGY_H

#include "yshturpa.h"

#ifndef SLOTS
#define SLOTS 2         /* K: a build that measures larger windows gives its own; the table reads slots 0 and 1 */
#endif
#ifndef DEPTH
#define DEPTH 31        /* D: what ysh_depth answers for the table and the lookback, or more */
#endif

enum { TREES = 4, NODES = 19, TABLE_BYTES = 16 + 16 * NODES, LOOKBACK = 20, STEP_ROOM = YSH_STEP_BYTES(9) };
enum { BAR = YSH_BAR_WORDS(SLOTS), ROW = YSH_ROW_WORDS(SLOTS), IMAGE = YSH_DUMP_BYTES(SLOTS, DEPTH) };

extern const uint8_t strategy_table[TABLE_BYTES];
void strategy_settings(uint64_t settings[YSH_SETTING_WORDS]);
void strategy_day(uint64_t bars[][BAR], unsigned count);

#endif

/* The papers' worked rule, run from C: enter long where the fast average crosses above the slow one, leave where the close
 * is below the close two bars before. Checks the table, prints how deep its window is, translates its trees, steps over
 * built-in bars (one of them bad, and refused), and prints each trade and the metrics. */
#include <inttypes.h>
#include <stdio.h>
#include <stdlib.h>
#include <string.h>

#include "yshturpa.h"

enum { SLOTS = 2, FAST = 3, SLOW = 8, BARS = 60, TRADES = 32, ROWS = 8, TREES = 4, TREE_NODES = 16 };

enum { TABLE_BYTES = 16 + 16 * 7, STEP_ROOM = YSH_STEP_BYTES(TREE_NODES) };

static uint64_t word_of(double x)
{
    uint64_t word;
    memcpy(&word, &x, sizeof word);
    return word;
}

static double float_of(uint64_t word)
{
    double x;
    memcpy(&x, &word, sizeof x);
    return x;
}

/* Ends the program where a call was refused. */
static void must(const char *call, uint64_t answer)
{
    if (answer != 0) {
        printf("%s: refused %" PRIu32 " at %" PRIu32 "\n", call, YSH_NUMBER(answer), YSH_PLACE(answer));
        exit(1);
    }
}

/* ---- the rule table */

static void put_node(uint8_t *table, int number, uint8_t kind, uint8_t selector, uint8_t n)
{
    uint8_t *node = table + 16 + 16 * number;
    node[0] = kind;
    node[1] = selector;
    node[4] = n;
}

/* Entry: CrossAbove(slot 0, slot 1). Exit: Lt(close, Prev(close, 2)). */
static void write_table(uint8_t table[TABLE_BYTES])
{
    static const uint8_t header[16] = {'R', 'T', 'B', SLOTS, 1, 0, 7, 0, 3, 0, 4, 0, 0, 0, 0, 0};
    memset(table, 0, TABLE_BYTES);
    memcpy(table, header, sizeof header);
    put_node(table, 0, YSH_CROSS_ABOVE, 0, 0);
    put_node(table, 1, YSH_REF, 0, 0);           /* slot 0 */
    put_node(table, 2, YSH_REF, 0, 1);           /* slot 1 */
    put_node(table, 3, YSH_LT, 0, 0);
    put_node(table, 4, YSH_PRICE, YSH_CLOSE, 0);
    put_node(table, 5, YSH_PREV, 0, 2);          /* 2 bars back: */
    put_node(table, 6, YSH_PRICE, YSH_CLOSE, 0);
}

/* ---- the bars: a wave of sixteen bars that climbs a little with each turn */

static double close_of(int bar)
{
    int phase = bar % 16;
    int height = phase < 8 ? phase : 16 - phase;
    return 100.0 + 1.5 * height + 0.25 * bar;
}

static double average(int bar, int length)
{
    double sum = 0.0;
    for (int back = 0; back < length; back++)
        sum += close_of(bar - back);
    return sum / length;
}

static void write_bar(uint64_t words[YSH_BAR_WORDS(SLOTS)], int bar)
{
    double last = close_of(bar), before = bar > 0 ? close_of(bar - 1) : last;
    memset(words, 0, sizeof(uint64_t) * YSH_BAR_WORDS(SLOTS));
    words[YSH_BAR_TIME] = (uint64_t)bar * 60000;
    words[YSH_BAR_OPEN] = word_of(before);
    words[YSH_BAR_HIGH] = word_of((last > before ? last : before) + 0.5);
    words[YSH_BAR_LOW] = word_of((last < before ? last : before) - 0.5);
    words[YSH_BAR_CLOSE] = word_of(last);
    words[YSH_BAR_VOLUME] = word_of(1000.0);
    if (bar + 1 >= FAST) { /* an average that has too few bars is absent: its bit is 0, and its word is not looked at */
        words[YSH_BAR_MASK] |= 1;
        words[YSH_SLOT] = word_of(average(bar, FAST));
    }
    if (bar + 1 >= SLOW) {
        words[YSH_BAR_MASK] |= 2;
        words[YSH_SLOT + 1] = word_of(average(bar, SLOW));
    }
}

/* ---- a run */

typedef struct {
    uint64_t settings[YSH_SETTING_WORDS], state[YSH_STATE_WORDS];
    uint64_t rows[ROWS * YSH_ROW_WORDS(SLOTS)], equity[BARS * YSH_POINT_WORDS], trades[TRADES * YSH_TRADE_WORDS];
    uint8_t steps[TREES][STEP_ROOM];
    uint64_t used[TREES];
} Run;

static void choose_settings(uint64_t settings[YSH_SETTING_WORDS], uint64_t depth)
{
    memset(settings, 0, sizeof(uint64_t) * YSH_SETTING_WORDS);
    settings[YSH_SLOTS] = SLOTS;
    settings[YSH_DEPTH] = depth;
    settings[YSH_CAPITAL] = word_of(10000.0);
    settings[YSH_SIZING_KIND] = YSH_SIZE_FRACTION;
    settings[YSH_SIZING_VALUE] = word_of(0.5);
    settings[YSH_TAKER_BPS] = word_of(5.0);
    settings[YSH_SLIPPAGE_KIND] = YSH_SLIP_FIXED;
    settings[YSH_SLIPPAGE_VALUE] = word_of(2.0);
    settings[YSH_STOP_LOSS] = word_of(10.0);
    settings[YSH_GIVEN] = UINT64_C(1) << YSH_STOP_LOSS;
}

static void begin(Run *run, const uint8_t *table, uint64_t depth)
{
    choose_settings(run->settings, depth);
    for (uint64_t tree = 0; tree < TREES; tree++)
        must("ysh_translate", ysh_translate(table, TABLE_BYTES, tree, run->steps[tree], STEP_ROOM, &run->used[tree]));
    must("ysh_fresh", ysh_fresh(run->settings, YSH_SETTING_WORDS, run->state, YSH_STATE_WORDS));
}

static uint64_t step(Run *run, const uint64_t bar[YSH_BAR_WORDS(SLOTS)])
{
    return ysh_step(run->settings, YSH_SETTING_WORDS, run->state, YSH_STATE_WORDS, bar, YSH_BAR_WORDS(SLOTS),
                    run->rows, sizeof run->rows / 8, run->equity, sizeof run->equity / 8, run->trades, sizeof run->trades / 8,
                    run->steps[0], run->used[0], run->steps[1], run->used[1], run->steps[2], run->used[2],
                    run->steps[3], run->used[3]);
}

/* All bars from number `from` on in one call, which says how many it did. */
static uint64_t rest_of_day(Run *run, int from, uint64_t *done)
{
    static uint64_t bars[BARS][YSH_BAR_WORDS(SLOTS)];
    for (int i = from; i < BARS; i++)
        write_bar(bars[i], i);
    return ysh_steps(run->settings, YSH_SETTING_WORDS, run->state, YSH_STATE_WORDS,
                     bars[from], (size_t)(BARS - from) * YSH_BAR_WORDS(SLOTS),
                     run->rows, sizeof run->rows / 8, run->equity, sizeof run->equity / 8, run->trades, sizeof run->trades / 8,
                     run->steps[0], run->used[0], run->steps[1], run->used[1], run->steps[2], run->used[2],
                     run->steps[3], run->used[3], done);
}

/* Bar 20 with a close that is no number is refused, and the run goes on as if it had not been handed over. */
static void try_bad_bar(Run *run)
{
    static Run before;
    uint64_t bar[YSH_BAR_WORDS(SLOTS)], answer;
    before = *run;
    write_bar(bar, 20);
    bar[YSH_BAR_CLOSE] = UINT64_C(0x7ff8000000000000);
    answer = step(run, bar);
    printf("bad bar: refused %" PRIu32 " at %" PRIu32 ", %s\n", YSH_NUMBER(answer), YSH_PLACE(answer),
           memcmp(&before, run, sizeof before) == 0 ? "nothing changed" : "SOMETHING CHANGED");
}

/* Whether the exit rule says yes now: by its tree over the rows held, and by its steps. */
static void ask_exit(const Run *run, const uint8_t *table)
{
    const uint64_t *state = run->state;
    size_t words = state[YSH_ROWS_HELD] * YSH_ROW_WORDS(SLOTS);
    uint64_t by_tree, by_steps, visits;
    must("ysh_rule", ysh_rule(table, TABLE_BYTES, 1, run->rows, words, state[YSH_QTY], state[YSH_ENTERED], state[YSH_ENTRY_BAR],
                              state[YSH_BARS_SEEN], &by_tree));
    must("ysh_run", ysh_run(run->steps[1], run->used[1], run->rows, words, SLOTS, run->settings[YSH_DEPTH], state[YSH_QTY],
                            state[YSH_ENTERED], state[YSH_ENTRY_BAR], state[YSH_BARS_SEEN], &by_steps, &visits));
    printf("exit rule: %s by its tree, %s by its %" PRIu64 " steps\n", by_tree ? "yes" : "no", by_steps ? "yes" : "no", visits);
}

static void finish(Run *run, uint64_t metrics[YSH_METRIC_WORDS])
{
    must("ysh_finish", ysh_finish(run->settings, YSH_SETTING_WORDS, run->state, YSH_STATE_WORDS,
                                  run->rows, sizeof run->rows / 8, run->equity, sizeof run->equity / 8,
                                  run->trades, sizeof run->trades / 8, metrics, YSH_METRIC_WORDS));
}

static void print_trades(const Run *run)
{
    static const char *const reasons[] = {"?", "signal", "stop_loss", "trailing_stop", "take_profit", "liquidation", "end"};
    for (uint64_t i = 0; i < run->state[YSH_TRADES]; i++) {
        const uint64_t *trade = run->trades + i * YSH_TRADE_WORDS;
        printf("trade %" PRIu64 ": in at %" PRId64 " for %.4f, out at %" PRId64 " for %.4f, quantity %.6f, pnl %.4f, worst %.4f, %s\n", i,
               (int64_t)trade[YSH_TRADE_ENTRY_TIME], float_of(trade[YSH_TRADE_ENTRY_PRICE]), (int64_t)trade[YSH_TRADE_EXIT_TIME],
               float_of(trade[YSH_TRADE_EXIT_PRICE]), float_of(trade[YSH_TRADE_QTY]), float_of(trade[YSH_TRADE_PNL]),
               float_of(trade[YSH_TRADE_WORST]),
               reasons[trade[YSH_TRADE_REASON] <= YSH_REASON_END ? trade[YSH_TRADE_REASON] : 0]);
    }
}

static void print_metrics(const uint64_t metrics[YSH_METRIC_WORDS])
{
    static const char *const names[] = {"pnl", "return %", "sharpe", "sortino", "calmar", "max drawdown %", "win rate %",
                                        "profit factor"};
    for (int i = 0; i < YSH_NUM_TRADES; i++)
        printf("%s %.6f\n", names[i], float_of(metrics[i]));
    printf("trades %" PRIu64 "\n", metrics[YSH_NUM_TRADES]);
}

int main(void)
{
    static Run run;
    uint8_t table[TABLE_BYTES];
    uint64_t nodes, needed, depth, bytes, done, bar[YSH_BAR_WORDS(SLOTS)], metrics[YSH_METRIC_WORDS];
    if (ysh_version() < YSH_VERSION) {
        fprintf(stderr, "the library is older than its header: %" PRIu64 " and %d\n", ysh_version(), YSH_VERSION);
        return 1;
    }
    write_table(table);
    must("ysh_check", ysh_check(table, sizeof table, &nodes, &needed));
    printf("accepted nodes %" PRIu64 " rows %" PRIu64 "\n", nodes, needed);
    must("ysh_depth", ysh_depth(table, sizeof table, 0, &depth, &bytes));
    printf("window %" PRIu64 " rows, %" PRIu64 " bytes\n", depth, bytes);
    begin(&run, table, depth);
    printf("steps %" PRIu64 " and %" PRIu64 "\n", run.used[0] / 16, run.used[1] / 16);
    for (int i = 0; i < 20; i++) {
        write_bar(bar, i);
        must("ysh_step", step(&run, bar));
    }
    try_bad_bar(&run);
    must("ysh_steps", rest_of_day(&run, 20, &done));
    printf("the rest of the day: %" PRIu64 " bars in one call\n", done);
    ask_exit(&run, table);
    finish(&run, metrics);
    print_trades(&run);
    print_metrics(metrics);
    return 0;
}

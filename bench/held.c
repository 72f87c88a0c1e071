/* The work whose instructions bench/held counts. Each `figure_..` does one piece of it; what it needs is made ready before, in main, so that an
 * instruction counts for a figure where it is executed within that function. The program writes the name of each and how many units its work is: a bar,
 * a call, a trade, a word. It needs nothing of a C library but memcpy, memset and write, so that it runs on an emulated processor as well. */
#include "runs.h"

enum { YEAR = 525600, CALLS = 200 };

/* A function of its own, whatever a compiler would do to it: none is joined with another, and none leaves by a jump into what it calls last. */
#define FIGURE(name) \
    static inline void work_##name(void); \
    static __attribute__((noinline)) void figure_##name(void) \
    { \
        work_##name(); \
        __asm__ volatile("/* " #name " */" ::: "memory"); \
    } \
    static inline void work_##name(void)
#define MEASURE(name, units) (figure_##name(), say(#name, units))

static void single_bars(void)
{
    for (uint64_t i = 0; i < CALLS; i++)
        step(&the, bar_of(i));
}

FIGURE(step_small) { single_bars(); }
FIGURE(step_large) { single_bars(); }
FIGURE(step_slots) { single_bars(); }
FIGURE(day_small) { step_many(&the, bars, DAY); }
FIGURE(day_large) { step_many(&the, bars, DAY); }
FIGURE(day_deep) { step_many(&the, bars, DAY); }

static uint64_t paused[YSH_STATE_WORDS];

/* A bar at which an entry is due: its size is asked of the volatility of 13 closes, so a root is taken. */
FIGURE(entry_volatility)
{
    for (uint64_t i = 0; i < CALLS; i++) {
        memcpy(the.state, paused, sizeof paused);
        step(&the, bar_of(i));
    }
}

static void measure_entry(void)
{
    begin(&the, small_table, sizeof small_table, 14);
    the.settings[YSH_SIZING_KIND] = YSH_SIZE_VOLATILITY, the.settings[YSH_LOOKBACK] = 13;
    the.settings[YSH_GIVEN] = 0;
    memcpy(paused, the.state, sizeof paused);
    paused[YSH_QTY] = 0, paused[YSH_ENTERED] = 0, paused[YSH_ORDER] = YSH_ORDER_LONG;
    MEASURE(entry_volatility, CALLS);
    must(the.state[YSH_ENTERED] != 1);
}

static void measure_bars(void)
{
    write_tables(2, 14);
    write_bars(2);
    begin(&the, small_table, sizeof small_table, 14);
    MEASURE(step_small, CALLS);
    MEASURE(day_small, DAY);
    measure_entry();
    begin(&the, large_table, sizeof large_table, 14);
    MEASURE(step_large, CALLS);
    MEASURE(day_large, DAY);
    write_tables(64, 14);
    write_bars(64);
    begin(&the, small_table, sizeof small_table, 14);
    MEASURE(step_slots, CALLS);
    write_tables(64, MOST_ROWS);
    begin(&the, small_table, sizeof small_table, MOST_ROWS);
    MEASURE(day_deep, DAY);
}

/* ---- tables, rules and looks */

static uint64_t answer, count;

FIGURE(check_large)
{
    for (int i = 0; i < CALLS; i++)
        must(ysh_check(large_table, sizeof large_table, &answer, &count));
}

FIGURE(rule_large)
{
    for (int i = 0; i < CALLS; i++)
        must(ysh_rule(large_table, sizeof large_table, 0, the.rows, the.rows_len, 0, 0, 0, 14, &answer));
}

FIGURE(why_large)
{
    uint64_t lines[YSH_MOST_LINES * YSH_LINE_WORDS];
    for (int i = 0; i < CALLS; i++)
        must(ysh_why(large_table, sizeof large_table, 0, the.rows, the.rows_len, 0, 0, 0, 14, lines, YSH_MOST_LINES * YSH_LINE_WORDS, &count));
}

FIGURE(translate_large)
{
    for (int i = 0; i < CALLS; i++)
        must(ysh_translate(large_table, sizeof large_table, 0, the.steps[0], sizeof the.steps[0], &count));
}

static void run_list(const uint8_t *steps, size_t bytes, uint64_t rows)
{
    for (int i = 0; i < CALLS; i++)
        must(ysh_run(steps, bytes, the.rows, rows * YSH_ROW_WORDS(2), 2, rows, 0, 0, 0, rows, &answer, &count));
}

/* Steps: the highest of the last n, a number, greater. The number of a step over a slot is the kind's and two more. */
static size_t look_list(uint8_t *steps, int over_slot, uint32_t n)
{
    uint8_t *at = put_node(steps, (uint8_t)(YSH_HIGHEST + 2 * over_slot), over_slot ? 0 : YSH_HIGH, 0, n - 1, 0);
    steps[2] = (uint8_t)n, steps[3] = (uint8_t)(n >> 8);
    at = put_node(at, YSH_CONST, 0, 0, 0, 0);
    return (size_t)(put_node(at, YSH_GT, 0, 0, 0, 0) - steps);
}

static uint8_t look[3 * 16];

FIGURE(run_large) { run_list(the.steps[0], the.used[0], 14); }
FIGURE(look_price_20) { run_list(look, sizeof look, 20); }
FIGURE(look_price_1000) { run_list(look, sizeof look, 1000); }
FIGURE(look_slot_20) { run_list(look, sizeof look, 20); }

static void measure_rules(void)
{
    write_tables(2, 14);
    write_bars(2);
    begin(&the, large_table, sizeof large_table, 14);
    MEASURE(check_large, CALLS);
    MEASURE(rule_large, CALLS);
    MEASURE(why_large, CALLS);
    MEASURE(translate_large, CALLS);
    MEASURE(run_large, CALLS);
    write_tables(2, 1000);
    begin(&the, small_table, sizeof small_table, 1000);
    look_list(look, 0, 20);
    MEASURE(look_price_20, CALLS);
    look_list(look, 0, 1000);
    MEASURE(look_price_1000, CALLS);
    look_list(look, 1, 20);
    MEASURE(look_slot_20, CALLS);
}

/* ---- a loss of supply, at D 31 and K 2 */

static uint8_t image[YSH_DUMP_BYTES(2, 31)];

FIGURE(dump)
{
    for (int i = 0; i < CALLS; i++)
        must(ysh_dump(the.settings, YSH_SETTING_WORDS, the.state, YSH_STATE_WORDS, the.rows, the.rows_len, image, sizeof image, 0, sizeof image));
}

static void parts(uint64_t at)
{
    uint8_t page[256];
    for (int i = 0; i < CALLS; i++)
        must(ysh_dump_part(the.settings, YSH_SETTING_WORDS, the.state, YSH_STATE_WORDS, the.rows, the.rows_len, at, page, sizeof page, &count));
}

FIGURE(dump_part_header) { parts(0); }
FIGURE(dump_part_rows) { parts(512); }

FIGURE(restore)
{
    for (int i = 0; i < CALLS; i++)
        must(ysh_restore(the.settings, YSH_SETTING_WORDS, the.state, YSH_STATE_WORDS, image, sizeof image, the.rows, the.rows_len));
}

static void measure_power(void)
{
    write_tables(2, 31);
    begin(&the, small_table, sizeof small_table, 31);
    MEASURE(dump, CALLS);
    MEASURE(dump_part_header, CALLS);
    MEASURE(dump_part_rows, CALLS);
    MEASURE(restore, CALLS);
}

/* ---- figures over many trades, points and closes */

static uint64_t points[2][YEAR * YSH_POINT_WORDS], closed[2][MOST_TRADES * YSH_TRADE_WORDS];
static uint64_t totals[YSH_TOTAL_WORDS], losses[YSH_TOTAL_WORDS], few[YSH_TOTAL_WORDS], metrics[YSH_METRIC_WORDS];
static uint64_t closes[YEAR], blocks[YSH_BLOCKS_WORDS(YEAR)], held, best[4];
static uint64_t lines[YSH_DIFFERENCES_WORDS(MOST_TRADES)], words[CALLS];

FIGURE(root)
{
    for (int i = 0; i < CALLS; i++)
        answer ^= ysh_root(words[i]);
}

FIGURE(metrics_point) { must(ysh_metrics(word_of(10000.0), points[0], YEAR * 2, closed[0], MOST_TRADES * 10, metrics, YSH_METRIC_WORDS)); }

FIGURE(totals_trade) { must(ysh_totals(totals, YSH_TOTAL_WORDS, closed[0], 1000 * YSH_TRADE_WORDS)); }

FIGURE(totals_none) { must(ysh_totals(totals, YSH_TOTAL_WORDS, closed[0], 0)); }

FIGURE(totals_none_negative) { must(ysh_totals(losses, YSH_TOTAL_WORDS, closed[0], 0)); }

FIGURE(join) { must(ysh_totals_join(totals, YSH_TOTAL_WORDS, few, YSH_TOTAL_WORDS)); }

FIGURE(join_negative) { must(ysh_totals_join(losses, YSH_TOTAL_WORDS, few, YSH_TOTAL_WORDS)); }

FIGURE(append)
{
    for (held = 0; held < 64 * CALLS;)
        must(ysh_append(&held, points[0][2 * held + 1], closes, YEAR, blocks, YSH_BLOCKS_WORDS(YEAR)));
}

static void ask(uint64_t bars_asked, uint64_t apart)
{
    for (uint64_t i = 0; i < CALLS; i++)
        must(ysh_stretch(held, apart * i, apart * i + bars_asked - 1, closes, YEAR, blocks, YSH_BLOCKS_WORDS(YEAR), best, best + 1, best + 2, best + 3));
}

FIGURE(stretch_day) { ask(DAY, 2000); }

FIGURE(stretch_year) { must(ysh_stretch(held, 0, YEAR - 1, closes, YEAR, blocks, YSH_BLOCKS_WORDS(YEAR), best, best + 1, best + 2, best + 3)); }

static void compare_runs(void)
{
    must(ysh_compare(points[0], YEAR * 2, closed[0], MOST_TRADES * YSH_TRADE_WORDS, points[1], YEAR * 2, closed[1], MOST_TRADES * YSH_TRADE_WORDS,
                     lines, sizeof lines / 8, &count));
}

FIGURE(compare_equal) { compare_runs(); }
FIGURE(compare_all_trades) { compare_runs(); }

static void write_books(void)
{
    double equity = 10000.0;
    for (uint64_t i = 0; i < YEAR; i++) {
        equity *= 0.999 + 0.002 * chance();
        points[0][2 * i] = 60 * i, points[0][2 * i + 1] = word_of(equity);
    }
    for (uint64_t i = 0; i < MOST_TRADES; i++) {
        uint64_t *trade = closed[0] + i * YSH_TRADE_WORDS;
        for (int word = 0; word < YSH_TRADE_WORDS; word++)
            trade[word] = word_of(100.0 + chance());
        trade[YSH_TRADE_PNL] = word_of(1000.0 * chance() - 400.0);
        trade[YSH_TRADE_REASON] = 1 + i % 6;
    }
    memcpy(points[1], points[0], sizeof points[0]);
    memcpy(closed[1], closed[0], sizeof closed[0]);
}

static void measure_totals(void)
{
    uint64_t loss[YSH_TRADE_WORDS] = {0};
    loss[YSH_TRADE_PNL] = word_of(-1e9), loss[YSH_TRADE_REASON] = 1;
    must(ysh_totals(few, YSH_TOTAL_WORDS, closed[0], 9 * YSH_TRADE_WORDS));
    MEASURE(totals_trade, 1000);
    MEASURE(totals_none, 1);
    MEASURE(join, 1);
    must(ysh_totals(losses, YSH_TOTAL_WORDS, loss, YSH_TRADE_WORDS));
    MEASURE(totals_none_negative, 1);
    MEASURE(join_negative, 1);
}

static void measure_closes(void)
{
    MEASURE(append, 64 * CALLS);
    while (held < YEAR)
        must(ysh_append(&held, points[0][2 * held + 1], closes, YEAR, blocks, YSH_BLOCKS_WORDS(YEAR)));
    MEASURE(stretch_day, CALLS);
    MEASURE(stretch_year, 1);
}

static void measure_books(void)
{
    write_books();
    for (int i = 0; i < CALLS; i++)
        words[i] = word_of(1e9 * chance());
    MEASURE(root, CALLS);
    MEASURE(metrics_point, YEAR);
    measure_totals();
    measure_closes();
    MEASURE(compare_equal, YEAR + MOST_TRADES * YSH_TRADE_WORDS);
    for (uint64_t i = 0; i < MOST_TRADES * YSH_TRADE_WORDS; i++)
        closed[1][i] ^= 1;
    MEASURE(compare_all_trades, MOST_TRADES * YSH_TRADE_WORDS);
}

/* ---- four accounts, beside a step a bar for each of them */

static ysh_account account_of(Run *run)
{
    ysh_account account = {
        small_table, sizeof small_table, run->settings, YSH_SETTING_WORDS, run->steps[0], run->used[0], run->steps[1], run->used[1],
        run->state, YSH_STATE_WORDS, run->rows, run->rows_len, run->equity, sizeof run->equity / 8, run->trades, sizeof run->trades / 8,
        run->status, YSH_STATUS_WORDS};
    return account;
}

static ysh_account accounts[4];

FIGURE(accounts) { must(ysh_four(stream, YSH_STREAM_WORDS, bars, DAY * YSH_BAR_WORDS(slots), &count, accounts)); }

FIGURE(accounts_alone)
{
    for (int i = 0; i < 4; i++)
        for (uint64_t bar = 0; bar < DAY; bar++)
            step(i ? others + i - 1 : &the, bar_of(bar));
}

static void measure_accounts(void)
{
    write_tables(2, 14);
    write_bars(2);
    for (int turn = 0; turn < 2; turn++) {
        for (int i = 0; i < 4; i++) {
            Run *run = i ? others + i - 1 : &the;
            begin(run, small_table, sizeof small_table, 14);
            accounts[i] = account_of(run);
        }
        stream[YSH_STREAM_SLOTS] = slots, stream[YSH_STREAM_BARS] = 0;
        if (turn) {
            MEASURE(accounts_alone, DAY);
        } else {
            MEASURE(accounts, DAY);
        }
    }
}

int main(void)
{
    measure_bars();
    measure_rules();
    measure_power();
    measure_books();
    measure_accounts();
    return 0;
}

/* Four paper accounts on one stream of bars with three slots, in two calls. One bar of the first call is bad: the stream refuses it, and no account
 * sees it. Each account has its own table, settings and rooms; one of them is outside the profile, and one runs out of places for trades. The
 * program prints what the stream took, each account's status and the trades and the profit that it ends with. */
#include <inttypes.h>
#include <math.h>
#include <stdio.h>
#include <stdlib.h>
#include <string.h>

#include "yshturpa.h"

enum { SLOTS = 3, BARS = 60, BAD = 20, ROWS = 8, MOST_TRADES = 32, NODES = 7, STEP_ROOM = YSH_STEP_BYTES(NODES) };

static uint64_t word_of(double x)
{
    uint64_t word;
    memcpy(&word, &x, sizeof word);
    return word;
}

static double float_of(uint64_t word)
{
    double x;
    memcpy(&x, &word, sizeof x);
    return x;
}

/* Ends the program where a call was refused. */
static void must(const char *call, uint64_t answer)
{
    if (answer != 0) {
        printf("%s: refused %" PRIu32 " at %" PRIu32 "\n", call, YSH_NUMBER(answer), YSH_PLACE(answer));
        exit(1);
    }
}

/* ---- the bars: a wave of sixteen bars that climbs a little with each turn; the slots are averages of 3, 8 and 5 closes */

static double close_of(int bar)
{
    int phase = bar % 16;
    return 100.0 + 1.5 * (phase < 8 ? phase : 16 - phase) + 0.25 * bar;
}

static void write_bar(uint64_t words[YSH_BAR_WORDS(SLOTS)], int bar)
{
    static const int lengths[SLOTS] = {3, 8, 5};
    double last = close_of(bar), before = bar > 0 ? close_of(bar - 1) : last;
    memset(words, 0, sizeof(uint64_t) * YSH_BAR_WORDS(SLOTS));
    words[YSH_BAR_TIME] = (uint64_t)bar * 60000;
    words[YSH_BAR_OPEN] = word_of(before);
    words[YSH_BAR_HIGH] = word_of(fmax(last, before) + 0.5);
    words[YSH_BAR_LOW] = word_of(fmin(last, before) - 0.5);
    words[YSH_BAR_CLOSE] = word_of(last);
    words[YSH_BAR_VOLUME] = word_of(1000.0);
    for (int slot = 0; slot < SLOTS; slot++) {
        double sum = 0.0;
        if (bar + 1 < lengths[slot])
            continue; /* too few bars for this average: absent */
        for (int back = 0; back < lengths[slot]; back++)
            sum += close_of(bar - back);
        words[YSH_BAR_MASK] |= UINT64_C(1) << slot;
        words[YSH_SLOT + slot] = word_of(sum / lengths[slot]);
    }
}

/* ---- the tables */

static void put_node(uint8_t *table, int number, uint8_t kind, uint8_t selector, uint8_t n)
{
    uint8_t *node = table + 16 + 16 * number;
    node[0] = kind;
    node[1] = selector;
    node[4] = n;
}

static size_t write_table(uint8_t *table, uint8_t slots, uint8_t entry, uint8_t exit_nodes)
{
    const uint8_t header[16] = {'R', 'T', 'B', slots, 1, 0, (uint8_t)(entry + exit_nodes), 0, entry, 0, exit_nodes, 0, 0, 0, 0, 0};
    memset(table, 0, 16 + 16 * NODES);
    memcpy(table, header, sizeof header);
    return 16 + 16 * (size_t)(entry + exit_nodes);
}

/* Entry: CrossAbove(slot 0, slot 1). Exit: Lt(close, Prev(close, 2)). Two slots. */
static size_t cross_rule(uint8_t *table)
{
    size_t bytes = write_table(table, 2, 3, 4);
    put_node(table, 0, YSH_CROSS_ABOVE, 0, 0);
    put_node(table, 1, YSH_REF, 0, 0);
    put_node(table, 2, YSH_REF, 0, 1);
    put_node(table, 3, YSH_LT, 0, 0);
    put_node(table, 4, YSH_PRICE, YSH_CLOSE, 0);
    put_node(table, 5, YSH_PREV, 0, 2);
    put_node(table, 6, YSH_PRICE, YSH_CLOSE, 0);
    return bytes;
}

/* Entry: Gt(close, slot 0). Exit: Lt(close, slot 0). One slot. */
static size_t above_rule(uint8_t *table)
{
    size_t bytes = write_table(table, 1, 3, 3);
    put_node(table, 0, YSH_GT, 0, 0);
    put_node(table, 1, YSH_PRICE, YSH_CLOSE, 0);
    put_node(table, 2, YSH_REF, 0, 0);
    put_node(table, 3, YSH_LT, 0, 0);
    put_node(table, 4, YSH_PRICE, YSH_CLOSE, 0);
    put_node(table, 5, YSH_REF, 0, 0);
    return bytes;
}

/* ---- the accounts */

typedef struct {
    uint8_t table[16 + 16 * NODES], steps[2][STEP_ROOM];
    uint64_t settings[YSH_SETTING_WORDS], state[YSH_STATE_WORDS], status[YSH_STATUS_WORDS];
    uint64_t rows[ROWS * YSH_ROW_WORDS(SLOTS)], equity[BARS * YSH_POINT_WORDS], trades[MOST_TRADES * YSH_TRADE_WORDS];
} Rooms;

static ysh_account begin(Rooms *rooms, size_t table_bytes, double fraction, double leverage, size_t trades)
{
    uint64_t used[2], nodes, depth;
    ysh_account account = {0};
    must("ysh_check", ysh_check(rooms->table, table_bytes, &nodes, &depth));
    rooms->settings[YSH_SLOTS] = rooms->table[3];
    rooms->settings[YSH_DEPTH] = depth;
    rooms->settings[YSH_CAPITAL] = word_of(10000.0);
    rooms->settings[YSH_SIZING_VALUE] = word_of(fraction);
    rooms->settings[YSH_TAKER_BPS] = word_of(5.0);
    rooms->settings[YSH_MAX_LEVERAGE] = word_of(leverage);
    rooms->settings[YSH_GIVEN] = UINT64_C(1) << YSH_MAX_LEVERAGE;
    for (uint64_t tree = 0; tree < 2; tree++)
        must("ysh_translate", ysh_translate(rooms->table, table_bytes, tree, rooms->steps[tree], STEP_ROOM, &used[tree]));
    must("ysh_fresh", ysh_fresh(rooms->settings, YSH_SETTING_WORDS, rooms->state, YSH_STATE_WORDS));
    account.table = rooms->table, account.table_len = table_bytes;
    account.settings = rooms->settings, account.settings_len = YSH_SETTING_WORDS;
    account.entry = rooms->steps[0], account.entry_len = used[0];
    account.exit = rooms->steps[1], account.exit_len = used[1];
    account.state = rooms->state, account.state_len = YSH_STATE_WORDS;
    account.rows = rooms->rows, account.rows_len = sizeof rooms->rows / 8;
    account.equity = rooms->equity, account.equity_len = sizeof rooms->equity / 8;
    account.trades = rooms->trades, account.trades_len = trades * YSH_TRADE_WORDS;
    account.status = rooms->status, account.status_len = YSH_STATUS_WORDS;
    return account;
}

static void print_account(const char *name, const ysh_account *account)
{
    uint64_t metrics[YSH_METRIC_WORDS];
    uint64_t answer;
    printf("%s: %" PRIu64 " bars", name, account->state[YSH_BARS_SEEN]);
    if (account->status[YSH_STATUS_NUMBER] == 0)
        printf(", runs");
    else
        printf(", stopped with %" PRIu64 " at %" PRIu64 ", bar %" PRIu64, account->status[YSH_STATUS_NUMBER],
               account->status[YSH_STATUS_PLACE], account->status[YSH_STATUS_BAR]);
    answer = ysh_finish(account->settings, account->settings_len, account->state, account->state_len, account->rows, account->rows_len,
                        account->equity, account->equity_len, account->trades, account->trades_len, metrics, YSH_METRIC_WORDS);
    if (answer == 0)
        printf(", %" PRIu64 " trades, profit %.2f\n", account->state[YSH_TRADES], float_of(metrics[YSH_PNL]));
    else
        printf(", finish refused %" PRIu32 " at %" PRIu32 "\n", YSH_NUMBER(answer), YSH_PLACE(answer));
}

int main(void)
{
    static Rooms rooms[4];
    static uint64_t bars[BARS][YSH_BAR_WORDS(SLOTS)];
    uint64_t stream[YSH_STREAM_WORDS] = {SLOTS, 0}, done, answer;
    ysh_account account[4];
    account[0] = begin(&rooms[0], cross_rule(rooms[0].table), 0.5, 1.0, MOST_TRADES);
    account[1] = begin(&rooms[1], above_rule(rooms[1].table), 1.0, 1.0, MOST_TRADES);
    account[2] = begin(&rooms[2], above_rule(rooms[2].table), 0.25, 0.5, 2); /* two places for trades */
    account[3] = begin(&rooms[3], cross_rule(rooms[3].table), 0.5, 2.0, MOST_TRADES); /* outside the profile */
    for (int bar = 0; bar < BARS; bar++)
        write_bar(bars[bar], bar);

    bars[BAD][YSH_SLOT + 2] = word_of(NAN); /* a slot that no account has: the stream refuses the bar all the same */
    answer = ysh_four(stream, YSH_STREAM_WORDS, bars[0], BARS * YSH_BAR_WORDS(SLOTS), &done, account);
    printf("stream: took %" PRIu64 " bars, refused %" PRIu32 " at %" PRIu32 "\n", done, YSH_NUMBER(answer), YSH_PLACE(answer));

    write_bar(bars[BAD], BAD);
    must("ysh_four", ysh_four(stream, YSH_STREAM_WORDS, bars[done], (BARS - done) * YSH_BAR_WORDS(SLOTS), &done, account));
    printf("stream: took %" PRIu64 " more, %" PRIu64 " in all\n", done, stream[YSH_STREAM_BARS]);

    print_account("first", &account[0]);
    print_account("second", &account[1]);
    print_account("third", &account[2]);
    print_account("fourth", &account[3]);
    return 0;
}

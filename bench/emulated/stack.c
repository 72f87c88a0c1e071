/* How much stack each call takes at most, on the processor that this is compiled for: every call runs on a stack of its own that was painted before it, and
 * how far down it wrote is kept by call. The inputs are such as take much: tables that nest as deep or are as wide as they may be, the longest lists of
 * steps, runs with each way to size and to fill an entry. What is counted lies below the words that the caller lays on the stack for a call; on x86-64 its
 * return address is in it. The program writes each call's name and its bytes. */
#include "../runs.h"

enum { WORDS = 16 * 1024, MOST_CALLS = 32, MOST_WORDS = 80, NESTING = 32, NODES = 256, STEPS = 1024, BARS = 60 };

#define PAINT UINT64_C(0xc3a55a3c96e11e69)

uint64_t call_on(uint64_t *top, const void *function, const uint64_t *first);

/* Calls the function with its first words in registers, on a stack that ends at `top`. */
#if defined(__x86_64__)
enum { IN_REGISTERS = 6 };
__asm__(".globl call_on\ncall_on:\n"
        "  push %rbx\n  push %r12\n  mov %rsp, %r12\n  mov %rsi, %rbx\n  mov %rdx, %r11\n  mov %rdi, %rsp\n"
        "  mov 0(%r11), %rdi\n  mov 8(%r11), %rsi\n  mov 16(%r11), %rdx\n  mov 24(%r11), %rcx\n  mov 32(%r11), %r8\n  mov 40(%r11), %r9\n"
        "  call *%rbx\n  mov %r12, %rsp\n  pop %r12\n  pop %rbx\n  ret\n");
#elif defined(__riscv)
enum { IN_REGISTERS = 8 };
__asm__(".globl call_on\ncall_on:\n"
        "  addi sp, sp, -16\n  sd ra, 8(sp)\n  sd s0, 0(sp)\n  mv s0, sp\n  mv sp, a0\n  mv t0, a1\n  mv t1, a2\n"
        "  ld a0, 0(t1)\n  ld a1, 8(t1)\n  ld a2, 16(t1)\n  ld a3, 24(t1)\n  ld a4, 32(t1)\n  ld a5, 40(t1)\n  ld a6, 48(t1)\n  ld a7, 56(t1)\n"
        "  jalr t0\n  mv sp, s0\n  ld ra, 8(sp)\n  ld s0, 0(sp)\n  addi sp, sp, 16\n  ret\n");
#elif defined(__aarch64__)
enum { IN_REGISTERS = 8 };
__asm__(".globl call_on\ncall_on:\n"
        "  stp x29, x30, [sp, #-32]!\n  str x20, [sp, #16]\n  mov x20, sp\n  mov sp, x0\n  mov x16, x1\n  mov x17, x2\n"
        "  ldp x0, x1, [x17]\n  ldp x2, x3, [x17, #16]\n  ldp x4, x5, [x17, #32]\n  ldp x6, x7, [x17, #48]\n"
        "  blr x16\n  mov sp, x20\n  ldr x20, [sp, #16]\n  ldp x29, x30, [sp], #32\n  ret\n");
#endif

static uint64_t painted_stack[WORDS] __attribute__((aligned(16)));

static struct {
    const char *name;
    const void *function;
    uint64_t bytes;
} uses[MOST_CALLS];

static void keep(const char *name, const void *function, uint64_t bytes)
{
    int i = 0;
    while (uses[i].function && uses[i].function != function)
        i++;
    uses[i].name = name, uses[i].function = function;
    if (uses[i].bytes < bytes)
        uses[i].bytes = bytes;
}

static uint64_t painted(const char *name, const void *function, const uint64_t *words, size_t many)
{
    uint64_t first[8] = {0}, answer;
    size_t over = many > IN_REGISTERS ? many - IN_REGISTERS : 0, begin = WORDS - (over + 1) / 2 * 2, lowest = 0;
    for (size_t i = 0; i < WORDS; i++)
        painted_stack[i] = PAINT;
    for (size_t i = 0; i < many; i++)
        *(i < IN_REGISTERS ? first + i : painted_stack + begin + i - IN_REGISTERS) = words[i];
    answer = call_on(painted_stack + begin, function, first);
    while (lowest < begin && painted_stack[lowest] == PAINT)
        lowest++;
    keep(name, function, 8 * (begin - lowest));
    return answer;
}

#define CALL(function, ...) \
    painted(#function, (const void *)function, (const uint64_t[]){__VA_ARGS__}, sizeof((const uint64_t[]){__VA_ARGS__}) / sizeof(uint64_t))
#define AT(pointer) ((uint64_t)(uintptr_t)(pointer))
/* A list or room: where it is, and how long. */
#define ALL(array) AT(array), sizeof(array) / sizeof(array)[0]

/* ---- tables as deep and as wide as they may be: their entry; the exit is one node */

static uint8_t table[16 + 16 * NODES], entry_steps[YSH_STEP_BYTES(NODES)];
static uint64_t out[4], silent[NODES], lines[2 * YSH_PLACE_WORDS], two_rows[14], two_positions[2 * YSH_POSITION_WORDS] = {0, 0, 0, 1, 0, 0, 0, 2};

/* All of `leaves` conditions that are nothing but yes; the next node is its last child. */
static uint8_t *put_stair(uint8_t *at, int leaves)
{
    at = put_node(at, YSH_ALL, 0, (uint16_t)(leaves + 1), 0, 0);
    for (int i = 0; i < leaves; i++)
        at = put_node(at, YSH_ALL, 0, 0, 0, 0);
    return at;
}

static uint8_t *put_bottom(uint8_t *at)
{
    at = put_node(at, YSH_LT, 0, 0, 0, 0);
    at = put_node(at, YSH_PRICE, YSH_CLOSE, 0, 0, 0);
    return put_node(at, YSH_CONST, 0, 0, 0, 0);
}

/* Levels of All with so many leaves in all, or of Not where there are none, over a comparison or over an empty All. */
static size_t write_tower(int levels, int leaves, int compares)
{
    uint8_t *at = table + 16;
    for (int i = 0; i < levels; i++)
        at = leaves ? put_stair(at, i ? leaves / levels : leaves - leaves / levels * (levels - 1)) : put_node(at, YSH_NOT, 0, 0, 0, 0);
    at = compares ? put_bottom(at) : put_node(at, YSH_ALL, 0, 0, 0, 0);
    uint16_t nodes = (uint16_t)((at - table) / 16 - 1);
    at = put_node(at, YSH_ALL, 0, 0, 0, 0);
    memset(table, 0, 16);
    memcpy(table, "RTB", 3);
    table[4] = 1, table[6] = (uint8_t)(nodes + 1), table[7] = (uint8_t)((nodes + 1) >> 8);
    table[8] = (uint8_t)nodes, table[9] = (uint8_t)(nodes >> 8), table[10] = 1;
    return (size_t)(at - table);
}

static void take_accounts(const uint8_t *of, size_t bytes, const uint8_t *entry, size_t entry_bytes, const uint8_t *leaving, size_t leaving_bytes);

static void take_table(size_t bytes)
{
    must(CALL(ysh_check, AT(table), bytes, AT(out), AT(out + 1)));
    must(CALL(ysh_depth, AT(table), bytes, 0, AT(out), AT(out + 1)));
    must(CALL(ysh_silent, AT(table), bytes, 1, ALL(silent), AT(out)));
    must(CALL(ysh_rule, AT(table), bytes, 0, ALL(two_rows), 0, 0, 0, 2, AT(out)));
    must(CALL(ysh_why, AT(table), bytes, 0, ALL(two_rows), 0, 0, 0, 2, ALL(lines), AT(out)));
    must(CALL(ysh_why_over, AT(table), bytes, 0, ALL(two_rows), ALL(two_positions), ALL(lines), AT(out), 2));
    must(CALL(ysh_translate, AT(table), bytes, 0, ALL(entry_steps), AT(out)));
    uint64_t used = out[0];
    must(CALL(ysh_run, AT(entry_steps), used, ALL(two_rows), 0, 2, 0, 0, 0, 2, AT(out), AT(out + 1)));
    take_accounts(table, bytes, entry_steps, used, entry_steps, 0);
}

static void take_tables(void)
{
    take_table(write_tower(1, NODES - 5, 1));
    take_table(write_tower(NESTING - 2, NODES - 4 - (NESTING - 2), 1));
    take_table(write_tower(NESTING - 1, NODES - 2 - (NESTING - 1), 0));
    take_table(write_tower(NESTING - 2, 0, 1));
    take_table(write_tower(NESTING - 1, 0, 0));
}

/* ---- runs */

static uint8_t longest[16 * STEPS], image[YSH_DUMP_BYTES(2, 14)], page[256];
static uint64_t metrics[YSH_METRIC_WORDS];

static void take_step(const uint8_t *steps[4], const uint64_t used[4], uint64_t bar)
{
    must(CALL(ysh_step, ALL(the.settings), ALL(the.state), AT(bar_of(bar)), YSH_BAR_WORDS(slots), AT(the.rows), the.rows_len, ALL(the.equity),
              ALL(the.trades), AT(steps[0]), used[0], AT(steps[1]), used[1], AT(steps[2]), used[2], AT(steps[3]), used[3]));
    must(CALL(ysh_steps, ALL(the.settings), ALL(the.state), AT(bar_of(bar + 1)), 3 * YSH_BAR_WORDS(slots), AT(the.rows), the.rows_len,
              ALL(the.equity), ALL(the.trades), AT(steps[0]), used[0], AT(steps[1]), used[1], AT(steps[2]), used[2], AT(steps[3]), used[3], AT(out)));
}

/* A run with its own steps and then with the longest; then its dump, and the restore of it, and its end. */
static void take_run(void)
{
    const uint8_t *own[4] = {the.steps[0], the.steps[1], the.steps[2], the.steps[3]}, *long_ones[4] = {longest, longest, longest, longest};
    const uint64_t longest_used[4] = {sizeof longest, sizeof longest, sizeof longest, sizeof longest};
    for (uint64_t bar = 0; bar < BARS; bar++)
        take_step(own, the.used, 4 * bar);
    take_step(long_ones, longest_used, 0);
    must(CALL(ysh_run, ALL(longest), AT(the.rows), the.rows_len, slots, 14, 0, 0, 0, 14, AT(out), AT(out + 1)));
    must(CALL(ysh_dump, ALL(the.settings), ALL(the.state), AT(the.rows), the.rows_len, ALL(image), 0, sizeof image));
    for (uint64_t at = 0; at < sizeof image; at += 13)
        must(CALL(ysh_dump_part, ALL(the.settings), ALL(the.state), AT(the.rows), the.rows_len, at, ALL(page), AT(out)));
    must(CALL(ysh_finish, ALL(the.settings), ALL(the.state), AT(the.rows), the.rows_len, ALL(the.equity), ALL(the.trades), ALL(metrics)));
    must(CALL(ysh_metrics, the.settings[YSH_CAPITAL], AT(the.equity), 2 * the.state[YSH_EQUITY_POINTS], AT(the.trades), 10 * the.state[YSH_TRADES],
              ALL(metrics)));
    must(CALL(ysh_restore, ALL(the.settings), ALL(the.state), ALL(image), AT(the.rows), the.rows_len));
}

/* Each way to size an entry, with slippage by volume, a part filled, lots, levels and every kind of order. */
static void take_runs(void)
{
    write_tables(2, 14);
    write_bars(2);
    for (uint64_t kind = 0; kind < 20; kind++) {
        begin(&the, kind % 3 ? small_table : large_table, kind % 3 ? sizeof small_table : sizeof large_table, 14);
        the.settings[YSH_SIZING_KIND] = kind % 5;
        the.settings[YSH_LOOKBACK] = 7;
        the.settings[YSH_ENTRY_KIND] = kind / 5;
        the.settings[YSH_LEVEL_PCT] = word_of(0.5), the.settings[YSH_LIMIT_PCT] = word_of(1.0);
        the.settings[YSH_SLIPPAGE_KIND] = kind & 1;
        the.settings[YSH_SLIPPAGE_VALUE] = word_of(0.1);
        the.settings[YSH_PARTIAL_FILLS] = kind & 1, the.settings[YSH_PARTICIPATION] = word_of(0.25);
        the.settings[YSH_LOT] = word_of(kind & 1 ? 0.01 : 0.0);
        must(CALL(ysh_fresh, ALL(the.settings), ALL(the.state)));
        take_run();
    }
}

/* ---- four accounts alike */

static void take_accounts(const uint8_t *of, size_t bytes, const uint8_t *entry, size_t entry_bytes, const uint8_t *leaving, size_t leaving_bytes)
{
    uint64_t words[MOST_WORDS], count = 5;
    stream[YSH_STREAM_SLOTS] = slots, stream[YSH_STREAM_BARS] = 0;
    words[0] = AT(stream), words[1] = YSH_STREAM_WORDS, words[2] = AT(bars), words[3] = BARS * YSH_BAR_WORDS(slots), words[4] = AT(out);
    for (int i = 0; i < 4; i++) {
        Run *run = i ? others + i - 1 : &the;
        begin(run, small_table, sizeof small_table, 14);
        const uint64_t own[] = {AT(of), bytes, ALL(run->settings), AT(entry), entry_bytes, AT(leaving), leaving_bytes, ALL(run->state),
                                AT(run->rows), run->rows_len, ALL(run->equity), ALL(run->trades), ALL(run->status)};
        for (size_t j = 0; j < sizeof own / sizeof own[0]; j++)
            words[count++] = own[j];
    }
    must(painted("ysh_accounts", (const void *)ysh_accounts, words, count));
    must(the.status[YSH_STATUS_NUMBER]);
}

/* ---- totals, closes, two runs, and what is left */

static uint64_t totals[YSH_TOTAL_WORDS], other[YSH_TOTAL_WORDS], closes[DAY], blocks[YSH_BLOCKS_WORDS(DAY)], held, differences[4000];

static void take_figures(void)
{
    uint64_t trades[20 * YSH_TRADE_WORDS] = {0}, changed[20 * YSH_TRADE_WORDS];
    for (int i = 0; i < 20; i++)
        trades[10 * i + YSH_TRADE_PNL] = word_of(chance() - 0.9), trades[10 * i + YSH_TRADE_REASON] = 1;
    for (int i = 0; i < 20; i++) {
        must(CALL(ysh_totals, ALL(totals), AT(trades), 10 * (uint64_t)i));
        must(CALL(ysh_totals, ALL(other), AT(trades + 10 * i), 10));
        must(CALL(ysh_totals_join, ALL(totals), ALL(other)));
    }
    for (int i = 0; i < DAY; i++)
        must(CALL(ysh_append, AT(&held), word_of(chance()), ALL(closes), ALL(blocks)));
    for (uint64_t i = 0; i < 400; i++)
        must(CALL(ysh_stretch, held, i, DAY - 1 - 2 * i, ALL(closes), ALL(blocks), AT(out), AT(out + 1), AT(out + 2), AT(out + 3)));
    memcpy(changed, trades, sizeof trades);
    for (uint64_t i = 0; i < 20 * YSH_TRADE_WORDS; i++) {
        changed[i] ^= 1;
        must(CALL(ysh_compare, AT(closes), DAY, ALL(trades), AT(closes + 1), DAY - 2, AT(changed), sizeof changed / 8 - 10, ALL(differences), AT(out)));
    }
    for (int i = 0; i < 400; i++)
        CALL(ysh_root, word_of(i < 200 ? 1e9 * chance() : 1e-310 * chance()));
    CALL(ysh_dump_bytes, 2, 14);
    painted("ysh_version", (const void *)ysh_version, NULL, 0);
}

int main(void)
{
    for (int i = 0; i < STEPS; i++)
        put_node(longest + 16 * i, YSH_CONST, 0, 0, 0, 0);
    take_runs();
    take_tables();
    write_tables(2, 14);
    take_accounts(small_table, sizeof small_table, longest, sizeof longest, longest, sizeof longest);
    take_figures();
    for (int i = 0; uses[i].function; i++)
        say(uses[i].name, uses[i].bytes);
    return 0;
}

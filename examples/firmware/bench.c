/* The bench: the market and the supply of the box, and the judge of what it does. A day is a row of lives. In each the box starts with chance in its
 * memory, and its supply falls at some instruction (the timer's interrupt) and is gone in the middle of some program or erase, which stays torn. All that
 * the box says is held word for word against a box that was never broken. Arguments:
 *   cuts SEED COUNT AIM       until the supply was taken away in the middle of COUNT programs or erases: any (0), the clear alone (1), or the last (2)
 *   hold SEED COUNT PAGE HOLD WHEN    COUNT losses; a program takes PAGE ns of virtual time, the capacitors hold for HOLD ns, and the supply falls while bars
 *                             are taken (0) or from the start on (1)
 *   live SEED GIVEN           lives on, and says what happens, until the emulator is ended; the box was given GIVEN bars before
 *   calls                     instructions of each call */
#include "bench.h"

#include "board.h"
#include "box.h"
#include "flash.h"
#include "unbroken.h"

enum { PAGES = (IMAGE + PAGE - 1) / PAGE, NEVER = -1, DENSITIES = 65536 };
enum { BITS, PREFIX, BYTES, TEARS };
enum { CUT, WAITED, DAY_OVER, WRONG };
enum { ANYWHERE, AT_CLEAR, AT_LAST };

#define LATER (UINT64_MAX / 2)

#ifdef SEALED
enum { SEAL_ERASES = 1 };               /* before the first bar */
#else
enum { SEAL_ERASES = 0 };
#endif

extern uint8_t box_begin[], box_end[], box_stack[];

/* ---- chance, by the seed */

static uint64_t chance_state;

static uint64_t chance(uint64_t below)
{
    chance_state ^= chance_state << 13;
    chance_state ^= chance_state >> 7;
    chance_state ^= chance_state << 17;
    return (chance_state >> 11) % below;
}

/* ---- a life */

static struct {
    uint64_t given, market;             /* bars that the box was given since it began afresh; bars that the day has had */
    int live, whole;                    /* it says what happens; the area that a whole image stands in, or NEVER */
    int64_t left;                       /* operations until the supply is gone, or NEVER */
    int aim, tear;                      /* which operations are cut, and how that one is torn: */
    uint64_t density, prefix;           /* of 65,536 bits so many are changed; so many bytes are */
    int last, operation;                /* the operation that was cut last, or NEVER; the one under way, */
    unsigned area;                      /* and its area */
    uint64_t programs;                  /* of the dump, so far */
    int early, armed;                   /* the supply may fall before the first bar; it will fall in this life */
    /* in virtual time: what a program takes, how long the capacitors hold, when the supply fell, when the last call ended */
    uint64_t page_ns, hold_ns, fell_ns, told_ns;
} now;

static struct {
    uint64_t days, lives, cuts, whole, wrong, weak, programs;
    uint64_t beside;                    /* ns of a dump, less its programs: the longest */
    uint64_t torn[OPERATIONS][TEARS], after[OPERATIONS][2], pages[PAGES];
} sum;

static void wrong(const char *what, uint64_t number)
{
    sum.wrong++;
    if (sum.wrong <= 3 || now.live) {
        say("wrong: ");
        say(what);
        say(" at bar ");
        say_number(number);
        say("\n");
    }
    leave(WRONG);
}

void told_restored(const uint64_t *state, const uint64_t *rows)
{
    if (now.last != NEVER)
        sum.after[now.last][0]++;
    now.last = NEVER;
    if (now.live)
        say("restored\n");
    if (state[YSH_BARS_SEEN] != now.given)
        wrong("an older image was restored", state[YSH_BARS_SEEN]);
    if (!as_unbroken(state, rows, now.given))
        wrong("the image was torn", now.given);
}

/* It is told, so the market sends all bars of the day once more. */
void told_nothing(void)
{
    if (now.last != NEVER)
        sum.after[now.last][1]++;
    now.last = NEVER;
    if (now.live)
        say("nothing\n");
    if (now.whole != NEVER)
        wrong("a whole image was refused", now.given);
    now.given = 0;
}

/* The supply falls within so many ns: in the middle of whatever the box does then. */
static void fall(uint64_t within)
{
    uint64_t after = chance(within) * (now.live ? 20 : 1);
    now.armed = 1;
    now.fell_ns = now_ns() + after;
    supply_timer(after);
}

const uint64_t *market_bar(uint64_t number)
{
    if (number == DAY)
        leave(DAY_OVER);
    if (now.given == now.market) {
        if (!now.armed)
            fall(60000);
        now.market++;
    }
    if (now.live) {
        say("bar ");
        say_number(now.given);
        say("\n");
    }
    return unbroken.bars[now.given++];
}

/* What the bench did since then takes the box no time: a supply that fell meanwhile falls now, one that had fallen holds so much longer. */
static void not_counted(uint64_t begun)
{
    uint64_t ended = now_ns();
    if (now.fell_ns < begun)
        now.fell_ns += ended - begun;
    else if (now.fell_ns < ended)
        now.fell_ns = ended;
    now.told_ns = ended;
}

void told_bar(const uint64_t *state, const uint64_t *rows, const uint64_t *point, const uint64_t *trades)
{
    uint64_t begun = now_ns();
    uint64_t number = now.given - 1, before = unbroken.states[number][YSH_TRADES], booked = unbroken.states[number + 1][YSH_TRADES] - before;
    if (state[YSH_EQUITY_POINTS] != 1 || !same_words(point, unbroken.points + number * YSH_POINT_WORDS, YSH_POINT_WORDS))
        wrong("another point", number);
    if (state[YSH_TRADES] != booked || !same_words(trades, unbroken.trades + before * YSH_TRADE_WORDS, booked * YSH_TRADE_WORDS))
        wrong("another trade", number);
    if (!as_unbroken(state, rows, number + 1))
        wrong("another state", number);
    not_counted(begun);
}

_Noreturn void box_waits(int dumped)
{
    if (dumped) {
        now.whole = (int)now.area;
        uint64_t begun = now.fell_ns > now.told_ns ? now.fell_ns : now.told_ns, beside = now_ns() - begun - now.programs * now.page_ns;
        now.whole = (int)now.area;
        sum.whole++;
        sum.programs = now.programs;
        sum.beside = beside > sum.beside ? beside : sum.beside;
    }
    leave(WAITED);
}

_Noreturn void box_failed(const char *call, uint64_t answer)
{
    say(call);
    say(": ");
    say_number(answer);
    say("\n");
    end(2);
}

/* ---- the flash's operations */

int bench_operation(int operation, unsigned area, uint64_t at, uint64_t len)
{
    static const char *const names[OPERATIONS] = {"clear\n", "erase\n", "page\n", "first word\n"};
    uint64_t begun = now_ns();
    if (now.live)
        say(names[operation]);
    if (now.whole == (int)area)
        now.whole = NEVER;
    now.operation = operation;
    now.area = area;
    now.prefix = chance(len + 1);
    now.programs += operation == PROGRAM || operation == COMMIT;
    while (operation != ERASURE && now_ns() - begun < now.page_ns)
        if (now_ns() > now.fell_ns + now.hold_ns)
            return GONE;
    if (operation == CLEAR && now.page_ns == 0 && !now.live && chance(16) == 0)
        return WEAK;
    if (now.left != 0) {
        now.left -= now.left != NEVER;
        return DONE;
    }
    sum.torn[operation][now.tear]++;
    if (operation == PROGRAM)
        sum.pages[at / PAGE]++;
    return GONE;
}

/* A byte of an operation that was not carried to its end. Any of its bits may have changed, or its first bytes alone, or its bytes are anything. */
uint8_t bench_torn(uint64_t at, uint8_t before, uint8_t after)
{
    uint8_t mask = 0;
    if (now.tear == PREFIX)
        return at < now.prefix ? after : before;
    if (now.tear == BYTES)
        return chance(DENSITIES) < now.density ? after : chance(2) ? before : (uint8_t)chance(256);
    for (int bit = 0; bit < 8; bit++)
        mask |= (chance(DENSITIES) < now.density) << bit;
    return (uint8_t)((before & ~mask) | (after & mask));
}

void bench_operated(int how)
{
    if (how == WEAK)
        sum.weak++;
    if (how != GONE)
        return;
    sum.cuts++;
    now.last = now.operation;
    leave(CUT);
}

/* ---- lives */

/* How the next operation that is cut will be torn: hardly begun, somewhere, nearly done. Where one operation is aimed at, a clear (or the erase in its
 * place) is hardly begun and a last program is nearly done. */
static void choose_tear(void)
{
    uint64_t where = now.aim == ANYWHERE ? chance(3) : now.aim == AT_CLEAR ? 0 : 2, few = UINT64_C(1) << chance(12);
    now.tear = now.aim == ANYWHERE ? (int)chance(TEARS) : BITS;
    now.density = where == 0 ? few : where == 1 ? chance(DENSITIES + 1) : DENSITIES - few;
}

/* Which operation is cut. In a life that restores they are the erase, the clear, the pages, the first word; else there is no clear. One dump in four is left
 * whole, so that there is something to restore; the erase, the clear and the last program are cut more often than a page is. */
static void choose_operation(void)
{
    int64_t clear = now.whole != NEVER ? 1 : NEVER, last = PAGES + SEAL_ERASES + 1 + (now.whole != NEVER);
    uint64_t turn = chance(8);
    if (turn < 2)
        now.left = NEVER;
    else if (now.aim == AT_CLEAR || turn == 2)
        now.left = now.aim == AT_CLEAR ? clear : (int64_t)chance(2);
    else if (now.aim == AT_LAST || turn == 3)
        now.left = last - (int64_t)chance(2);
    else
        now.left = (int64_t)chance((uint64_t)last + 1);
}

static int life(void)
{
    for (uint64_t *word = (uint64_t *)box_begin; word < (uint64_t *)box_end; word++)
        *word = chance_state * (uint64_t)word;
    interrupts_off();
    sum.lives++;
    now.programs = 0;
    now.armed = 0;
    now.fell_ns = LATER;
    supply_timer_off();
    choose_tear();
    if (now.early && chance(now.page_ns ? 2 : 8) == 0)
        fall(150000 + 2 * now.page_ns);
    return run_on(box_stack, box_start);
}

static void new_day(void)
{
    flash_new();
    now.given = now.market = 0;
    now.whole = now.last = NEVER;
    sum.days++;
}

static void cuts(uint64_t count, int aim)
{
    int how = DAY_OVER;
    now.aim = aim;
    while (sum.cuts < count) {
        if (how == DAY_OVER || how == WRONG)
            new_day();
        choose_operation();
        how = life();
    }
}

/* The hold-up time in virtual time: every loss finds the box at some instruction, with HOLD left from there. */
static void hold(uint64_t losses, uint64_t page_ns)
{
    int how = DAY_OVER;
    now.page_ns = page_ns;
    now.left = NEVER;
    while (sum.whole + sum.cuts < losses) {
        if (how == DAY_OVER || how == WRONG)
            new_day();
        how = life();
    }
}

static void live(uint64_t given)
{
    int how = WAITED;
    now.live = 1;
    now.left = now.whole = now.last = NEVER;
    now.given = now.market = given;
    while (how == WAITED)
        how = life();
    say(how == DAY_OVER ? "day over\n" : "ended wrong\n");
    end(how != DAY_OVER);
}

/* ---- the arguments, and what is said at the end */

static void summary(void)
{
    static const char *const names[OPERATIONS] = {"first word away", "erase", "page", "first word"};
    uint64_t fewest = sum.pages[0];
    for (int i = 0; i < OPERATIONS; i++) {
        say(names[i]);
        say(": bits ");
        say_number(sum.torn[i][BITS]);
        say(" prefix ");
        say_number(sum.torn[i][PREFIX]);
        say(" bytes ");
        say_number(sum.torn[i][BYTES]);
        say(", then restored ");
        say_number(sum.after[i][0]);
        say(" refused ");
        say_number(sum.after[i][1]);
        say("\n");
    }
    for (int i = 1; i < PAGES; i++)
        fewest = sum.pages[i] < fewest ? sum.pages[i] : fewest;
    say_line("each page at least", fewest);
    say_line("weak clears", sum.weak);
    say_line("days", sum.days);
    say_line("bars of a day", DAY);
    say_line("trades of a day", unbroken.states[DAY][YSH_TRADES]);
    say_line("lives", sum.lives);
    say_line("whole dumps", sum.whole);
    say_line("programs of a dump", sum.programs);
    if (now.hold_ns)
        say_line("ns beside its programs", sum.beside);
    say_line("cuts", sum.cuts);
    say_line("wrong", sum.wrong);
}

static char words[256], *at = words;

static const char *word(void)
{
    char *from = at;
    while (*at && *at != ' ')
        at++;
    if (*at)
        *at++ = 0;
    return from;
}

static uint64_t number(void)
{
    uint64_t value = 0;
    for (const char *digit = word(); *digit >= '0' && *digit <= '9'; digit++)
        value = value * 10 + (uint64_t)(*digit - '0');
    return value;
}

int main(void)
{
    const char *mode;
    uint64_t count, third, refused;
    arguments(words, sizeof words);
    mode = word();
    chance_state = number() * UINT64_C(0x9e3779b97f4a7c15) + 1;
    count = number();
    third = number();
    now.hold_ns = number();
    now.early = now.hold_ns == 0 || number() != 0;
    refused = unbroken_run();
    if (refused)
        box_failed("the unbroken run", refused);
    if (mode[0] == 'l')
        live(count);
    else if (mode[0] == 'h')
        hold(count, third);
    else if (mode[0] == 'c' && mode[1] == 'u')
        cuts(count, (int)third);
    else
        bench_calls();
    if (mode[1] != 'a')
        summary();
    end(sum.wrong != 0);
}

/* What the calls take, in instructions, at the end of the day: the window is full by then. */
#include "bench.h"
#include "board.h"
#include "flash.h"
#include "unbroken.h"

static uint64_t since(uint64_t begun)
{
    static uint64_t nothing;
    if (nothing == 0) {
        nothing = instructions();
        nothing = instructions() - nothing;
    }
    return (uint32_t)(instructions() - begun) - nothing;
}

void bench_calls(void)
{
    static uint64_t state[YSH_STATE_WORDS], rows[DEPTH * ROW];
    static uint8_t image[IMAGE];
    uint64_t begun, cost, used, longest = 0, all = 0, most = 0;
    since(0);
    copy_words(state, unbroken.states[0], YSH_STATE_WORDS);
    for (uint64_t i = 0; i < DAY; i++) {
        begun = instructions();
        unbroken_step(state, unbroken.bars[i], rows, DEPTH * ROW);
        cost = since(begun);
        longest = cost > longest ? cost : longest;
        all += i >= DEPTH ? cost : 0;
    }
    say_line("longest step", longest);
    say_line("mean step, the window full", all / (DAY - DEPTH));
    begun = instructions();
    ysh_dump(unbroken.settings, YSH_SETTING_WORDS, state, YSH_STATE_WORDS, rows, DEPTH * ROW, image, IMAGE, 0, IMAGE);
    say_line("whole dump", since(begun));
    for (uint64_t at = 0; at < IMAGE; at += PAGE) {
        static uint8_t page[PAGE];
        begun = instructions();
        ysh_dump_part(unbroken.settings, YSH_SETTING_WORDS, state, YSH_STATE_WORDS, rows, DEPTH * ROW, at, page, PAGE, &used);
        cost = since(begun);
        if (at == 0)
            say_line("first page of a dump", cost);
        most = cost > most ? cost : most;
    }
    say_line("longest page of a dump", most);
    begun = instructions();
    ysh_restore(unbroken.settings, YSH_SETTING_WORDS, state, YSH_STATE_WORDS, image, IMAGE, rows, DEPTH * ROW);
    say_line("restore", since(begun));
}

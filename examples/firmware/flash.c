/* The driver of the flash: CFI with the Intel commands, 4 bytes wide, two chips of 2 side by side, so a command is given to both. */
#include "flash.h"

#include "bench.h"
#include "board.h"
#include "strategy.h"

enum { READ_ARRAY = 0xff, BUFFERED_PROGRAM = 0xe8, ERASE = 0x20, CONFIRM = 0xd0, READY = 0x80, BOTH = 0x10001, BUS = 4 };

/* An area's blocks, and the one behind them, which is the seal's. */
#define SEAL_AT ((IMAGE + FLASH_BLOCK - 1) / FLASH_BLOCK * FLASH_BLOCK)

static volatile uint32_t *word_at(unsigned area, uint64_t at)
{
    return (volatile uint32_t *)(FLASH_AT + area * (SEAL_AT + FLASH_BLOCK) + at);
}

static void put(volatile uint32_t *word, uint32_t value)
{
    *word = value;
    __asm__ volatile("dsb sy" ::: "memory");
}

static void wait_ready(volatile uint32_t *word)
{
    while ((*word & READY * BOTH) != READY * BOTH)
        ;
}

const uint8_t *flash_area(unsigned area)
{
    return (const uint8_t *)word_at(area, 0);
}

static void program(unsigned area, uint64_t at, const uint8_t *bytes, uint64_t len)
{
    volatile uint32_t *word = word_at(area, at);
    put(word, BUFFERED_PROGRAM * BOTH);
    wait_ready(word);
    put(word, (uint32_t)(len / BUS - 1) * BOTH);
    for (uint64_t i = 0; i < len; i += BUS)
        put(word + i / BUS, bytes[i] | (uint32_t)bytes[i + 1] << 8 | (uint32_t)bytes[i + 2] << 16 | (uint32_t)bytes[i + 3] << 24);
    put(word, CONFIRM * BOTH);
    wait_ready(word);
    put(word, READ_ARRAY * BOTH);
}

static void erase(unsigned area, uint64_t from, uint64_t upto)
{
    for (; from < upto; from += FLASH_BLOCK) {
        volatile uint32_t *word = word_at(area, from);
        put(word, ERASE * BOTH);
        put(word, CONFIRM * BOTH);
        wait_ready(word);
        put(word, READ_ARRAY * BOTH);
    }
}

/* What the cells do, which the emulator's flash does not: a program clears bits and sets none, and where the supply goes in the middle of
 * a program or an erase, some of it is done (bench.c, `bench_torn`). */

static void operate_program(int operation, unsigned area, uint64_t at, const uint8_t *bytes, uint64_t len)
{
    const uint8_t *before = flash_area(area) + at;
    uint8_t after[PAGE];
    int how = bench_operation(operation, area, at, len);
    for (uint64_t i = 0; i < len; i++)
        after[i] = how == DONE ? before[i] & bytes[i] : bench_torn(i, before[i], before[i] & bytes[i]);
    program(area, at, after, len);
    bench_operated(how);
}

static void operate_erase(int operation, unsigned area, uint64_t at, uint64_t len)
{
    static uint8_t before[IMAGE];
    uint8_t after[PAGE];
    int how = bench_operation(operation, area, at, len);
    for (uint64_t i = 0; how != DONE && i < len; i++)
        before[i] = flash_area(area)[at + i];
    erase(area, at, at + len);
    for (uint64_t done = 0; how != DONE && done < len; done += PAGE) {
        uint64_t count = len - done < PAGE ? len - done : PAGE;
        for (uint64_t i = 0; i < count; i++)
            after[i] = bench_torn(done + i, before[done + i], 0xff);
        program(area, at + done, after, count);
    }
    bench_operated(how);
}

void flash_program(unsigned area, uint64_t at, const uint8_t *bytes, uint64_t len)
{
    operate_program(len != FIRST_WORD ? PROGRAM : bytes[MARK_AT] == 0 ? CLEAR : COMMIT, area, at, bytes, len);
}

void flash_erase(unsigned area)
{
    operate_erase(ERASURE, area, 0, IMAGE);
}

const uint8_t *flash_seal(unsigned area)
{
    return flash_area(area) + SEAL_AT;
}

void flash_program_seal(unsigned area, const uint8_t seal[SEAL_BYTES])
{
    operate_program(COMMIT, area, SEAL_AT, seal, SEAL_BYTES);
}

void flash_erase_seal(unsigned area)
{
    operate_erase(CLEAR, area, SEAL_AT, SEAL_BYTES);
}

void flash_new(void)
{
    for (unsigned area = 0; area < AREAS; area++)
        erase(area, 0, SEAL_AT + FLASH_BLOCK);
}

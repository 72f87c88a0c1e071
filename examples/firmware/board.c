/* QEMU's machine `virt`, aarch64, at the exception level that it starts in (EL1). */
#include "board.h"

#include "box.h"

#define AT(address) (*(volatile uint32_t *)(uint64_t)(address))
#define READ(name) ({ uint64_t value_; __asm__ volatile("mrs %0, " name : "=r"(value_)); value_; })
#define WRITE(name, value) __asm__ volatile("msr " name ", %0" ::"r"((uint64_t)(value)))
#define SYNC() __asm__ volatile("dsb sy; isb" ::: "memory")

enum { SERIAL = 0x09000000, DISTRIBUTOR = 0x08000000, GATE = 0x08010000, TIMER_LINE = 27, INSTRUCTIONS_RETIRED = 8 };

/* ---- memory. Normal memory with the MMU on, so that 16 bytes may be read at any boundary. With ALIGNED the MMU stays off and every access that is not
 * aligned to its own size is a fault, as the processor does to all data then: the library for that is built with -mstrict-align. */

#ifdef ALIGNED

static void memory_kinds(void)
{
    WRITE("sctlr_el1", READ("sctlr_el1") | 2);
    SYNC();
}

#else

enum { DEVICE = 0, NORMAL = 1, UNCACHED = 2, BLOCK = 1, TABLE = 3, ACCESSED = 1 << 10, SHARED = 3 << 8 };

static _Alignas(4096) uint64_t gigabytes[512], low[512];

static uint64_t entry(uint64_t address, uint64_t kind)
{
    return address | ACCESSED | SHARED | kind << 2 | BLOCK;
}

static void memory_kinds(void)
{
    for (uint64_t i = 0; i < 512; i++) {        /* the flash is read as memory; what the devices see is in order */
        uint64_t address = i << 21;
        low[i] = entry(address, address >= FLASH_AT && address < 2 * FLASH_AT ? UNCACHED : DEVICE);
    }
    gigabytes[0] = (uint64_t)low | TABLE;
    gigabytes[1] = entry(UINT64_C(1) << 30, NORMAL);
    WRITE("mair_el1", 0x44ff00);                /* 0: device, 1: cached, 2: not cached */
    WRITE("tcr_el1", 25 | 1 << 8 | 1 << 10 | 3 << 12 | UINT64_C(1) << 23 | UINT64_C(2) << 32);
    WRITE("ttbr0_el1", gigabytes);
    SYNC();
    WRITE("sctlr_el1", READ("sctlr_el1") | 1 | 1 << 2 | 1 << 12);
    SYNC();
}

#endif

void machine_on(void)
{
    memory_kinds();
    AT(DISTRIBUTOR) = 1;
    AT(DISTRIBUTOR + 0x100) = 1 << TIMER_LINE;
    AT(GATE + 4) = 0xff;
    AT(GATE) = 1;
    WRITE("pmevtyper0_el0", INSTRUCTIONS_RETIRED);
    WRITE("pmcntenset_el0", 1);
    WRITE("pmcr_el0", READ("pmcr_el0") | 1);
}

void interrupts_on(void)
{
    __asm__ volatile("msr daifclr, #2");
}

void interrupts_off(void)
{
    __asm__ volatile("msr daifset, #2");
}

/* ---- time */

uint64_t now_ns(void)
{
    __asm__ volatile("isb");
    return READ("cntvct_el0") * 1000 / (READ("cntfrq_el0") / 1000000);
}

uint64_t instructions(void)
{
    __asm__ volatile("isb");
    return READ("pmevcntr0_el0") & 0xffffffff;
}

void supply_timer(uint64_t after_ns)
{
    WRITE("cntv_cval_el0", READ("cntvct_el0") + after_ns * (READ("cntfrq_el0") / 1000000) / 1000);
    WRITE("cntv_ctl_el0", 1);
    __asm__ volatile("isb");
}

void supply_timer_off(void)
{
    WRITE("cntv_ctl_el0", 0);
    __asm__ volatile("isb");
}

__attribute__((target("general-regs-only"))) void interrupt(void)
{
    uint32_t line = AT(GATE + 0xc);
    if ((line & 0x3ff) == TIMER_LINE) {
        WRITE("cntv_ctl_el0", 0);
        __asm__ volatile("isb");
        box_supply_lost();
    }
    AT(GATE + 0x10) = line;
}

/* ---- outside */

void say(const char *text)
{
    while (*text)
        AT(SERIAL) = (unsigned char)*text++;
}

void say_number(uint64_t number)
{
    char text[21], *at = text + 20;
    for (*at = 0; number > 9; number /= 10)
        *--at = (char)('0' + number % 10);
    *--at = (char)('0' + number);
    say(at);
}

void say_line(const char *what, uint64_t cost)
{
    say(what);
    say(" ");
    say_number(cost);
    say("\n");
}

static uint64_t semihosting(uint64_t call, const void *with)
{
    register uint64_t x0 __asm__("x0") = call;
    register const void *x1 __asm__("x1") = with;
    __asm__ volatile("hlt #0xf000" : "+r"(x0) : "r"(x1) : "memory");
    return x0;
}

void arguments(char *text, size_t len)
{
    uint64_t block[2] = {(uint64_t)text, len};
    if (semihosting(0x15, block) != 0)
        text[0] = 0;
}

_Noreturn void end(int status)
{
    uint64_t block[2] = {0x20026, (uint64_t)status};
    for (;;)
        semihosting(0x18, block);
}

void faulted(uint64_t syndrome, uint64_t at, uint64_t address)
{
    say("fault: syndrome ");
    say_number(syndrome);
    say(" at ");
    say_number(at);
    say(" for address ");
    say_number(address);
    say("\n");
    end(3);
}

/* ---- what the library and the compiler ask for */

void *memcpy(void *restrict to, const void *restrict from, size_t len)
{
    unsigned char *t = to;
    const unsigned char *f = from;
    if ((((uint64_t)t | (uint64_t)f) & 7) == 0) {
        uint64_t *words = to;
        const uint64_t *source = from;
        for (; len >= 32; len -= 32, words += 4, source += 4) {
            uint64_t a = source[0], b = source[1], c = source[2], d = source[3];
            words[0] = a;
            words[1] = b;
            words[2] = c;
            words[3] = d;
        }
        for (; len >= 8; len -= 8)
            *words++ = *source++;
        t = (unsigned char *)words;
        f = (const unsigned char *)source;
    }
    while (len--)
        *t++ = *f++;
    return to;
}

void *memset(void *at, int byte, size_t len)
{
    unsigned char *t = at;
    for (; len > 0 && ((uint64_t)t & 7) != 0; len--)
        *t++ = (unsigned char)byte;
    for (; len >= 8; len -= 8, t += 8)
        *(uint64_t *)t = (unsigned char)byte * UINT64_C(0x0101010101010101);
    while (len--)
        *t++ = (unsigned char)byte;
    return at;
}

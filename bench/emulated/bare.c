/* What a program needs to run with no C library on Linux on x86-64, aarch64 or RISC-V: where it begins, writing, ending, and the two functions that the proved
 * library asks for. These move a word at a time where they can: what they take is counted too. */
#include <stddef.h>
#include <stdint.h>

int main(void);

#if defined(__x86_64__)
static long call(long number, long a, long b, long c)
{
    long answer;
    __asm__ volatile("syscall" : "=a"(answer) : "a"(number), "D"(a), "S"(b), "d"(c) : "rcx", "r11", "memory");
    return answer;
}
enum { WRITE = 1, EXIT = 60 };
__asm__(".globl _start\n_start:\n  xor %ebp, %ebp\n  and $-16, %rsp\n  call begin\n");
#elif defined(__aarch64__)
static long call(long number, long a, long b, long c)
{
    register long x0 __asm__("x0") = a, x1 __asm__("x1") = b, x2 __asm__("x2") = c, x8 __asm__("x8") = number;
    __asm__ volatile("svc #0" : "+r"(x0) : "r"(x1), "r"(x2), "r"(x8) : "memory");
    return x0;
}
enum { WRITE = 64, EXIT = 93 };
__asm__(".globl _start\n_start:\n  mov x29, #0\n  bl begin\n");
#elif defined(__riscv)
static long call(long number, long a, long b, long c)
{
    register long a0 __asm__("a0") = a, a1 __asm__("a1") = b, a2 __asm__("a2") = c, a7 __asm__("a7") = number;
    __asm__ volatile("ecall" : "+r"(a0) : "r"(a1), "r"(a2), "r"(a7) : "memory");
    return a0;
}
enum { WRITE = 64, EXIT = 93 };
__asm__(".globl _start\n_start:\n  andi sp, sp, -16\n  call begin\n");
#endif

long write(int file, const void *bytes, unsigned long size)
{
    return call(WRITE, file, (long)bytes, (long)size);
}

void begin(void)
{
    call(EXIT, main(), 0, 0);
    __builtin_unreachable();
}

static int words_fit(const void *a, const void *b, size_t size)
{
    return (((uintptr_t)a | (uintptr_t)b | size) & 7) == 0;
}

void *memcpy(void *to, const void *from, size_t size)
{
    if (words_fit(to, from, size))
        for (size_t i = 0; i < size / 8; i++)
            ((volatile uint64_t *)to)[i] = ((const uint64_t *)from)[i];
    else
        for (size_t i = 0; i < size; i++)
            ((volatile uint8_t *)to)[i] = ((const uint8_t *)from)[i];
    return to;
}

void *memset(void *to, int byte, size_t size)
{
    uint64_t word = (uint8_t)byte * UINT64_C(0x0101010101010101);
    if (words_fit(to, to, size))
        for (size_t i = 0; i < size / 8; i++)
            ((volatile uint64_t *)to)[i] = word;
    else
        for (size_t i = 0; i < size; i++)
            ((volatile uint8_t *)to)[i] = (uint8_t)byte;
    return to;
}

/* The machine: memory, timers, the serial line, the end of the emulation. */
#ifndef BOARD_H
#define BOARD_H

#include <stddef.h>
#include <stdint.h>

#define FLASH_AT UINT64_C(0x04000000)       /* the second bank: CFI, 4 bytes wide, two chips of 2 */
#define FLASH_BLOCK UINT64_C(0x40000)

uint64_t now_ns(void);                      /* virtual time; with the emulator's -icount shift=0 an instruction is a nanosecond */
uint64_t instructions(void);                /* carried out so far; counts with -icount shift=0 alone */
void supply_timer(uint64_t after_ns);       /* the interrupt that says that the supply fell */
void supply_timer_off(void);
void interrupts_on(void);                   /* off at reset */
void interrupts_off(void);

void say(const char *text);
void say_number(uint64_t number);
void say_line(const char *what, uint64_t number);
void arguments(char *text, size_t len);
_Noreturn void end(int status);

int run_on(void *stack, void (*box)(void));
_Noreturn void leave(int answer);

#endif

/* The bench around the box: it takes the supply away in the middle of any program or erase. */
#ifndef BENCH_H
#define BENCH_H

#include <stdint.h>

/* The operations of the flash: a first word programmed away, an erase, a program of a page, the program of the first word. */
enum { CLEAR, ERASURE, PROGRAM, COMMIT, OPERATIONS };

/* What comes of one: done, torn with the supply gone, or too weak (some bits did not take, the supply is there). */
enum { DONE, GONE, WEAK };

int bench_operation(int operation, unsigned area, uint64_t at, uint64_t len);
uint8_t bench_torn(uint64_t at, uint8_t before, uint8_t after);
void bench_operated(int how);

/* What the calls take. */
void bench_calls(void);

void flash_new(void);           /* a flash from the factory: all ones */

#endif

/* Two areas of a NOR flash, one erase block each. */
#ifndef FLASH_H
#define FLASH_H

#include <stdint.h>

#ifndef PAGE_BYTES
#define PAGE_BYTES 256
#endif

enum { AREAS = 2, PAGE = PAGE_BYTES, FIRST_WORD = 8, MARK_AT = 2, MARK = 'P', SEAL_BYTES = 32 };

/* Where an area is read: the flash is mapped, so an image is restored from where it stands. */
const uint8_t *flash_area(unsigned area);

/* One program, of one page at most, on a boundary of 4 bytes: bits go from one to zero. Returns when it stands in the flash. */
void flash_program(unsigned area, uint64_t at, const uint8_t *bytes, uint64_t len);

/* All bits of the area to one. */
void flash_erase(unsigned area);

/* Behind each area an erase block of its own, for a seal: where it is read, its program, its erase. */
const uint8_t *flash_seal(unsigned area);
void flash_program_seal(unsigned area, const uint8_t seal[SEAL_BYTES]);
void flash_erase_seal(unsigned area);

#endif

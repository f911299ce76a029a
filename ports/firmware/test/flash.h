/* A flash as an array, which refuses what real flash would spoil, counts its calls, and fails or loses power at a chosen one. */
#ifndef FLASH_H
#define FLASH_H

#include <stdint.h>

#ifndef BLOCK_BYTES
#define BLOCK_BYTES 4096
#define PAGE_BYTES 256
#endif
#ifndef FLASH_BYTES
#define FLASH_BYTES 262144
#endif
enum { BLOCK = BLOCK_BYTES, PAGE = PAGE_BYTES, BLOCKS = FLASH_BYTES / BLOCK_BYTES };

extern uint8_t flash[BLOCKS * BLOCK];
extern struct flash_counts {
    uint32_t reads, read_bytes, programs, program_bytes, erases;
} flash_counts;

/* Which call fails, and at which program or erase power is lost, counted from 1 on since both counts were last set to 0; 0 for none. A
 * call that fails or is cut short has done a part of its work. */
extern uint32_t flash_calls, flash_fails_at, flash_writes, flash_stops_at;
extern void (*flash_stops)(void); /* ends the emulator */

/* Each returns 0, or 5 if the flash failed. */
uint32_t flash_read(uint32_t block, uint32_t offset, void *bytes, uint32_t count);
uint32_t flash_program(uint32_t block, uint32_t offset, const void *bytes, uint32_t count);
uint32_t flash_erase(uint32_t block);

/* Returns 1 if the bytes read as erased ones, 0 if not, and 5 if the flash failed. */
uint32_t flash_is_blank(uint32_t block, uint32_t offset, uint32_t count);

#endif

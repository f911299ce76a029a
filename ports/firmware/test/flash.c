#include "flash.h"

uint8_t flash[BLOCKS * BLOCK];
struct flash_counts flash_counts;
uint32_t flash_calls, flash_fails_at, flash_writes, flash_stops_at;
void (*flash_stops)(void);

/* Bytes that a driver may not be asked for at all. */
static int is_wrong(uint32_t block, uint32_t offset, uint32_t count) { return block >= BLOCKS || count > BLOCK || offset > BLOCK - count; }

static int fails(void) { return ++flash_calls == flash_fails_at; }

/* Returns how many bytes of a program or erase are done before power is lost, or all of them if it isn't. */
static uint32_t done_bytes(uint32_t count) {
    if (++flash_writes != flash_stops_at) return count;
    uint32_t parts[] = { 0, 1, count / 3, count / 2, count - 1 };
    return parts[flash_writes % 5];
}

static int is_erased(uint32_t block, uint32_t offset, uint32_t count) {
    for (uint32_t i = 0; i < count; i++)
        if (flash[block * BLOCK + offset + i] != 0xff) return 0;
    return 1;
}

uint32_t flash_read(uint32_t block, uint32_t offset, void *bytes, uint32_t count) {
    flash_counts.reads++;
    flash_counts.read_bytes += count;
    if (is_wrong(block, offset, count)) return 5;
    if (fails()) {
        __builtin_memset(bytes, 0x5a, count);
        return 5;
    }
    __builtin_memcpy(bytes, &flash[block * BLOCK + offset], count);
    return 0;
}

uint32_t flash_program(uint32_t block, uint32_t offset, const void *bytes, uint32_t count) {
    flash_counts.programs++;
    flash_counts.program_bytes += count;
    if (is_wrong(block, offset, count) || offset % PAGE || count % PAGE || !is_erased(block, offset, count)) return 5;
    int is_cut = fails();
    uint32_t done = done_bytes(count);
    __builtin_memcpy(&flash[block * BLOCK + offset], bytes, is_cut ? count / 2 : done);
    if (flash_writes == flash_stops_at) flash_stops();
    return is_cut ? 5 : 0;
}

uint32_t flash_erase(uint32_t block) {
    flash_counts.erases++;
    if (is_wrong(block, 0, BLOCK)) return 5;
    int is_cut = fails();
    uint32_t done = done_bytes(BLOCK);
    __builtin_memset(&flash[block * BLOCK], 0xff, is_cut ? BLOCK / 2 : done);
    if (flash_writes == flash_stops_at) flash_stops();
    return is_cut ? 5 : 0;
}

uint32_t flash_is_blank(uint32_t block, uint32_t offset, uint32_t count) {
    flash_counts.reads++;
    flash_counts.read_bytes += count;
    if (is_wrong(block, offset, count)) return 5;
    return fails() ? 5 : (uint32_t)is_erased(block, offset, count);
}

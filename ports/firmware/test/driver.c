/* The driver that the library calls, over the flash in memory. */
#include "flash.h"
#include "littlefs_flash.h"

uint32_t lfs_flash_read(const lfs_flash_chip *chip, uint32_t block, uint32_t offset, uint8_t *buffer, lfs_flash_size buffer_len) {
    if (chip->block_size != BLOCK || chip->page != PAGE || chip->block_count != BLOCKS || buffer_len > BLOCK) return 6;
    return flash_read(block, offset, buffer, (uint32_t)buffer_len);
}

uint32_t lfs_flash_prog(const lfs_flash_chip *chip, uint32_t block, uint32_t offset, const uint8_t *bytes, lfs_flash_size bytes_len) {
    if (chip->block_size != BLOCK || bytes_len > BLOCK) return 6;
    return flash_program(block, offset, bytes, (uint32_t)bytes_len);
}

uint32_t lfs_flash_erase(const lfs_flash_chip *chip, uint32_t block) {
    (void)chip;
    return flash_erase(block);
}

uint32_t lfs_flash_is_blank(const lfs_flash_chip *chip, uint32_t block, uint32_t offset, uint32_t count) {
    (void)chip;
    return flash_is_blank(block, offset, count);
}

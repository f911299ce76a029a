/* A driver for a NOR flash chip at an SPI bus: what littlefs_flash.h wants, by commands that nearly all such chips know. */
#include "board/spi.h"
#include "littlefs_flash.h"

enum { PROGRAM = 0x02, READ = 0x03, STATUS = 0x05, ENABLE = 0x06, ERASE = 0x20 };
enum { IS_BUSY = 1, TRIES = 10000000 }; /* a chip that stays busy has failed */

static void send(uint8_t command, uint32_t address) {
    spi_select(1);
    spi_transfer(command);
    for (int shift = 16; shift >= 0; shift -= 8) spi_transfer((uint8_t)(address >> shift));
}

static void enable(void) {
    spi_select(1);
    spi_transfer(ENABLE);
    spi_select(0);
}

/* Waits until the chip has done its work, and returns 0, or 1 if it never does. */
static uint32_t wait(void) {
    uint32_t status = IS_BUSY;
    spi_select(1);
    spi_transfer(STATUS);
    for (uint32_t at = 0; at < TRIES && status & IS_BUSY; at++) status = spi_transfer(0);
    spi_select(0);
    return status & IS_BUSY;
}

uint32_t lfs_flash_read(const lfs_flash_chip *chip, uint32_t block, uint32_t offset, uint8_t *buffer, lfs_flash_size buffer_len) {
    send(READ, block * chip->block_size + offset);
    for (uint32_t at = 0; at < buffer_len; at++) buffer[at] = spi_transfer(0);
    spi_select(0);
    return 0;
}

uint32_t lfs_flash_prog(const lfs_flash_chip *chip, uint32_t block, uint32_t offset, const uint8_t *bytes, lfs_flash_size bytes_len) {
    for (uint32_t page = 0; page < bytes_len; page += chip->page) {
        enable();
        send(PROGRAM, block * chip->block_size + offset + page);
        for (uint32_t at = 0; at < chip->page; at++) spi_transfer(bytes[page + at]);
        spi_select(0);
        if (wait()) return 1;
    }
    return 0;
}

uint32_t lfs_flash_erase(const lfs_flash_chip *chip, uint32_t block) {
    enable();
    send(ERASE, block * chip->block_size);
    spi_select(0);
    return wait();
}

/* No reading shows that a program or an erase was cut short, so this driver is never sure. */
uint32_t lfs_flash_is_blank(const lfs_flash_chip *chip, uint32_t block, uint32_t offset, uint32_t count) {
    (void)chip, (void)block, (void)offset, (void)count;
    return 0;
}

/* A NOR flash chip at the SPI bus, for the emulator: 256 kB, sectors of 4,096 bytes, pages of 256. It knows the commands of common chips,
 * programs only from 1 to 0, wraps around within a page, ignores what isn't enabled, and is busy for a while. What it holds is kept in
 * the host's file nor.img. */
#include <string.h>

#include "board.h"
#include "spi.h"

enum { SIZE = 262144, SECTOR = 4096, PAGE = 256, BUSY_READS = 3 };
enum { PROGRAM = 0x02, READ = 0x03, STATUS = 0x05, ENABLE = 0x06, ERASE = 0x20 };

static uint8_t cells[SIZE], page[PAGE];
static uint32_t at, count, address;
static uint8_t command;
static int is_loaded, is_enabled, busy;

static void load(void) {
    if (is_loaded) return;
    is_loaded = 1;
    memset(cells, 0xff, SIZE);
    board_load("nor.img", cells, SIZE);
}

static void perform(void) {
    uint32_t begin = address % SIZE;
    if (command == ENABLE) is_enabled = 1;
    if (!is_enabled || (command != PROGRAM && command != ERASE)) return;
    if (command == ERASE) memset(&cells[begin / SECTOR * SECTOR], 0xff, SECTOR);
    for (uint32_t i = 0; command == PROGRAM && i < count - 4; i++)
        cells[begin / PAGE * PAGE + (begin + i) % PAGE] &= page[i % PAGE];
    is_enabled = 0;
    busy = BUSY_READS;
    board_save("nor.img", cells, SIZE);
}

void spi_select(int is_selected) {
    load();
    if (!is_selected && (count >= 4 || command == ENABLE)) perform();
    count = at = address = command = 0;
}

uint8_t spi_transfer(uint8_t byte) {
    if (!count++) {
        command = busy && byte != STATUS ? 0 : byte;
        return 0xff;
    }
    if (command == STATUS) return busy ? (busy--, 1) : is_enabled ? 2 : 0;
    if (count <= 4) {
        address = address << 8 | byte;
        return 0xff;
    }
    if (command == PROGRAM) page[(count - 5) % PAGE] = byte;
    return command == READ ? cells[(address + at++) % SIZE] : 0xff;
}

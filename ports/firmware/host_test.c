/* Tests the library on a flash in memory, on the machine that builds it. The flash refuses what real flash would spoil, and fails at a
 * chosen call. With a FILE it writes what the flash holds at the end.
 *
 *     cc -std=c11 -Wall -Wextra -O1 -o host_test host_test.c FOLDER/crates/littlefs_flash_c/out/liblittlefs_flash_c.a KIT/c/liblibc_c.a */
#include <stdio.h>
#include <stdlib.h>
#include <string.h>

#include "littlefs_flash.h"

#define PATH(text) (const uint8_t *)(text), strlen(text)
#define MUST(is_so) must(is_so, #is_so, __LINE__)

enum { BLOCK = 4096, PAGE = 256, BLOCKS = 24, STEPS = 20 };

static uint8_t flash[BLOCKS][BLOCK];
static uint32_t calls, writes, fails_at; /* the call that fails, counted from 1 on; 0 for none */

static const lfs_flash_config config = LFS_FLASH_CONFIG;
static lfs_flash fs = LFS_FLASH(7, BLOCK, PAGE, BLOCKS);

static void must(int is_so, const char *what, int line) {
    if (!is_so) fprintf(stderr, "line %d: not so: %s\n", line, what), exit(1);
}

static int fails(const lfs_flash_chip *chip, uint32_t block, uint32_t offset, uint64_t count) {
    MUST(chip->number == 7 && chip->block_size == BLOCK && chip->page == PAGE);
    MUST(chip->block_count == BLOCKS || chip->block_count == BLOCKS - 1);
    MUST(block < BLOCKS && count <= BLOCK && offset <= BLOCK - count);
    return ++calls == fails_at;
}

static int is_erased(uint32_t block, uint32_t offset, uint64_t count) {
    for (uint64_t i = 0; i < count; i++)
        if (flash[block][offset + i] != 0xff) return 0;
    return 1;
}

uint32_t lfs_flash_read(const lfs_flash_chip *chip, uint32_t block, uint32_t offset, uint8_t *buffer, lfs_flash_size buffer_len) {
    if (fails(chip, block, offset, buffer_len)) return memset(buffer, 0x5a, buffer_len), 5;
    memcpy(buffer, flash[block] + offset, buffer_len);
    return 0;
}

uint32_t lfs_flash_prog(const lfs_flash_chip *chip, uint32_t block, uint32_t offset, const uint8_t *bytes, lfs_flash_size bytes_len) {
    int is_cut = fails(chip, block, offset, bytes_len);
    MUST(offset % PAGE == 0 && bytes_len % PAGE == 0 && is_erased(block, offset, bytes_len));
    writes++;
    memcpy(flash[block] + offset, bytes, is_cut ? bytes_len / 2 : bytes_len);
    return is_cut ? 1 : 0;
}

uint32_t lfs_flash_erase(const lfs_flash_chip *chip, uint32_t block) {
    int is_cut = fails(chip, block, 0, BLOCK);
    writes++;
    memset(flash[block], 0xff, is_cut ? BLOCK / 2 : BLOCK);
    return is_cut ? 0xffffffff : 0;
}

uint32_t lfs_flash_is_blank(const lfs_flash_chip *chip, uint32_t block, uint32_t offset, uint32_t count) {
    return fails(chip, block, offset, count) ? 2 : (uint32_t)is_erased(block, offset, count);
}

static int are_others_erased(void) {
    for (uint32_t block = 2; block < BLOCKS; block++)
        if (!is_erased(block, 0, BLOCK)) return 0;
    return 1;
}

static void start_anew(void) {
    memset(flash, 0xff, sizeof flash);
    calls = writes = fails_at = 0;
}

/* ---- starts */

static void test_starts(void) {
    start_anew();
    MUST(lfs_flash_mount(&fs, &config) == -LFS_FLASH_CORRUPT && !writes && fs.chip.block_count == BLOCKS);
    MUST(lfs_flash_stat(&fs, PATH("/")) == -LFS_FLASH_NO_SESSION);
    MUST(lfs_flash_format(&fs, &config) == 0 && are_others_erased());
    MUST(lfs_flash_mount(&fs, &config) == 0 && fs.is_open == 1);
    MUST(lfs_flash_mount(&fs, &config) == -LFS_FLASH_BUSY && lfs_flash_format(&fs, &config) == -LFS_FLASH_INVALID);
    MUST(lfs_flash_stat(&fs, PATH("/")) == LFS_FLASH_DIRECTORY);
    MUST(lfs_flash_unmount(&fs) == 0 && lfs_flash_unmount(&fs) == 0 && fs.is_open == 0);
    MUST(fs.chip.number == 7 && fs.chip.block_size == BLOCK && fs.chip.page == PAGE && fs.chip.block_count == BLOCKS);

    lfs_flash_config other = LFS_FLASH_CONFIG;
    other.name_max = 256;
    MUST(lfs_flash_mount(&fs, &other) == -LFS_FLASH_INVALID && fs.chip.block_count == BLOCKS);
    lfs_flash odd = LFS_FLASH(7, BLOCK - 1, PAGE, BLOCKS);
    calls = 0;
    MUST(lfs_flash_format(&odd, &config) == -LFS_FLASH_INVALID && lfs_flash_mount(&odd, &config) == -LFS_FLASH_INVALID && !calls);
}

/* A flash without an image that is accepted: a mount says so, and writes nothing. */
static void test_other_bytes(void) {
    start_anew();
    MUST(!lfs_flash_format(&fs, &config));
    writes = 0;
    lfs_flash shorter = LFS_FLASH(7, BLOCK, PAGE, BLOCKS - 1);
    MUST(lfs_flash_mount(&shorter, &config) == -LFS_FLASH_CORRUPT);
    memcpy(flash[0] + 8, "littlefx", 8);
    memcpy(flash[1] + 8, "littlefx", 8);
    MUST(lfs_flash_mount(&fs, &config) == -LFS_FLASH_CORRUPT);
    for (uint32_t at = 0; at < sizeof flash; at++) flash[at / BLOCK][at % BLOCK] = (uint8_t)(at * 2654435761u >> 13);
    memcpy(flash[0] + 54, "FAT16   ", 8);
    MUST(lfs_flash_mount(&fs, &config) == -LFS_FLASH_CORRUPT && !writes);
}

/* ---- each call */

static void test_calls(void) {
    start_anew();
    uint8_t buffer[64];
    lfs_flash_info info;
    MUST(!lfs_flash_format(&fs, &config) && !lfs_flash_mount(&fs, &config));
    MUST(lfs_flash_mkdir(&fs, PATH("/d")) == 0 && lfs_flash_mkdir(&fs, PATH("/d")) == -LFS_FLASH_EXIST);
    MUST(lfs_flash_file_open(&fs, PATH("/d/f"), LFS_FLASH_WRITE | LFS_FLASH_CREATE) == 0);
    MUST(lfs_flash_file_write(&fs, 0, (const uint8_t *)"21.5 degrees", 12) == 12 && lfs_flash_file_tell(&fs, 0) == 12);
    MUST(lfs_flash_file_sync(&fs, 0) == 0 && lfs_flash_file_truncate(&fs, 0, 4) == 0 && lfs_flash_file_size(&fs, 0) == 4);
    MUST(lfs_flash_stat(&fs, PATH("/d/f")) == 12 && lfs_flash_file_close(&fs, 0) == 0 && lfs_flash_stat(&fs, PATH("/d/f")) == 4);
    MUST(lfs_flash_file_open(&fs, PATH("/d/f"), LFS_FLASH_READ) == 0 && lfs_flash_file_seek(&fs, 0, 1) == 0);
    MUST(lfs_flash_file_read(&fs, 0, buffer, sizeof buffer) == 3 && !memcmp(buffer, "1.5", 3) && lfs_flash_file_close(&fs, 0) == 0);
    MUST(lfs_flash_set_attr(&fs, PATH("/d"), 't', (const uint8_t *)"now", 3) == 0);
    MUST(lfs_flash_get_attr(&fs, PATH("/d"), 't', buffer, sizeof buffer) == 3 && !memcmp(buffer, "now", 3));
    MUST(lfs_flash_remove_attr(&fs, PATH("/d"), 't') == 0 && lfs_flash_remove_attr(&fs, PATH("/d"), 't') == -LFS_FLASH_NO_ATTR);
    MUST(lfs_flash_rename(&fs, PATH("/d/f"), PATH("/g")) == 0);
    MUST(lfs_flash_list(&fs, PATH("/"), buffer, sizeof buffer) == 12 && !memcmp(buffer, "d 0 d\nf 4 g\n", 12));
    MUST(lfs_flash_remove(&fs, PATH("/d")) == 0 && lfs_flash_list(&fs, PATH("/"), buffer, sizeof buffer) == 6);
    MUST(lfs_flash_fs_stat(&fs, &info) == 0 && info.version == 0x20000 && info.block_size == BLOCK && info.block_count == BLOCKS);
    MUST(info.name_max == 255 && info.file_max == 2147483647 && info.attr_max == 1022);
    MUST(lfs_flash_gstate(&fs) == 0 && lfs_flash_recover(&fs) == 0 && lfs_flash_remount(&fs) == 0);
    MUST(lfs_flash_name_order(&fs) == 0 && lfs_flash_is_writable(&fs) == 1 && lfs_flash_read_only_reason(&fs) == 0);
    int64_t used = 0;
    for (uint32_t block = 0; block < BLOCKS; block++) used += lfs_flash_is_used(&fs, block);
    MUST(used == lfs_flash_used_blocks(&fs) && lfs_flash_is_used(&fs, BLOCKS) == -LFS_FLASH_INVALID);
    MUST(lfs_flash_unmount(&fs) == 0);
}

/* An image with other limits than the configuration's is only read, until it is mounted by its own. */
static void test_limits(void) {
    start_anew();
    lfs_flash_info info;
    lfs_flash_config short_names = LFS_FLASH_CONFIG;
    short_names.name_max = 32;
    MUST(!lfs_flash_format(&fs, &short_names) && !lfs_flash_mount(&fs, &config));
    MUST(lfs_flash_is_writable(&fs) == 0 && lfs_flash_read_only_reason(&fs) == LFS_FLASH_OTHER_LIMITS);
    MUST(lfs_flash_mkdir(&fs, PATH("/d")) == -LFS_FLASH_READ_ONLY && lfs_flash_fs_stat(&fs, &info) == 0 && info.name_max == 32);
    MUST(lfs_flash_unmount(&fs) == 0 && lfs_flash_mount(&fs, &short_names) == 0);
    MUST(lfs_flash_is_writable(&fs) == 1 && lfs_flash_read_only_reason(&fs) == 0 && lfs_flash_mkdir(&fs, PATH("/d")) == 0);
    MUST(lfs_flash_unmount(&fs) == 0);
}

/* ---- a flash that fails, at each of its calls in turn */

/* Makes a file in each of the first ten steps, and renames it in the others. */
static int64_t answer_of(int step) {
    char name[] = "/file0", other[] = "/moved0";
    static const uint8_t bytes[3000];
    name[5] = other[6] = (char)('0' + step % 10);
    if (step >= 10) return lfs_flash_rename(&fs, PATH(name), PATH(other));
    int64_t file = lfs_flash_file_open(&fs, PATH(name), LFS_FLASH_WRITE | LFS_FLASH_CREATE);
    int64_t answer = file < 0 ? file : lfs_flash_file_write(&fs, (uint32_t)file, bytes, sizeof bytes);
    return answer < 0 ? answer : lfs_flash_file_close(&fs, (uint32_t)file);
}

/* Returns how many entries the root has, or minus the error's number. */
static int entries(void) {
    static uint8_t lines[1000];
    int count = 0, len = (int)lfs_flash_list(&fs, PATH("/"), lines, sizeof lines);
    for (int at = 0; at < len; at++) count += lines[at] == '\n';
    return len < 0 ? len : count;
}

/* Performs the steps, with one failure on the way, and returns how often a call told it. */
static int perform_steps(void) {
    int told = 0;
    for (int step = 0; step < STEPS; step++) {
        int before = entries();
        if (before == -LFS_FLASH_IO) {
            told++;
            MUST(!lfs_flash_remount(&fs));
            before = entries();
        }
        int64_t answer = answer_of(step);
        if (answer >= 0) continue;
        MUST(answer == -LFS_FLASH_IO && !told++);
        uint32_t at = calls;
        MUST(entries() == -LFS_FLASH_FAILED && answer_of(step) == -LFS_FLASH_FAILED && calls == at);
        MUST(!lfs_flash_unmount(&fs) && !lfs_flash_mount(&fs, &config));
        int after = entries();
        MUST(after == before || (step < 10 && after == before + 1));
        int64_t again = answer_of(step);
        MUST(again >= 0 || (step >= 10 && again == -LFS_FLASH_NO_ENT));
    }
    return told;
}

/* Formats, mounts, performs the steps and lists, with the failure of a call on the way; returns how often a call told it. */
static int run_with_failure(void) {
    int64_t formatted = lfs_flash_format(&fs, &config);
    MUST(!formatted || (formatted == -LFS_FLASH_IO && !lfs_flash_format(&fs, &config)));
    int64_t mounted = lfs_flash_mount(&fs, &config);
    MUST(!mounted || (mounted == -LFS_FLASH_IO && !lfs_flash_mount(&fs, &config)));
    int told = (formatted < 0) + (mounted < 0) + perform_steps();
    int left = entries();
    MUST(left == 10 || (left == -LFS_FLASH_IO && fails_at == calls));
    MUST(!lfs_flash_unmount(&fs));
    return told + (left != 10);
}

static void test_failures(void) {
    uint32_t at = 1;
    for (;; at++) {
        start_anew();
        fails_at = at;
        int told = run_with_failure();
        if (calls < at) break;
        MUST(told == 1);
    }
    MUST(at > STEPS);
    printf("each of %u calls of the driver failed in turn, and one answer told it\n", at - 1);
}

int main(int count, char **words) {
    test_starts();
    test_other_bytes();
    test_calls();
    test_limits();
    test_failures();
    FILE *file = count > 1 ? fopen(words[1], "wb") : NULL;
    if (file) MUST(fwrite(flash, 1, sizeof flash, file) == sizeof flash && !fclose(file));
    puts("passed");
    return 0;
}

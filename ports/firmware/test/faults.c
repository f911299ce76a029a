/* Fails once, at each call in turn: first the flash's, reads and questions too, then malloc's and realloc's. The call of the library then
 * returns minus IO or minus NO_MEMORY. The session has failed, and makes no call of the flash until a remount, or an unmount and a mount:
 * that finds the tree from before the call or from after it, and files are made again.
 *
 * The flash that each failure leaves is in the host's file leftN.img, and a line says `left N CHECKSUM`, by tree.h. */
#include <string.h>

#include "counted_heap.h"
#include "flash.h"
#include "littlefs_flash.h"
#include "print.h"
#include "tree.h"

#define PATH(path) (const uint8_t *)(path), strlen(path)

enum { LIST = 18, STEPS = 26 };
enum { MAKE = LFS_FLASH_WRITE | LFS_FLASH_CREATE };

static lfs_flash fs = LFS_FLASH(0, BLOCK, PAGE, BLOCKS);
/* A second session, that only reads what is on the flash between two calls of the first. */
static lfs_flash reader = LFS_FLASH(1, BLOCK, PAGE, BLOCKS);
static const lfs_flash_config config = LFS_FLASH_CONFIG;
static int64_t error = 1;         /* that tells the failure; at first no call returns it */
static uint32_t sums[STEPS + 1];  /* the tree before the first step, and after each */
static uint32_t left;             /* flashes that failures left */
static uint32_t flash_total, heap_total; /* calls without a failure */
static uint32_t unnoticed;               /* refusals of the heap that no call told */
static const uint8_t bytes[3000] = "21.5 degrees";
static uint8_t buffer[1000];

static int64_t answer_of(int step) {
    switch (step) {
    case 0: return lfs_flash_mkdir(&fs, PATH("/d"));
    case 1: return lfs_flash_file_open(&fs, PATH("/d/long"), MAKE);
    case 2: return lfs_flash_file_write(&fs, 0, bytes, sizeof bytes);
    case 3: return lfs_flash_file_sync(&fs, 0);
    case 4: return lfs_flash_file_write(&fs, 0, bytes, 700);
    case 5: return lfs_flash_file_close(&fs, 0);
    case 6: return lfs_flash_file_open(&fs, PATH("/short"), MAKE);
    case 7: return lfs_flash_file_write(&fs, 0, bytes, 40);
    case 8: return lfs_flash_file_close(&fs, 0);
    case 9: return lfs_flash_set_attr(&fs, PATH("/short"), ATTRIBUTE, bytes, 8);
    case 10: return lfs_flash_rename(&fs, PATH("/short"), PATH("/d/short"));
    case 11: return lfs_flash_mkdir(&fs, PATH("/e"));
    case 12: return lfs_flash_rename(&fs, PATH("/d/long"), PATH("/e/long"));
    case 13: return lfs_flash_file_open(&fs, PATH("/e/long"), LFS_FLASH_WRITE);
    case 14: return lfs_flash_file_truncate(&fs, 0, 1000);
    case 15: return lfs_flash_file_close(&fs, 0);
    case 16: return lfs_flash_file_open(&fs, PATH("/e/long"), LFS_FLASH_READ);
    case 17: return lfs_flash_file_read(&fs, 0, buffer, sizeof buffer);
    case LIST: return lfs_flash_list(&fs, PATH("/d"), buffer, sizeof buffer);
    case 19: return lfs_flash_get_attr(&fs, PATH("/d/short"), ATTRIBUTE, buffer, sizeof buffer);
    case 20: return lfs_flash_remove_attr(&fs, PATH("/d/short"), ATTRIBUTE);
    case 21: return lfs_flash_file_close(&fs, 0);
    case 22: return lfs_flash_remove(&fs, PATH("/d/short"));
    case 23: return lfs_flash_remove(&fs, PATH("/d"));
    case 24: return lfs_flash_rename(&fs, PATH("/e"), PATH("/f"));
    default: return lfs_flash_recover(&fs);
    }
}

static uint32_t sum_by_reader(void) {
    must("mount", lfs_flash_mount(&reader, &config));
    uint32_t sum = tree_sum(&reader, 0);
    must("unmount", lfs_flash_unmount(&reader));
    return sum;
}

static void note_sums(void) {
    memset(flash, 0xff, sizeof flash);
    must("format", lfs_flash_format(&fs, &config));
    must("mount", lfs_flash_mount(&fs, &config));
    sums[0] = sum_by_reader();
    for (int step = 0; step < STEPS; step++) {
        must("a step", answer_of(step));
        sums[step + 1] = sum_by_reader();
    }
    must("unmount", lfs_flash_unmount(&fs));
}

/* Formats and mounts. Returns whether one of both told the failure. */
static int starts_with_failure(void) {
    memset(flash, 0xff, sizeof flash);
    int64_t formatted = lfs_flash_format(&fs, &config);
    must_be("a format", !formatted || formatted == error);
    if (formatted) must("format", lfs_flash_format(&fs, &config));
    int64_t mounted = lfs_flash_mount(&fs, &config);
    must_be("a mount", !mounted || (mounted == error && !formatted));
    if (mounted) must("mount", lfs_flash_mount(&fs, &config));
    return formatted || mounted;
}

/* Returns the first step that tells a failure, or the number of steps. */
static int failed_step(void) {
    for (int step = 0; step < STEPS; step++) {
        int64_t answer = answer_of(step);
        if (answer == error) return step;
        must("a step", answer);
    }
    return STEPS;
}

/* Counts the calls of the flash and of the heap for the steps. */
static void count_calls(void) {
    flash_calls = 0, heap_counts.calls = 0;
    must_be("a start", !starts_with_failure() && failed_step() == STEPS);
    flash_total = flash_calls, heap_total = (uint32_t)heap_counts.calls;
    must("unmount", lfs_flash_unmount(&fs));
}

/* A list that has no memory for its lines may leave the session as it is. */
static void check_session(int step) {
    uint32_t calls = flash_calls;
    int may_work = step == LIST && error == -LFS_FLASH_NO_MEMORY;
    int64_t used = lfs_flash_used_blocks(&fs);
    must_be("a failed session", used == -LFS_FLASH_FAILED || (may_work && used > 0));
    if (used > 0) return;
    must_be("a failed session", answer_of(step) == -LFS_FLASH_FAILED && lfs_flash_stat(&fs, PATH("/")) == -LFS_FLASH_FAILED);
    must_be("no call of the flash", flash_calls == calls);
}

static void mount_again(void) {
    must("unmount", lfs_flash_unmount(&fs));
    must("mount", lfs_flash_mount(&fs, &config));
}

static void save_flash(uint32_t sum) {
    char name[] = "left0000.img";
    uint32_t number = ++left;
    for (int at = 7; at > 3; at--, number /= 10) name[at] = (char)('0' + number % 10);
    board_save(name, flash, sizeof flash);
    board_write("left ");
    print_number(left, 0);
    board_write(" ");
    print_hex(sum, 8);
    board_write("\n");
}

/* What a start after the failure finds, and that the work goes on. */
static void check_tree(int step) {
    if (left % 2) mount_again();
    else must("remount", lfs_flash_remount(&fs));
    uint32_t sum = tree_sum(&fs, 0);
    must_be("the tree from before or after", sum == sums[step] || sum == sums[step + 1]);
    save_flash(sum);
    must("a new directory", lfs_flash_mkdir(&fs, PATH("/after")));
    mount_again();
    must_be("the new directory", lfs_flash_stat(&fs, PATH("/after")) == LFS_FLASH_DIRECTORY);
}

/* Performs the steps with a failure on the way. Returns whether a call told it. */
static int tells_failure(void) {
    int is_told = starts_with_failure(), step = is_told ? STEPS : failed_step();
    flash_fails_at = 0, heap_fails_at = 0;
    if (step < STEPS) {
        check_session(step);
        check_tree(step);
    }
    must_be("the tree from after all steps", is_told || step < STEPS || tree_sum(&fs, 0) == sums[STEPS]);
    must("unmount", lfs_flash_unmount(&fs));
    must_be("no memory in use", heap_counts.now == 0);
    return is_told || step < STEPS;
}

static uint32_t fail_flash(void) {
    uint32_t told = 0;
    error = -LFS_FLASH_IO;
    for (uint32_t at = 1; at <= flash_total; at += EVERY, told++) {
        flash_calls = 0, flash_fails_at = at;
        must_be("each failure is told", tells_failure());
    }
    return told;
}

/* A refusal of the heap that no call tells has changed nothing. */
static uint32_t fail_heap(void) {
    uint32_t told = 0;
    error = -LFS_FLASH_NO_MEMORY;
    for (uint32_t at = 1; at <= heap_total; at += EVERY) {
        heap_counts.calls = 0, heap_fails_at = at;
        if (tells_failure()) told++;
        else unnoticed++;
    }
    return told;
}

int main(void) {
    note_sums();
    count_calls();
    uint32_t failed = fail_flash(), refused = fail_heap();
    print_number(failed, 0);
    board_write(" failures of the flash and ");
    print_number(refused, 0);
    board_write(" of the heap, each told and mended by a mount; ");
    print_number(unnoticed, 0);
    board_write(" refusals of the heap changed nothing\n");
    return failed && refused ? 0 : 1;
}

/* Loses power at a program or erase of the work, and starts again. The host's file orders.txt says which run it is:
 *   all        the work, and the tree's checksum after each of its changes
 *   stop N     the work, until power is lost at its program or erase number N
 *   start      the flash as it was left: mounts, shows the tree, makes a file, and shows that a mount finds it
 * The flash is kept in the host's file flash.img. */
#include <stdlib.h>
#include <string.h>

#include "fs.h"
#include "littlefs_flash.h"
#include "print.h"
#include "tree.h"
#include "work.h"

extern lfs_flash fs;
/* A second session, that only reads what is on the flash between two calls of the first: it may read files that are being written. */
static lfs_flash reader = LFS_FLASH(1, BLOCK, PAGE, BLOCKS);
static const lfs_flash_config config = LFS_FLASH_CONFIG;
static uint32_t changes;
static uint8_t contents[16];

static void nothing(void) {}
static void nothing_after(const char *name) { (void)name; }

static void show_tree(lfs_flash *from, int is_printed) {
    uint32_t sum = tree_sum(from, is_printed);
    board_write("tree ");
    print_hex(sum, 8);
    board_write("\n");
}

static void show_change(void) {
    changes++;
    must("mount", lfs_flash_mount(&reader, &config));
    show_tree(&reader, 0);
    must("unmount", lfs_flash_unmount(&reader));
}

static void count_change(void) { changes++; }

static void stop(void) {
    board_write("stopped after ");
    print_number(changes, 0);
    board_write("\n");
    board_save("flash.img", flash, sizeof flash);
    board_exit(0);
}

static void start_again(void) {
    must_be("the flash is kept", board_load("flash.img", flash, sizeof flash) == sizeof flash);
    int answer = fs_mount();
    if (answer == -LFS_FLASH_CORRUPT) {
        board_write("no file system\n");
        must("format", fs_format());
        answer = fs_mount();
    }
    must("mount", answer);
    show_tree(&fs, 1);
    must("put", fs_put("/after", "power is back", 13));
    must("unmount", fs_unmount());
    must("mount", fs_mount());
    must_be("the new file", fs_get("/after", contents, sizeof contents) == 13 && !memcmp(contents, "power is back", 13));
    show_tree(&fs, 1);
    must("unmount", fs_unmount());
    board_save("flash.img", flash, sizeof flash);
}

int main(void) {
    char orders[32] = "";
    board_load("orders.txt", orders, sizeof orders - 1);
    part_begins = nothing, part_ends = nothing_after;
    memset(flash, 0xff, sizeof flash);
    if (!strcmp(orders, "start")) return start_again(), 0;
    fs_changed = strcmp(orders, "all") ? count_change : show_change;
    flash_stops = stop;
    flash_stops_at = strncmp(orders, "stop ", 5) ? 0 : (uint32_t)strtoul(orders + 5, NULL, 10);
    perform_work();
    board_write("writes ");
    print_number(flash_writes, 0);
    board_write("\n");
    return 0;
}

/* Keeps a file system on a flash of C's own, which is the file FILE here: each change of a volume is made there too.
 *
 * It also loses the power of that flash in each change, before it and halfway, and mounts what is left then. That has the tree from
 * before the call, or the one from after it. */
#include <inttypes.h>
#include <stdio.h>
#include <stdlib.h>
#include <string.h>

#include "littlefs_c.h"

#define PATH(text) (const uint8_t *)(text), sizeof(text) - 1

enum { BLOCK = 4096, PAGE = 256, BLOCKS = 32, CHANGES = 1000 };

static const lfs_c_config config = LFS_C_CONFIG(BLOCK, PAGE);
static lfs_c_volume fs = LFS_C_CLOSED;
static FILE *flash;
static uint64_t next; /* the number of the next change that the flash is to have */

/* what the flash has, and the changes of the last call with their bytes */
static uint8_t image[BLOCKS * BLOCK], bytes[CHANGES][BLOCK];
static lfs_c_change changes[CHANGES];

static void must(const char *what, int is_so) {
    if (!is_so) fprintf(stderr, "%s\n", what), exit(1);
}

/* Makes a change in the image of a flash, or only half of it. */
static void make_change(uint8_t *all, int number, int is_half) {
    const lfs_c_change *change = &changes[number];
    uint8_t *block = all + (size_t)change->block * BLOCK;
    if (change->kind == LFS_C_ERASE) memset(block, 0xff, is_half ? BLOCK / 2 : BLOCK);
    else memcpy(block + change->offset, bytes[number], is_half ? change->len / 2 : change->len);
}

/* Makes a change on the flash: the program or the erase of real flash stands here. */
static void make_change_on_flash(int number) {
    const lfs_c_change *change = &changes[number];
    int is_erase = change->kind == LFS_C_ERASE;
    size_t len = is_erase ? BLOCK : change->len;
    if (is_erase) memset(bytes[number], 0xff, BLOCK);
    fseek(flash, (long)change->block * BLOCK + change->offset, SEEK_SET);
    must("the flash failed", fwrite(bytes[number], 1, len, flash) == len && !fflush(flash));
}

/* Writes what an image has to a buffer, and returns how many bytes that is: the lines of its directories, and a file. */
static size_t shown(const uint8_t *all, uint8_t *buffer, size_t size) {
    lfs_c_volume old = LFS_C_CLOSED;
    must("no mount", !lfs_c_mount(&old, &config, all, BLOCKS * BLOCK));
    size_t len = lfs_c_list_at(&old, PATH("/"), buffer, size);
    int64_t answer = lfs_c_list_at(&old, PATH("/log"), buffer + len, size - len);
    if (answer > 0) len += answer;
    int64_t file = lfs_c_open(&old, PATH("/log/today"), LFS_C_READ);
    if (file >= 0) len += lfs_c_file_read(&old, file, buffer + len, size - len);
    lfs_c_unmount(&old);
    return len;
}

/* Loses the power in each of the last changes, and mounts what is left. */
static void lose_power(const char *what, int count) {
    static uint8_t left[sizeof image], before[20000], after[20000], now[20000];
    memcpy(left, image, sizeof image);
    for (int made = 0; made < count; made++) make_change(left, made, 0);
    size_t before_len = shown(image, before, sizeof before), after_len = shown(left, after, sizeof after);
    for (int stop = 0; stop < 2 * count; stop++) {
        memcpy(left, image, sizeof image);
        for (int made = 0; made < stop / 2; made++) make_change(left, made, 0);
        if (stop % 2) make_change(left, stop / 2, 1);
        size_t len = shown(left, now, sizeof now);
        must("another tree", (len == before_len && !memcmp(now, before, len)) || (len == after_len && !memcmp(now, after, len)));
    }
    printf("%s: %d changes, and after %d losses of power the tree from before or after it\n", what, count, 2 * count);
}

/* Brings the changes of a call over to the flash. Returns what the call answered. */
static int64_t done(const char *what, int64_t answer) {
    static uint8_t is_now[sizeof image];
    int count = 0;
    must(what, answer >= 0);
    while (count < CHANGES && lfs_c_fetch_change(&fs, next, &changes[count], bytes[count], BLOCK) == 1) {
        make_change_on_flash(count++);
        next++;
    }
    lose_power(what, count);
    for (int made = 0; made < count; made++) make_change(image, made, 0);
    must("no image", lfs_c_image(&fs, is_now, sizeof is_now) == sizeof is_now);
    must("a change is missing", !memcmp(image, is_now, sizeof image));
    return answer;
}

int main(int count, char **arguments) {
    static uint8_t text[10000], on_flash[sizeof image];
    if (count != 2) return puts("usage: flash FILE"), 1;
    must(arguments[1], (flash = fopen(arguments[1], "w+b")) != NULL);
    must("no file system", !lfs_c_mkfs(&fs, &config, BLOCKS));
    must("no image", lfs_c_image(&fs, image, sizeof image) == sizeof image);
    must("the flash failed", fwrite(image, 1, sizeof image, flash) == sizeof image);
    next = lfs_c_note_changes(&fs);

    memset(text, '.', sizeof text);
    done("mkdir", lfs_c_mkdir_at(&fs, PATH("/log")));
    uint32_t file = done("open", lfs_c_open(&fs, PATH("/log/new"), LFS_C_WRITE | LFS_C_CREATE));
    done("write", lfs_c_file_write(&fs, file, text, sizeof text));
    done("close", lfs_c_file_close(&fs, file));
    done("rename", lfs_c_rename_at(&fs, PATH("/log/new"), PATH("/log/today")));
    file = done("open", lfs_c_open(&fs, PATH("/log/today"), LFS_C_WRITE | LFS_C_APPEND));
    done("write", lfs_c_file_write(&fs, file, (const uint8_t *)"21.5 degrees\n", 13));
    done("close", lfs_c_file_close(&fs, file));
    done("setattr", lfs_c_set_attr_at(&fs, PATH("/log/today"), 1, (const uint8_t *)"time", 4));
    done("remove", lfs_c_remove_at(&fs, PATH("/log/today")));
    lfs_c_unmount(&fs);

    rewind(flash);
    must("the flash isn't the image", fread(on_flash, 1, sizeof on_flash, flash) == sizeof on_flash && !memcmp(image, on_flash, sizeof image));
    return fclose(flash);
}

/* Volumes and random calls, also refused ones, and files and directories that are open at an unmount: for valgrind.
 *
 *   A="$(make -s -C bindings/c archives | sed 's#\.\./\.\./##')"
 *   gcc -g -Ibindings/c bench/leaks.c $A -o leaks && valgrind --leak-check=full --error-exitcode=1 ./leaks */
#include "littlefs_c.h"
#include <stdio.h>
#include <string.h>

enum { BLOCK = 4096, COUNT = 64, CALLS = 300, FILES = 40 };

static uint8_t text[70000], piece[5000], image[COUNT * BLOCK];
static lfs_c_volume fs = LFS_C_CLOSED;
static uint32_t seed = 1;

static uint32_t below(uint32_t most) {
    seed = seed * 1103515245u + 12345u;
    return (seed >> 8) % most;
}

static void open_file(const uint8_t *path, size_t len) {
    static const uint32_t flags[] = { LFS_C_READ, LFS_C_WRITE, LFS_C_READ | LFS_C_WRITE, LFS_C_READ | LFS_C_WRITE | LFS_C_CREATE, LFS_C_WRITE | LFS_C_CREATE | LFS_C_TRUNCATE,
                                      LFS_C_READ | LFS_C_WRITE | LFS_C_CREATE | LFS_C_APPEND, LFS_C_WRITE | LFS_C_CREATE | LFS_C_EXCLUSIVE, LFS_C_READ | LFS_C_CREATE };
    lfs_c_open(&fs, path, len, flags[below(8)]);
}

static void use_a_file(void) {
    uint32_t file = below(FILES);
    lfs_c_file_write(&fs, file, text, below(4) ? below(3000) : below(sizeof text));
    lfs_c_file_read(&fs, file, piece, sizeof piece);
    lfs_c_file_seek(&fs, file, below(9000));
    if (!below(3)) lfs_c_file_truncate(&fs, file, below(9000));
    if (!below(3)) lfs_c_file_sync(&fs, file);
    lfs_c_file_tell(&fs, file), lfs_c_file_size(&fs, file);
    if (below(3)) lfs_c_file_close(&fs, file);
}

static void use_a_directory(const uint8_t *path, size_t len) {
    lfs_c_entry entry;
    int64_t dir = below(2) ? lfs_c_dir_open(&fs, path, len) : (int64_t)below(5);
    if (dir < 0) return;
    while (below(5) && lfs_c_dir_read(&fs, (uint32_t)dir, &entry, piece, below(256)) == 1) {}
    lfs_c_dir_tell(&fs, (uint32_t)dir), lfs_c_dir_seek(&fs, (uint32_t)dir, below(6));
    if (!below(3)) lfs_c_dir_rewind(&fs, (uint32_t)dir);
    if (below(4)) lfs_c_dir_close(&fs, (uint32_t)dir);
}

static void ask(void) {
    lfs_c_fsinfo info;
    lfs_c_breach breach;
    lfs_c_superblock(&fs, &info), lfs_c_read_only_reason(&fs, &breach);
    lfs_c_is_writable(&fs), lfs_c_used_blocks(&fs), lfs_c_is_used(&fs, below(COUNT + 1)), lfs_c_recover(&fs);
    if (!below(20)) lfs_c_remount(&fs);
}

static void call(void) {
    char name[40];
    uint32_t number = below(12);
    snprintf(name, sizeof name, "/d%u/f%u", number % 3, number);
    const uint8_t *path = (const uint8_t *)name, *other = (const uint8_t *)"/d1/new";
    size_t len = strlen(name);
    switch (below(16)) {
    case 0: lfs_c_stat_at(&fs, path, len); break;
    case 1: lfs_c_remove_at(&fs, path, len); break;
    case 2: lfs_c_set_attr_at(&fs, path, len, number, text, below(1100)); break;
    case 3: lfs_c_get_attr_at(&fs, path, len, number, piece, below(100)); break;
    case 4: lfs_c_list_at(&fs, path, 3, piece, below(sizeof piece)); break;
    case 5: lfs_c_rename_at(&fs, path, len, other, 7); break;
    case 6: lfs_c_mkdir_at(&fs, path, 3); break;
    case 7: lfs_c_remove_attr_at(&fs, path, len, number); break;
    case 8: ask(); break;
    case 9: use_a_directory(path, 3); break;
    case 10: case 11: case 12: open_file(path, len); break;
    default: use_a_file();
    }
}

static void fetch_changes(uint64_t next) {
    static uint8_t bytes[BLOCK];
    lfs_c_change change;
    while (lfs_c_fetch_change(&fs, next, &change, bytes, below(2) * sizeof bytes) == 1) next++;
}

int main(void) {
    lfs_c_config config = LFS_C_CONFIG(BLOCK, 256);
    for (int round = 0; round < 16; round++) {
        if (round % 2) lfs_c_mount(&fs, &config, image, sizeof image);
        else lfs_c_mkfs(&fs, &config, COUNT);
        int64_t next = lfs_c_note_changes(&fs);
        for (int number = 0; number < CALLS; number++) call();
        if (round % 4) fetch_changes((uint64_t)next);
        lfs_c_image(&fs, image, sizeof image);
        lfs_c_unmount(&fs);
        if (round % 4 == 3) image[below(sizeof image)] ^= 1;
    }
    return lfs_c_mount(&fs, &config, image, BLOCK) != -LFS_C_INVALID && lfs_c_mount(&fs, &config, image, BLOCK) != -LFS_C_CORRUPT;
}

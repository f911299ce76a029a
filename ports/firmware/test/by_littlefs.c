/* The calls of the work by littlefs's own code. CACHE is the size of its caches; LFS_H is its header, lfs.h or, as MicroPython has it,
 * lfs2.h. */
#include <string.h>
#include LFS_H

#include "fs.h"

static int read(const struct lfs_config *c, lfs_block_t block, lfs_off_t off, void *bytes, lfs_size_t count) {
    (void)c;
    return flash_read(block, off, bytes, count) ? LFS_ERR_IO : 0;
}
static int prog(const struct lfs_config *c, lfs_block_t block, lfs_off_t off, const void *bytes, lfs_size_t count) {
    (void)c;
    return flash_program(block, off, bytes, count) ? LFS_ERR_IO : 0;
}
static int erase(const struct lfs_config *c, lfs_block_t block) {
    (void)c;
    return flash_erase(block) ? LFS_ERR_IO : 0;
}
static int sync(const struct lfs_config *c) {
    (void)c;
    return 0;
}

static const struct lfs_config config = {
    .read = read, .prog = prog, .erase = erase, .sync = sync,
    .read_size = PAGE, .prog_size = PAGE, .block_size = BLOCK, .block_count = BLOCKS,
    .block_cycles = -1, .cache_size = CACHE, .lookahead_size = 8,
#ifdef LFS_MULTIVERSION
    .disk_version = 0x00020000,
#endif
};
static lfs_t fs;
static lfs_file_t log_file;

int fs_format(void) { return lfs_format(&fs, &config); }
int fs_mount(void) { return lfs_mount(&fs, &config); }
int fs_unmount(void) { return lfs_unmount(&fs); }

int fs_put(const char *path, const void *bytes, uint32_t count) {
    lfs_file_t file;
    int answer = lfs_file_open(&fs, &file, path, LFS_O_WRONLY | LFS_O_CREAT | LFS_O_TRUNC);
    if (answer < 0) return answer;
    answer = lfs_file_write(&fs, &file, bytes, count);
    int closed = lfs_file_close(&fs, &file);
    return answer < 0 ? answer : closed;
}

int fs_get(const char *path, void *bytes, uint32_t room) {
    lfs_file_t file;
    int answer = lfs_file_open(&fs, &file, path, LFS_O_RDONLY);
    if (answer < 0) return answer;
    answer = lfs_file_read(&fs, &file, bytes, room);
    lfs_file_close(&fs, &file);
    return answer;
}

int fs_log_open(const char *path) { return lfs_file_open(&fs, &log_file, path, LFS_O_WRONLY | LFS_O_CREAT | LFS_O_APPEND); }
int fs_log_line(const void *bytes, uint32_t count) {
    int answer = lfs_file_write(&fs, &log_file, bytes, count);
    return answer < 0 ? answer : lfs_file_sync(&fs, &log_file);
}
int fs_log_close(void) { return lfs_file_close(&fs, &log_file); }

int fs_list(const char *path) {
    lfs_dir_t dir;
    struct lfs_info info;
    int count = 0, answer = lfs_dir_open(&fs, &dir, path);
    if (answer < 0) return answer;
    while ((answer = lfs_dir_read(&fs, &dir, &info)) > 0) count += info.name[0] != '.';
    lfs_dir_close(&fs, &dir);
    return answer < 0 ? answer : count;
}
int fs_remove(const char *path) { return lfs_remove(&fs, path); }
int fs_rename(const char *from, const char *to) { return lfs_rename(&fs, from, to); }
int fs_make(const char *path) { return lfs_mkdir(&fs, path); }

/* The calls of the work by the proved library. */
#include <string.h>

#include "fs.h"
#include "littlefs_flash.h"

#define PATH(path) (const uint8_t *)(path), strlen(path)

static const lfs_flash_config config = LFS_FLASH_CONFIG;
lfs_flash fs = LFS_FLASH(0, BLOCK, PAGE, BLOCKS);
void (*fs_changed)(void);
static uint32_t log_file;

static int told(int64_t answer) {
    if (fs_changed) fs_changed();
    return (int)answer;
}

int fs_format(void) { return told(lfs_flash_format(&fs, &config)); }
int fs_mount(void) { return (int)lfs_flash_mount(&fs, &config); }
int fs_unmount(void) { return (int)lfs_flash_unmount(&fs); }

int fs_put(const char *path, const void *bytes, uint32_t count) {
    int file = told(lfs_flash_file_open(&fs, PATH(path), LFS_FLASH_WRITE | LFS_FLASH_CREATE | LFS_FLASH_TRUNCATE));
    if (file < 0) return file;
    int answer = (int)lfs_flash_file_write(&fs, (uint32_t)file, bytes, count);
    int closed = told(lfs_flash_file_close(&fs, (uint32_t)file));
    return answer < 0 ? answer : closed;
}

int fs_get(const char *path, void *bytes, uint32_t room) {
    int64_t file = lfs_flash_file_open(&fs, PATH(path), LFS_FLASH_READ);
    if (file < 0) return (int)file;
    int64_t answer = lfs_flash_file_read(&fs, (uint32_t)file, bytes, room);
    lfs_flash_file_close(&fs, (uint32_t)file);
    return (int)answer;
}

int fs_log_open(const char *path) {
    int answer = told(lfs_flash_file_open(&fs, PATH(path), LFS_FLASH_WRITE | LFS_FLASH_CREATE | LFS_FLASH_APPEND));
    log_file = (uint32_t)answer;
    return answer;
}
int fs_log_line(const void *bytes, uint32_t count) {
    int answer = (int)lfs_flash_file_write(&fs, log_file, bytes, count);
    return answer < 0 ? answer : told(lfs_flash_file_sync(&fs, log_file));
}
int fs_log_close(void) { return told(lfs_flash_file_close(&fs, log_file)); }

int fs_list(const char *path) {
    static uint8_t lines[1024];
    int count = 0, len = (int)lfs_flash_list(&fs, PATH(path), lines, sizeof lines);
    if (len < 0 || len > (int)sizeof lines) return -1;
    for (int at = 0; at < len; at++) count += lines[at] == '\n';
    return count;
}
int fs_remove(const char *path) { return told(lfs_flash_remove(&fs, PATH(path))); }
int fs_rename(const char *from, const char *to) { return told(lfs_flash_rename(&fs, PATH(from), PATH(to))); }
int fs_make(const char *path) { return told(lfs_flash_mkdir(&fs, PATH(path))); }

/* An application: it keeps its settings in a file, counts its boots in another, and writes a line to a log at each boot. */
#include <stdio.h>
#include <string.h>

#include "board/board.h"
#include "littlefs_flash.h"

#define PATH(path) (const uint8_t *)(path), strlen(path)

static lfs_flash fs = LFS_FLASH(0, 4096, 256, 64); /* 256 kB */
static const lfs_flash_config config = LFS_FLASH_CONFIG;

typedef struct {
    uint32_t version, interval; /* seconds between two measurements */
} settings;

/* Mounts the flash. One that holds no file system gets an empty one; a product with a way to repair a damaged one asks first. */
static int64_t start(void) {
    int64_t answer = lfs_flash_mount(&fs, &config);
    if (answer != -LFS_FLASH_CORRUPT) return answer;
    answer = lfs_flash_format(&fs, &config);
    return answer ? answer : lfs_flash_mount(&fs, &config);
}

/* Reads up to so many bytes of a file, and returns how many it has read. */
static int64_t get(const char *path, void *bytes, size_t count) {
    int64_t file = lfs_flash_file_open(&fs, PATH(path), LFS_FLASH_READ);
    if (file < 0) return file;
    int64_t answer = lfs_flash_file_read(&fs, (uint32_t)file, bytes, count);
    int64_t closed = lfs_flash_file_close(&fs, (uint32_t)file);
    return closed < 0 ? closed : answer;
}

/* Writes bytes to a file, in place of its contents or behind them. Power lost on the way leaves the file as it was. */
static int64_t put(const char *path, uint32_t how, const void *bytes, size_t count) {
    int64_t file = lfs_flash_file_open(&fs, PATH(path), LFS_FLASH_WRITE | LFS_FLASH_CREATE | how);
    if (file < 0) return file;
    int64_t answer = lfs_flash_file_write(&fs, (uint32_t)file, bytes, count);
    int64_t closed = lfs_flash_file_close(&fs, (uint32_t)file);
    return answer < 0 ? answer : closed;
}

static int64_t run(void) {
    settings now = { 1, 60 };
    uint32_t boots = 0;
    char line[80];
    int64_t answer = start();
    if (answer) return answer;
    if (get("/settings", &now, sizeof now) != sizeof now) {
        answer = put("/settings", LFS_FLASH_TRUNCATE, &now, sizeof now);
        if (answer < 0) return answer;
    }
    get("/boots", &boots, sizeof boots);
    boots++;
    answer = put("/boots", LFS_FLASH_TRUNCATE, &boots, sizeof boots);
    if (answer < 0) return answer;
    int len = snprintf(line, sizeof line, "boot %u, a measurement each %u seconds\n", (unsigned)boots, (unsigned)now.interval);
    answer = put("/log", LFS_FLASH_APPEND, line, (size_t)len);
    if (answer < 0) return answer;
    board_write(line);
    return lfs_flash_unmount(&fs);
}

int main(void) {
    int64_t answer = run();
    if (answer < 0) board_write("the file system failed\n");
    return answer < 0;
}

/* The same calls by a volume, and by littlefs's own code (with HEADER): prints the seconds of each row, for bindings.py.
 *
 *   bindings SIZE COUNT     an image of SIZE bytes, and COUNT small writes, stats and files */
#include <stdint.h>
#include <stdio.h>
#include <stdlib.h>
#include <string.h>
#include <time.h>

enum { BLOCK = 4096, PAGE = 256, PIECE = 4096, LONG = 1 << 20 };

static uint8_t *image, piece[PIECE], text[LONG];
static uint32_t image_size;

static int64_t done(int64_t answer) {
    if (answer >= 0) return answer;
    fprintf(stderr, "error %lld\n", (long long)-answer);
    exit(1);
}

#if defined(HEADER)
#include HEADER

static lfs_t fs;
static struct lfs_config config;

static int read_device(const struct lfs_config *c, lfs_block_t block, lfs_off_t off, void *buffer, lfs_size_t size) {
    return (void)c, memcpy(buffer, image + (size_t)block * BLOCK + off, size), 0;
}
static int program_device(const struct lfs_config *c, lfs_block_t block, lfs_off_t off, const void *buffer, lfs_size_t size) {
    return (void)c, memcpy(image + (size_t)block * BLOCK + off, buffer, size), 0;
}
static int erase_device(const struct lfs_config *c, lfs_block_t block) { return (void)c, memset(image + (size_t)block * BLOCK, 0xff, BLOCK), 0; }
static int sync_device(const struct lfs_config *c) { return (void)c, 0; }

static void begin(void) {
    config = (struct lfs_config){.read = read_device, .prog = program_device, .erase = erase_device, .sync = sync_device, .read_size = PAGE, .prog_size = PAGE,
                                 .block_size = BLOCK, .block_count = image_size / BLOCK, .block_cycles = 500, .cache_size = PAGE, .lookahead_size = 64};
    done(lfs_format(&fs, &config));
    done(lfs_mount(&fs, &config));
}
static void put(const char *path, const void *bytes, uint32_t size) {
    lfs_file_t file;
    done(lfs_file_open(&fs, &file, path, LFS_O_WRONLY | LFS_O_CREAT | LFS_O_TRUNC));
    done(lfs_file_write(&fs, &file, bytes, size));
    done(lfs_file_close(&fs, &file));
}
static void stat_file(const char *path) {
    struct lfs_info info;
    done(lfs_stat(&fs, path, &info));
}
static void read_file(const char *path) {
    lfs_file_t file;
    done(lfs_file_open(&fs, &file, path, LFS_O_RDONLY));
    while (done(lfs_file_read(&fs, &file, piece, PIECE))) {}
    done(lfs_file_close(&fs, &file));
}
static void make_directory(const char *path) { done(lfs_mkdir(&fs, path)); }
#else
#include "littlefs_c.h"
#define BYTES(words) (const uint8_t *)(words), strlen(words)

static lfs_c_volume fs = LFS_C_CLOSED;

static void begin(void) {
    lfs_c_config config = LFS_C_CONFIG(BLOCK, PAGE);
    done(lfs_c_mkfs(&fs, &config, image_size / BLOCK));
}
static void put(const char *path, const void *bytes, uint32_t size) {
    uint32_t file = done(lfs_c_open(&fs, BYTES(path), LFS_C_WRITE | LFS_C_CREATE | LFS_C_TRUNCATE));
    done(lfs_c_file_write(&fs, file, bytes, size));
    done(lfs_c_file_close(&fs, file));
}
static void stat_file(const char *path) { done(lfs_c_stat_at(&fs, BYTES(path))); }
static void read_file(const char *path) {
    uint32_t file = done(lfs_c_open(&fs, BYTES(path), LFS_C_READ));
    while (done(lfs_c_file_read(&fs, file, piece, PIECE))) {}
    done(lfs_c_file_close(&fs, file));
}
static void make_directory(const char *path) { done(lfs_c_mkdir_at(&fs, BYTES(path))); }
#endif

static double last;

static void row(const char *name) {
    struct timespec now;
    clock_gettime(CLOCK_MONOTONIC, &now);
    double seconds = now.tv_sec + now.tv_nsec / 1e9;
    if (name) printf("%s %.6f\n", name, seconds - last);
    last = seconds;
}

int main(int words, char **word) {
    char path[40];
    if (words != 3) return 1;
    image_size = strtoul(word[1], NULL, 10);
    unsigned count = strtoul(word[2], NULL, 10);
    image = malloc(image_size);
    memset(image, 0xff, image_size);
    memset(text, 7, LONG);
    begin();
    put("/small", text, 100);
    row(NULL);
    for (unsigned i = 0; i < count; i++) {
        text[0] = i;
        put("/small", text, 100);
    }
    row("writes");
    for (unsigned i = 0; i < count; i++) stat_file("/small");
    row("stats");
    put("/long", text, LONG);
    row(NULL);
    read_file("/long");
    row("read");
    for (int i = 0; i < 10; i++) read_file("/long");
    row("rereads");
    make_directory("/d");
    row(NULL);
    for (unsigned i = 0; i < count; i++) {
        snprintf(path, sizeof path, "/d/file%05u", i);
        put(path, text, 10);
    }
    row("files");
    return 0;
}

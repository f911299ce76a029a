/* Counts its runs in a file system that lies in the file disk.img. */
#include <stdio.h>
#include "lfs.h"

enum { BLOCK = 4096, BLOCKS = 64 };
static FILE *disk;
static int read_disk(const struct lfs_config *c, lfs_block_t block, lfs_off_t off, void *buffer, lfs_size_t size) {
    fseek(disk, (long)(block * c->block_size + off), SEEK_SET);
    return fread(buffer, 1, size, disk) == size ? 0 : LFS_ERR_IO;
}
static int prog_disk(const struct lfs_config *c, lfs_block_t block, lfs_off_t off, const void *buffer, lfs_size_t size) {
    fseek(disk, (long)(block * c->block_size + off), SEEK_SET);
    return fwrite(buffer, 1, size, disk) == size ? 0 : LFS_ERR_IO;
}
static int erase_disk(const struct lfs_config *c, lfs_block_t block) {
    static uint8_t blank[BLOCK];
    memset(blank, 0xff, BLOCK);
    return prog_disk(c, block, 0, blank, BLOCK);
}
static int sync_disk(const struct lfs_config *c) { return (void)c, fflush(disk) ? LFS_ERR_IO : 0; }

static const struct lfs_config config = {
    .read = read_disk, .prog = prog_disk, .erase = erase_disk, .sync = sync_disk, .read_size = 16, .prog_size = 16, .block_size = BLOCK,
    .block_count = BLOCKS, .block_cycles = 500, .cache_size = 64, .lookahead_size = 16,
};

int main(void) {
    lfs_t lfs;
    lfs_file_t file;
    uint32_t count = 0;
    if (!(disk = fopen("disk.img", "r+b")) && !(disk = fopen("disk.img", "w+b"))) return 1;
    for (lfs_block_t block = 0; block < BLOCKS && !fseek(disk, 0, SEEK_END) && ftell(disk) < BLOCK * BLOCKS; block++) erase_disk(&config, block);
    if (lfs_mount(&lfs, &config) && (lfs_format(&lfs, &config) || lfs_mount(&lfs, &config))) return 1;
    if (lfs_file_open(&lfs, &file, "runs", LFS_O_RDWR | LFS_O_CREAT)) return 1;
    lfs_file_read(&lfs, &file, &count, sizeof count);
    printf("run %u\n", (unsigned)++count);
    lfs_file_rewind(&lfs, &file);
    lfs_file_write(&lfs, &file, &count, sizeof count);
    return lfs_file_close(&lfs, &file) || lfs_unmount(&lfs) || fclose(disk);
}

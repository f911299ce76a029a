#include "tree.h"

#include <string.h>

#include "print.h"

#define PATH(text) (const uint8_t *)(text), strlen(text)

enum { LEVELS = 16 }; /* of directories */

typedef struct {
    lfs_flash *fs;
    uint32_t sum;
    int is_printed;
} tree;

static char dir_paths[LEVELS][300], entry_path[600];
static uint8_t lines[LEVELS][2000], contents[4096];

/* littlefs's checksum, as its own code prints it on the host. */
static uint32_t checksum(uint32_t sum, const uint8_t *bytes, size_t count) {
    for (size_t at = 0; at < count; at++) {
        sum ^= bytes[at];
        for (int bit = 0; bit < 8; bit++) sum = sum >> 1 ^ (sum & 1 ? 0xedb88320 : 0);
    }
    return sum;
}

static void see_attribute(tree *seen) {
    int64_t len = lfs_flash_get_attr(seen->fs, PATH(entry_path), ATTRIBUTE, contents, sizeof contents);
    if (len != -LFS_FLASH_NO_ATTR) must("an attribute", len), seen->sum = checksum(seen->sum, contents, (size_t)len);
}

static void see_file(tree *seen) {
    int64_t file = lfs_flash_file_open(seen->fs, PATH(entry_path), LFS_FLASH_READ), count;
    uint32_t words[2] = { 0, 0xffffffff };
    must("a file", file);
    while ((count = lfs_flash_file_read(seen->fs, (uint32_t)file, contents, sizeof contents)) > 0) {
        words[0] += (uint32_t)count;
        words[1] = checksum(words[1], contents, (size_t)count);
    }
    must("a file's bytes", count);
    must("a close", lfs_flash_file_close(seen->fs, (uint32_t)file));
    seen->sum = checksum(checksum(seen->sum, PATH(entry_path)), (uint8_t *)words, sizeof words);
    if (!seen->is_printed) return;
    board_write("f ");
    print_number(words[0], 0);
    board_write(" ");
    print_hex(words[1], 8);
    board_write(" ");
    board_write(entry_path);
    board_write("\n");
}

/* Keeps the path of an entry by its directory's path and its name. */
static void keep_path(const char *path, const uint8_t *name, size_t name_len) {
    size_t len = strlen(path);
    memcpy(entry_path, path, len);
    if (len > 1) entry_path[len++] = '/';
    memcpy(entry_path + len, name, name_len);
    entry_path[len + name_len] = 0;
}

static void see_directory(tree *seen, const char *path, int depth) {
    int64_t len = lfs_flash_list(seen->fs, PATH(path), lines[depth], sizeof lines[depth]);
    must_be("a list", len >= 0 && len <= (int64_t)sizeof lines[depth]);
    for (uint8_t *at = lines[depth]; at < lines[depth] + len;) {
        uint8_t *name = (uint8_t *)strchr(strchr((char *)at, ' ') + 1, ' ') + 1, *end = memchr(name, '\n', 300);
        keep_path(path, name, (size_t)(end - name));
        if (*at == 'f') see_file(seen), see_attribute(seen);
        else {
            seen->sum = checksum(seen->sum, PATH(entry_path));
            see_attribute(seen);
            if (seen->is_printed) board_write("d "), board_write(entry_path), board_write("\n");
            must_be("few levels", depth + 1 < LEVELS && strlen(entry_path) < sizeof dir_paths[0]);
            strcpy(dir_paths[depth], entry_path);
            see_directory(seen, dir_paths[depth], depth + 1);
        }
        at = end + 1;
    }
}

uint32_t tree_sum(lfs_flash *fs, int is_printed) {
    tree seen = { fs, 0, is_printed };
    see_directory(&seen, "/", 0);
    return seen.sum;
}

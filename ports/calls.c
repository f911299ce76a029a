/* Makes the calls of a list, and prints what each answers: calls LIST [times]
 *
 * ports/test.py makes lists, and bindings/js/test/calls.mjs makes the same calls in Node. A line is WHAT PATH OTHER NUMBERS, with paths in
 * hexadecimal, and - for none. Its answer is printed with the sum of what was put into the buffer. `image` begins an image: of a file,
 * an empty one of so many blocks, or that of the last `bytes`. With `times` only the lines `time` print something: the milliseconds
 * since the one before. */
#include <stdio.h>
#include <stdlib.h>
#include <string.h>
#include <time.h>

#include "littlefs_c.h"

enum { MOST = 1 << 23, ROOM = 1 << 20, LONGEST = 1 << 13, FROM = 7 };
typedef struct { uint8_t *bytes; size_t len; } path;
typedef struct { char what[20]; path path, other; uint32_t kind, size, versions, order, blocks; } call;

static lfs_c_volume fs = LFS_C_CLOSED;
static uint8_t image[MOST], buffer[ROOM], data[ROOM];
static size_t image_size;

static uint32_t sum_of(const uint8_t *bytes, int64_t size) {
    uint32_t sum = 0x811c9dc5;
    for (int64_t at = 0; at < size; at++) sum = (sum ^ bytes[at]) * 0x01000193;
    return sum;
}

/* Begins an image whose blocks and pages have `kind` and `size` bytes. */
static int64_t begin(const call *it) {
    lfs_c_config config = LFS_C_CONFIG(it->kind, it->size);
    config.order = it->order, config.versions = it->versions;
    lfs_c_unmount(&fs);
    if (it->blocks) return lfs_c_mkfs(&fs, &config, it->blocks);
    FILE *file = it->path.len ? fopen((const char *)it->path.bytes, "rb") : NULL;
    if (file) image_size = fread(image, 1, MOST, file), fclose(file);
    return lfs_c_mount(&fs, &config, image, image_size);
}

/* Writes a file as littlefs.js does: a refusal leaves the tree as it was. */
static int64_t put(const path *at, size_t size, uint32_t flags) {
    int is_new = lfs_c_stat_at(&fs, at->bytes, at->len) < 0;
    int64_t file = lfs_c_open(&fs, at->bytes, at->len, LFS_C_WRITE | LFS_C_CREATE | flags);
    if (file < 0) return file;
    int64_t answer = lfs_c_file_write(&fs, (uint32_t)file, data, size);
    if (answer < 0) lfs_c_remount(&fs); /* a close would store the file as it was opened */
    else answer = lfs_c_file_close(&fs, (uint32_t)file);
    if (answer < 0 && is_new) lfs_c_remove_at(&fs, at->bytes, at->len);
    return answer < 0 ? answer : 0;
}

static int64_t get(const path *at, uint32_t from, size_t size) {
    int64_t file = lfs_c_open(&fs, at->bytes, at->len, LFS_C_READ);
    if (file < 0) return file;
    lfs_c_file_seek(&fs, (uint32_t)file, from);
    int64_t answer = lfs_c_file_read(&fs, (uint32_t)file, buffer, size);
    lfs_c_file_close(&fs, (uint32_t)file);
    return answer;
}

/* Makes a call. What it puts into the buffer has as many bytes as it answers, and else `is_put` is 0. */
static int64_t made(const call *it, int *is_put) {
    const char *what = it->what;
    const path *at = &it->path;
    *is_put = 0;
    if (!strcmp(what, "image")) return begin(it);
    if (!strcmp(what, "bytes")) return (int64_t)(image_size = (size_t)lfs_c_image(&fs, image, MOST));
    if (!strcmp(what, "write")) return put(at, it->size, LFS_C_TRUNCATE);
    if (!strcmp(what, "append")) return put(at, it->size, LFS_C_APPEND);
    if (!strcmp(what, "mkdir")) return lfs_c_mkdir_at(&fs, at->bytes, at->len);
    if (!strcmp(what, "remove")) return lfs_c_remove_at(&fs, at->bytes, at->len);
    if (!strcmp(what, "rename")) return lfs_c_rename_at(&fs, at->bytes, at->len, it->other.bytes, it->other.len);
    if (!strcmp(what, "setAttribute")) return lfs_c_set_attr_at(&fs, at->bytes, at->len, (uint8_t)it->kind, data, it->size);
    if (!strcmp(what, "removeAttribute")) return lfs_c_remove_attr_at(&fs, at->bytes, at->len, (uint8_t)it->kind);
    if (!strcmp(what, "usedBlocks")) return lfs_c_used_blocks(&fs);
    if (!strcmp(what, "recover")) return lfs_c_recover(&fs);
    *is_put = 1;
    if (!strcmp(what, "getAttribute")) return lfs_c_get_attr_at(&fs, at->bytes, at->len, (uint8_t)it->kind, buffer, ROOM);
    if (!strcmp(what, "list")) return lfs_c_list_at(&fs, at->bytes, at->len, buffer, ROOM);
    if (!strcmp(what, "read")) return get(at, FROM, it->size);
    fprintf(stderr, "no call is %s\n", what);
    exit(1);
}

static path path_of(const char *text) {
    path made = { calloc(strlen(text) / 2 + 1, 1), *text == '-' ? 0 : strlen(text) / 2 };
    for (size_t at = 0; at < made.len; at++) sscanf(text + 2 * at, "%2hhx", &made.bytes[at]);
    return made;
}

int main(int count, char **words) {
    static char at[LONGEST], other[LONGEST];
    FILE *list = fopen(words[1], "r");
    call *calls = NULL, it = { 0 };
    size_t all = 0;
    while (fscanf(list, "%19s %8191s %8191s %u %u %u %u %u", it.what, at, other, &it.kind, &it.size, &it.versions, &it.order, &it.blocks) == 8) {
        it.path = path_of(at), it.other = path_of(other);
        if (!(all & (all - 1))) calls = realloc(calls, 2 * (all + 1) * sizeof it);
        calls[all++] = it;
    }
    for (size_t n = 0; n < sizeof data; n++) data[n] = (uint8_t)(n * 7 >> 3);
    int is_put, has_times = count > 2;
    clock_t since = clock();
    for (size_t n = 0; n < all; n++) {
        if (has_times && !strcmp(calls[n].what, "time")) {
            printf("%.3f\n", (double)(clock() - since) * 1000 / CLOCKS_PER_SEC);
            since = clock();
            continue;
        }
        int64_t answer = made(&calls[n], &is_put);
        if (has_times) continue;
        int is_all = !strcmp(calls[n].what, "bytes");
        printf("%lld %08x\n", (long long)answer, sum_of(is_all ? image : buffer, is_put || is_all ? answer : 0));
    }
    return 0;
}

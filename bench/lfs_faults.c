// bindings/lfs with a device that fails, for drop_in.py: a fixed list of steps, in which each call of the device fails in turn.
//
// Built with -Wl,--wrap=malloc,--wrap=calloc,--wrap=realloc and -DLFS_THREADSAFE. Prints how many faults there were. Fails if one isn't
// handled as lfs.h says: the call returns the error of the device; nothing is written after it; all other calls return LFS_ERR_IO; a
// new mount finds the tree from before that call or from after it.
#include "lfs.h"
#include <stdio.h>
#include <stdlib.h>
#include <string.h>

enum { BLOCK = 1024, BLOCKS = 64, STEPS = 52, ERROR = -71 };

#define MUST(is_so) must(is_so, #is_so, __LINE__)

static uint8_t device[BLOCKS][BLOCK], before_fault[BLOCKS][BLOCK];

// the kind of call that fails, how much of it is done, and how many calls of that kind are left until then
static enum { NOTHING, READ, PROGRAM, ERASE, SYNC, LOCK, MEMORY } kind;
static enum { NOT_DONE, HALF_DONE, DONE, DONE_WRONG } extent;
static long left;
static int has_failed, step, locked;

static enum { BLANK, NOTHING_DONE, ZEROS, NOR } erases;

static void must(int is_so, const char *what, int line) {
    if (is_so) return;
    fprintf(stderr, "line %d: %s: kind %d, extent %d, step %d\n", line, what, kind, extent, step);
    exit(1);
}

static int fails(int which) {
    if (kind != (unsigned)which || !left || --left) return 0;
    has_failed = 1;
    memcpy(before_fault, device, sizeof device);
    return 1;
}

// ---- The device

static int read_device(const struct lfs_config *c, lfs_block_t block, lfs_off_t off, void *buffer, lfs_size_t size) {
    MUST(locked == 1 && block < BLOCKS && off % c->read_size == 0 && size % c->read_size == 0 && off + size <= BLOCK);
    if (fails(READ)) return ERROR;
    memcpy(buffer, &device[block][off], size);
    return 0;
}

static int program_device(const struct lfs_config *c, lfs_block_t block, lfs_off_t off, const void *buffer, lfs_size_t size) {
    MUST(locked == 1 && block < BLOCKS && off % c->prog_size == 0 && size % c->prog_size == 0 && off + size <= BLOCK);
    MUST(!has_failed || kind == READ || kind == MEMORY || kind == LOCK);
    for (lfs_size_t k = 0; k < size && erases == BLANK; k++) MUST(device[block][off + k] == 0xff); // as real flash wants it
    int now = fails(PROGRAM);
    lfs_size_t count = !now || extent == DONE || extent == DONE_WRONG ? size : extent == HALF_DONE ? size / 2 : 0;
    for (lfs_size_t k = 0; k < count; k++) device[block][off + k] = ((const uint8_t *)buffer)[k] & (erases == NOR ? device[block][off + k] : 0xff);
    if (now && extent == DONE_WRONG) device[block][off + size / 2] ^= 4;
    if (now) memcpy(before_fault, device, sizeof device);
    return now && extent != DONE_WRONG ? ERROR : 0;
}

static int erase_device(const struct lfs_config *c, lfs_block_t block) {
    (void)c;
    MUST(locked == 1 && block < BLOCKS && (!has_failed || kind == READ || kind == MEMORY || kind == LOCK));
    int now = fails(ERASE);
    lfs_size_t count = !now || extent == DONE ? BLOCK : extent == HALF_DONE ? BLOCK / 2 : 0;
    if (erases != NOTHING_DONE) memset(device[block], erases == BLANK ? 0xff : 0, count);
    if (now) memcpy(before_fault, device, sizeof device);
    return now ? ERROR : 0;
}

static int sync_device(const struct lfs_config *c) {
    (void)c;
    MUST(locked == 1);
    return fails(SYNC) ? ERROR : 0;
}

static int lock_device(const struct lfs_config *c) {
    (void)c;
    MUST(!locked);
    if (fails(LOCK)) return ERROR;
    locked = 1;
    return 0;
}

static int unlock_device(const struct lfs_config *c) {
    (void)c;
    MUST(locked == 1);
    locked = 0;
    return 0;
}

static struct lfs_config config = {
    .read = read_device, .prog = program_device, .erase = erase_device, .sync = sync_device, .lock = lock_device, .unlock = unlock_device,
    .read_size = 16, .prog_size = 16, .block_size = BLOCK, .block_count = BLOCKS, .block_cycles = -1, .cache_size = 64, .lookahead_size = 16,
};

// ---- Memory

void *__real_malloc(size_t size);
void *__real_calloc(size_t count, size_t size);
void *__real_realloc(void *at, size_t size);
void *__wrap_malloc(size_t size) { return fails(MEMORY) ? NULL : __real_malloc(size); }
void *__wrap_calloc(size_t count, size_t size) { return fails(MEMORY) ? NULL : __real_calloc(count, size); }
void *__wrap_realloc(void *at, size_t size) { return fails(MEMORY) ? NULL : __real_realloc(at, size); }

// ---- The steps

static lfs_t lfs;
static lfs_file_t one, other;
static uint8_t value[4], bytes[3000];
static struct lfs_attr attr = {1, value, sizeof value};
static const struct lfs_file_config with_attribute = {NULL, &attr, 1};

static int made(const char *path) {
    lfs_file_t file;
    int err = lfs_file_open(&lfs, &file, path, LFS_O_WRONLY | LFS_O_CREAT);
    int closed = err ? 0 : lfs_file_close(&lfs, &file);
    return err ? err : closed;
}

// Takes a step. Returns an error below 0.
static int take(int number) {
    char path[20];
    sprintf(path, "/n%02d", number % 20);
    switch (number) {
    case 0: return lfs_mkdir(&lfs, "/d");
    case 1: return lfs_file_opencfg(&lfs, &one, "/d/a", LFS_O_RDWR | LFS_O_CREAT, &with_attribute);
    case 2: return lfs_file_write(&lfs, &one, bytes, sizeof bytes);
    case 3: return lfs_file_open(&lfs, &other, "/b", LFS_O_WRONLY | LFS_O_CREAT);
    case 4: return lfs_file_write(&lfs, &other, bytes, 60);
    case 5: return lfs_file_sync(&lfs, &one);
    case 6: return lfs_rename(&lfs, "/d/a", "/c");
    case 7: return lfs_file_seek(&lfs, &one, 1000, LFS_SEEK_SET);
    case 8: return lfs_file_write(&lfs, &one, "here", 4);
    case 9: return lfs_file_close(&lfs, &other);
    case 10: return lfs_setattr(&lfs, "/b", 2, "set", 3);
    case 11: return lfs_file_close(&lfs, &one);
    case 12: return lfs_remove(&lfs, "/d");
    case 13: return lfs_removeattr(&lfs, "/b", 2);
    default: return number < 34 ? made(path) : lfs_remove(&lfs, path);
    }
}

static int is_read_only(int number) { return number == 2 || number == 4 || number == 7 || number == 8; }

// The checksum of all files, without the attribute of an open file, which is set after its contents.
static uint32_t tree(lfs_t *fs) {
    static const char *paths[] = {"/d", "/d/a", "/b", "/c"};
    uint32_t sum = 0xffffffff;
    uint8_t room[3000];
    char path[20];
    for (int k = 0; k < 24; k++) {
        struct lfs_info info = {0};
        lfs_file_t file;
        sprintf(path, "/n%02d", k - 4);
        int err = lfs_stat(fs, k < 4 ? paths[k] : path, &info);
        sum = lfs_crc(sum, &err, sizeof err);
        if (err || info.type != LFS_TYPE_REG) continue;
        MUST(!lfs_file_open(fs, &file, k < 4 ? paths[k] : path, LFS_O_RDONLY));
        int count = lfs_file_read(fs, &file, room, sizeof room);
        MUST(count == (int)info.size && !lfs_file_close(fs, &file));
        sum = lfs_crc(sum, room, (size_t)count);
        count = lfs_getattr(fs, k < 4 ? paths[k] : path, 2, room, sizeof room);
        sum = lfs_crc(sum, &count, sizeof count);
    }
    return sum;
}

static uint32_t found(void) {
    lfs_t fs;
    MUST(!lfs_mount(&fs, &config));
    uint32_t sum = tree(&fs);
    MUST(!lfs_unmount(&fs));
    return sum;
}

static uint32_t trees[STEPS + 1]; // before each step

static void begin(void) {
    memset(device, 0xa5, sizeof device);
    kind = NOTHING;
    has_failed = 0;
    MUST(!lfs_format(&lfs, &config) && !lfs_mount(&lfs, &config));
}

static void take_all(int also_notes) {
    begin();
    for (step = 0; step < STEPS; step++) {
        if (also_notes) trees[step] = found();
        MUST(take(step) >= 0);
    }
    MUST(!lfs_unmount(&lfs));
    if (also_notes) trees[STEPS] = found();
    MUST(trees[STEPS] == found());
}

// After an error of the device no call works.
static void look_at_end(void) {
    struct lfs_info info;
    lfs_dir_t dir;
    lfs_file_t file;
    MUST(lfs_stat(&lfs, "/b", &info) == LFS_ERR_IO && lfs_mkdir(&lfs, "/z") == LFS_ERR_IO && lfs_fs_size(&lfs) == LFS_ERR_IO);
    MUST(lfs_dir_open(&lfs, &dir, "/") == LFS_ERR_IO && lfs_file_open(&lfs, &file, "/b", LFS_O_RDONLY) == LFS_ERR_IO);
    int one_is_open = step > 1 && step <= 11, other_is_open = step > 3 && step <= 9;
    if (one_is_open && step != 11) MUST(lfs_file_close(&lfs, &one) == (step == 5 ? 0 : LFS_ERR_IO));
    if (other_is_open && step != 9) {
        MUST(lfs_file_write(&lfs, &other, "x", 1) == LFS_ERR_IO);
        MUST(lfs_file_close(&lfs, &other) == 0);
    }
    MUST(!memcmp(device, before_fault, sizeof device));
}

// Takes all steps with a fault. Returns whether the fault happened.
static int try_fault(int which, int how, long number) {
    begin();
    left = number;
    kind = (unsigned)which;
    extent = (unsigned)how;
    int answer = 0;
    for (step = 0; step < STEPS && !has_failed; step++) answer = take(step);
    step--;
    if (!has_failed) {
        kind = NOTHING;
        MUST(answer >= 0 && !lfs_unmount(&lfs));
        return 0;
    }
    if (which == MEMORY) MUST(answer == LFS_ERR_NOMEM || answer >= 0);
    else if (how == DONE_WRONG) MUST(answer == LFS_ERR_CORRUPT || (answer == LFS_ERR_IO && erases != BLANK)); // in a block that is made blank
    else MUST(answer == ERROR);
    if (which == PROGRAM || which == ERASE || which == SYNC) look_at_end();
    if (which == LOCK) MUST(take(step) >= 0);
    kind = NOTHING;
    MUST(!lfs_unmount(&lfs));
    uint32_t now = found();
    MUST(now == trees[step] || now == trees[step + 1]);
    if (is_read_only(step)) MUST(now == trees[step]);
    return 1;
}

static void try_faults(const char *name, int which, int how) {
    long number = 1;
    while (try_fault(which, how, number)) number++;
    printf("%s: %ld\n", name, number - 1);
}

// Another writer changes the device: that is noticed before anything is written.
static void try_other_writer(void) {
    begin();
    MUST(!lfs_mkdir(&lfs, "/d"));
    MUST(lfs_file_open(&lfs, &one, "/a", LFS_O_RDWR | LFS_O_CREAT) == 0 && lfs_file_write(&lfs, &one, bytes, 3000) == 3000);
    memset(device[0], 0x11, BLOCK);
    memcpy(before_fault, device, sizeof device);
    MUST(lfs_file_read(&lfs, &one, bytes, 10) == LFS_ERR_CORRUPT && lfs_mkdir(&lfs, "/e") == LFS_ERR_IO && lfs_file_close(&lfs, &one) == 0);
    MUST(!memcmp(device, before_fault, sizeof device) && !lfs_unmount(&lfs));
}

// Files and directories that outlive their mount.
static void try_late_closes(void) {
    lfs_dir_t dir;
    begin();
    MUST(!lfs_file_open(&lfs, &one, "/a", LFS_O_RDWR | LFS_O_CREAT) && lfs_file_write(&lfs, &one, "x", 1) == 1 && !lfs_dir_open(&lfs, &dir, "/"));
    MUST(!lfs_unmount(&lfs) && !lfs_mount(&lfs, &config));
    MUST(lfs_file_write(&lfs, &one, "x", 1) == LFS_ERR_BADF && lfs_file_close(&lfs, &one) == LFS_ERR_BADF && lfs_file_close(&lfs, &one) == LFS_ERR_BADF);
    struct lfs_info info;
    MUST(lfs_dir_read(&lfs, &dir, &info) == LFS_ERR_BADF && !lfs_dir_close(&lfs, &dir) && !lfs_stat(&lfs, "/a", &info) && info.size == 0);
    MUST(!lfs_unmount(&lfs) && lfs_stat(&lfs, "/a", &info) == LFS_ERR_BADF);
}

// Cases that littlefs leaves open: files that share a path, and follow its renames; and calls that a file isn't open for.
static void try_shared_files(void) {
    lfs_file_t third;
    uint8_t room[8];
    struct lfs_info info;
    begin();
    MUST(!lfs_file_opencfg(&lfs, &one, "/a", LFS_O_RDWR | LFS_O_CREAT, &with_attribute) && !lfs_file_open(&lfs, &other, "a", LFS_O_RDONLY) && !lfs_mkdir(&lfs, "d"));
    MUST(lfs_file_write(&lfs, &one, "abc", 3) == 3 && lfs_file_read(&lfs, &other, room, 8) == 3 && !memcmp(room, "abc", 3) && lfs_file_write(&lfs, &other, "x", 1) == LFS_ERR_BADF);
    MUST(!lfs_rename(&lfs, "a", "d/b") && !lfs_rename(&lfs, "d", "e") && !lfs_file_close(&lfs, &one) && !lfs_stat(&lfs, "/e/b", &info) && info.size == 3);
    MUST(lfs_getattr(&lfs, "/e/b", 1, room, 8) == 4 && !lfs_remove(&lfs, "e/b") && !lfs_file_rewind(&lfs, &other) && lfs_file_read(&lfs, &other, room, 8) == 3);
    MUST(!lfs_file_close(&lfs, &other) && lfs_stat(&lfs, "e/b", &info) == LFS_ERR_NOENT);
    MUST(!lfs_file_open(&lfs, &third, "/w", LFS_O_WRONLY | LFS_O_CREAT) && lfs_file_read(&lfs, &third, room, 1) == LFS_ERR_BADF && !lfs_file_close(&lfs, &third));
    MUST(!lfs_file_open(&lfs, &third, "/r", LFS_O_RDONLY | LFS_O_CREAT) && lfs_file_write(&lfs, &third, "x", 1) == LFS_ERR_BADF && !lfs_file_close(&lfs, &third));
    MUST(lfs_file_open(&lfs, &third, "/r", 0) == LFS_ERR_INVAL && lfs_rename(&lfs, "/e", "/e/e") == LFS_ERR_INVAL && lfs_getattr(&lfs, "/", 1, room, 8) == LFS_ERR_INVAL);
    MUST(lfs_fs_grow(&lfs, BLOCKS) == 0 && lfs_fs_grow(&lfs, 2 * BLOCKS) == LFS_ERR_INVAL && !lfs_unmount(&lfs));
}

// A directory that is renamed, and removed, while it is read.
static void try_directories(void) {
    struct lfs_info info;
    lfs_dir_t dir;
    begin();
    MUST(!lfs_mkdir(&lfs, "d") && !made("d/a") && !made("d/ab") && !made("d/b") && !lfs_dir_open(&lfs, &dir, "d"));
    MUST(lfs_dir_read(&lfs, &dir, &info) == 1 && lfs_dir_read(&lfs, &dir, &info) == 1 && !strcmp(info.name, ".."));
    MUST(lfs_dir_read(&lfs, &dir, &info) == 1 && !strcmp(info.name, "ab") && !lfs_rename(&lfs, "d", "e") && !lfs_remove(&lfs, "e/a") && !made("e/c"));
    MUST(lfs_dir_read(&lfs, &dir, &info) == 1 && !strcmp(info.name, "b") && lfs_dir_read(&lfs, &dir, &info) == 0 && lfs_dir_tell(&lfs, &dir) == 5);
    MUST(!lfs_dir_rewind(&lfs, &dir) && !lfs_dir_seek(&lfs, &dir, 4) && lfs_dir_read(&lfs, &dir, &info) == 1 && !strcmp(info.name, "c"));
    MUST(!lfs_remove(&lfs, "e/ab") && !lfs_remove(&lfs, "e/b") && !lfs_remove(&lfs, "e/c") && !lfs_remove(&lfs, "e") && !lfs_dir_rewind(&lfs, &dir));
    MUST(!lfs_dir_seek(&lfs, &dir, 2) && lfs_dir_read(&lfs, &dir, &info) == 0 && lfs_dir_seek(&lfs, &dir, 3) == LFS_ERR_INVAL && !lfs_dir_close(&lfs, &dir));
    MUST(!lfs_unmount(&lfs));
}

// Settings that are refused.
static void try_settings(void) {
    struct lfs_config good = config;
    lfs_t fs;
    begin();
    MUST(!lfs_unmount(&lfs));
#define REFUSED(field, number) config = good, config.field = (number), MUST(lfs_mount(&fs, &config) == LFS_ERR_INVAL && lfs_format(&fs, &config) == LFS_ERR_INVAL)
    REFUSED(block_size, 512);
    REFUSED(prog_size, 24);
    REFUSED(prog_size, 0);
    REFUSED(block_cycles, 0);
    REFUSED(block_count, 1);
    REFUSED(block_count, 300000);
    REFUSED(read_size, 0);
    config = good;
    MUST(trees[0] == found());
    erases = NOR;
    MUST(lfs_format(&fs, &config) == LFS_ERR_IO);
}

int main(void) {
    for (unsigned k = 0; k < sizeof bytes; k++) bytes[k] = (uint8_t)(k * 7 + k / 256);
    for (erases = BLANK; erases < NOR; erases++) take_all(erases == BLANK);
    for (erases = BLANK; erases < NOR; erases++) {
        printf("an erase that %s\n", erases == BLANK ? "leaves 0xff" : erases == NOTHING_DONE ? "does nothing" : "leaves 0");
        try_faults(" program, not done", PROGRAM, NOT_DONE);
        try_faults(" program, done in half", PROGRAM, HALF_DONE);
        try_faults(" program, done", PROGRAM, DONE);
        try_faults(" program, done wrongly", PROGRAM, DONE_WRONG);
        try_faults(" erase, not done", ERASE, NOT_DONE);
        try_faults(" erase, done in half", ERASE, HALF_DONE);
        try_faults(" erase, done", ERASE, DONE);
    }
    erases = BLANK;
    try_faults("sync", SYNC, NOT_DONE);
    try_faults("read", READ, NOT_DONE);
    try_faults("lock", LOCK, NOT_DONE);
    try_faults("memory", MEMORY, NOT_DONE);
    try_other_writer();
    try_late_closes();
    try_shared_files();
    try_directories();
    try_settings();
    puts("all as lfs.h says");
    return 0;
}

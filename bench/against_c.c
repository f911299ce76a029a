// The rows of crates/lfs_bench, and of volumes, by littlefs's own code, over a device in memory that counts its calls. against_c.py builds
// it, and volume_rows.py too.
//
//   bench ROW BLOCKS COUNT CACHE CYCLES   prints the row, reads, bytes read, programs, bytes programmed, erases, nanoseconds, and
//                                         the peak of the heap with littlefs's own structs; of a wear row the erases of each block
//
// littlefs's files are compiled with malloc as counted_malloc and free as counted_free. HEADER is "lfs.h" or "lfs2.h".
#include HEADER
#include <stdio.h>
#include <stdlib.h>
#include <string.h>
#include <time.h>

enum { BLOCK = 4096, PAGE = 256, READ = 16, LOOKAHEAD = 16 };

static lfs_t fs;
static struct lfs_config config;
static lfs_file_t file;

// ---- what is counted

typedef struct {
    unsigned long long reads, read_bytes, programs, program_bytes, erases;
} Counts;

static Counts counts;
static uint32_t *erased; // of each block
static size_t heap, peak;

void *counted_malloc(size_t size) {
    size_t *start = malloc(size + 16);
    *start = size;
    heap += size;
    if (heap > peak) peak = heap;
    return (char *)start + 16;
}

void counted_free(void *bytes) {
    if (!bytes) return;
    size_t *start = (size_t *)((char *)bytes - 16);
    heap -= *start;
    free(start);
}

// ---- the device

static uint8_t *device;

static uint8_t *at(lfs_block_t block, lfs_off_t off) { return device + (size_t)block * BLOCK + off; }

static int device_read(const struct lfs_config *c, lfs_block_t block, lfs_off_t off, void *buffer, lfs_size_t size) {
    (void)c;
    counts.reads++;
    counts.read_bytes += size;
    memcpy(buffer, at(block, off), size);
    return 0;
}

static int device_prog(const struct lfs_config *c, lfs_block_t block, lfs_off_t off, const void *buffer, lfs_size_t size) {
    (void)c;
    counts.programs++;
    counts.program_bytes += size;
    memcpy(at(block, off), buffer, size);
    return 0;
}

static int device_erase(const struct lfs_config *c, lfs_block_t block) {
    (void)c;
    counts.erases++;
    erased[block]++;
    memset(at(block, 0), 0xff, BLOCK);
    return 0;
}

static int device_sync(const struct lfs_config *c) {
    (void)c;
    return 0;
}

// ---- operations

static int sure_at(int code, const char *what, int line) {
    if (code < 0) {
        printf("error %d of %s in line %d\n", code, what, line);
        exit(1);
    }
    return code;
}
#define SURE(call) sure_at((int)(call), #call, __LINE__)

enum { NEW = LFS_O_WRONLY | LFS_O_CREAT, REWRITE = NEW | LFS_O_TRUNC, APPEND = NEW | LFS_O_APPEND };

static uint8_t bytes[BLOCK]; // that rows write and read

static void open_file(const char *path, int flags) { SURE(lfs_file_open(&fs, &file, path, flags)); }
static void write_bytes(uint32_t size) { SURE(lfs_file_write(&fs, &file, bytes, size)); }
static void close_file(void) { SURE(lfs_file_close(&fs, &file)); }

static void put(const char *path, int flags, uint32_t size) {
    open_file(path, flags);
    write_bytes(size);
    close_file();
}

static void mount_anew(void) {
    SURE(lfs_unmount(&fs));
    SURE(lfs_mount(&fs, &config));
}

static const char *path_of(uint32_t number, uint32_t folders) {
    static char path[40];
    if (folders) sprintf(path, "/d%03u/f%05u", (unsigned)(number % folders), (unsigned)number);
    else sprintf(path, "/f%05u", (unsigned)number);
    return path;
}

static void make_folders(uint32_t folders) {
    char path[40];
    for (uint32_t k = 0; k < folders; k++) {
        sprintf(path, "/d%03u", (unsigned)k);
        SURE(lfs_mkdir(&fs, path));
    }
}

static void make_files(uint32_t count, uint32_t folders) {
    for (uint32_t k = 0; k < count; k++) put(path_of(k, folders), NEW, 100);
}

static void stat_files(uint32_t count, uint32_t folders) {
    struct lfs_info info;
    for (uint32_t k = 0; k < count; k++) SURE(lfs_stat(&fs, path_of(k * 7 % count, folders), &info));
}

static void remove_files(uint32_t count, uint32_t folders) {
    for (uint32_t k = 0; k < count; k++) SURE(lfs_remove(&fs, path_of(k, folders)));
}

static void write_blocks(const char *path, uint32_t count) {
    open_file(path, NEW);
    for (uint32_t k = 0; k < count; k++) write_bytes(BLOCK);
    close_file();
}

static void list_root(void) {
    lfs_dir_t dir;
    struct lfs_info info;
    SURE(lfs_dir_open(&fs, &dir, "/"));
    while (SURE(lfs_dir_read(&fs, &dir, &info))) {}
    SURE(lfs_dir_close(&fs, &dir));
}

static void read_file(const char *path, uint32_t count, uint32_t size) {
    open_file(path, LFS_O_RDONLY);
    for (uint32_t k = 0; k < count; k++) SURE(lfs_file_read(&fs, &file, bytes, size));
    close_file();
}

static void read_anywhere(uint32_t count) {
    uint32_t state = 1;
    open_file("/big", LFS_O_RDONLY);
    for (uint32_t k = 0; k < count; k++) {
        state = state * 1103515245u + 12345;
        SURE(lfs_file_seek(&fs, &file, (lfs_soff_t)((state >> 8) % 1048000), LFS_SEEK_SET));
        SURE(lfs_file_read(&fs, &file, bytes, 100));
    }
    close_file();
}

static void overwrite(uint32_t count) {
    for (uint32_t k = 0; k < count; k++) {
        open_file("/big", LFS_O_WRONLY);
        SURE(lfs_file_seek(&fs, &file, 10, LFS_SEEK_SET));
        write_bytes(10);
        close_file();
    }
}

static void rename_often(uint32_t count, const char *other) {
    for (uint32_t k = 0; k < count; k++) SURE(k % 2 ? lfs_rename(&fs, other, "/d000/here") : lfs_rename(&fs, "/d000/here", other));
}

static void set_often(uint32_t count) {
    for (uint32_t k = 0; k < count; k++) {
        bytes[0] = (uint8_t)k;
        SURE(lfs_setattr(&fs, "/file", 0x41, bytes, 16));
    }
}

static void rewrite_small(uint32_t count) {
    for (uint32_t k = 0; k < count; k++) {
        bytes[0] = (uint8_t)k;
        put("/f90000", REWRITE, 4);
    }
}

static void append_synced(uint32_t count) {
    open_file("/log", APPEND);
    for (uint32_t k = 0; k < count; k++) {
        write_bytes(100);
        SURE(lfs_file_sync(&fs, &file));
    }
    close_file();
}

static void append_opened(uint32_t count) {
    for (uint32_t k = 0; k < count; k++) put("/log", APPEND, 100);
}

static void make_deep(void) {
    char path[60] = "";
    for (int k = 0; k < 12; k++) {
        strcat(path, "/dd");
        SURE(lfs_mkdir(&fs, path));
    }
    put(strcat(path, "/f"), NEW, 5);
}

static void stat_deep(uint32_t count) {
    struct lfs_info info;
    for (uint32_t k = 0; k < count; k++) SURE(lfs_stat(&fs, "/dd/dd/dd/dd/dd/dd/dd/dd/dd/dd/dd/dd/f", &info));
}

static void write_tiny(uint32_t count) {
    open_file("/tiny", NEW);
    for (uint32_t k = 0; k < count; k++) SURE(lfs_file_write(&fs, &file, "0123456789", 10));
    close_file();
}

// ---- rows of volumes

enum { MANY = 16, LONG = 100000 };

static lfs_file_t many[MANY];

static const char *many_path(uint32_t number) {
    static char path[8];
    sprintf(path, "/m%02u", (unsigned)number);
    return path;
}

static void write_long_files(void) {
    for (uint32_t k = 0; k < MANY; k++) {
        open_file(many_path(k), NEW);
        for (uint32_t at = 0; at < LONG; at += 1000) write_bytes(1000);
        close_file();
    }
}

static void write_opened(uint32_t count) {
    for (uint32_t k = 0; k < count; k++) put("/small", LFS_O_RDWR | LFS_O_CREAT, 100);
}

// reads and writes in turn, each at another place of another file, and a sync of the file at each hundredth
static void change_anywhere(uint32_t count) {
    uint32_t state = 1;
    for (uint32_t k = 0; k < MANY; k++) SURE(lfs_file_open(&fs, &many[k], many_path(k), LFS_O_RDWR));
    for (uint32_t k = 0; k < count; k++) {
        state = state * 1103515245u + 12345;
        lfs_file_t *one = &many[(state >> 8) % MANY];
        SURE(lfs_file_seek(&fs, one, (lfs_soff_t)((state >> 12) % (LONG - 100)), LFS_SEEK_SET));
        if (k % 2) SURE(lfs_file_read(&fs, one, bytes, 100));
        else SURE(lfs_file_write(&fs, one, bytes, 100));
        if (k % 100 == 99) SURE(lfs_file_sync(&fs, one));
    }
    for (uint32_t k = 0; k < MANY; k++) SURE(lfs_file_close(&fs, &many[k]));
}

// ---- wear

static void append_log(uint32_t size) {
    struct lfs_info info;
    put("/log", APPEND, size);
    SURE(lfs_stat(&fs, "/log", &info));
    if (info.size > 40000) SURE(lfs_remove(&fs, "/log"));
}

static void wear(uint32_t count) {
    uint32_t state = 1;
    make_folders(3);
    for (uint32_t k = 0; k < count; k++) {
        state = state * 1103515245u + 12345;
        uint32_t kind = (state >> 16) % 10, number = (state >> 8) % 12;
        if (kind < 5) put(path_of(number, 3), REWRITE, (state >> 20) % 700);
        else if (kind < 9) append_log(64);
        else lfs_remove(&fs, path_of(number, 3));
        if (k % 20 == 19) mount_anew();
    }
}

static void boots(uint32_t count, int is_log) {
    if (!is_log) memcpy(bytes, "1234", 4);
    for (uint32_t k = 0; k < count; k++) {
        mount_anew();
        if (is_log) append_log(100);
        else put("/count", REWRITE, 4);
    }
}

// ---- rows

#define ROWS(ROW) \
    ROW(create1) ROW(create50) ROW(stat1) ROW(stat50) ROW(list1) ROW(appendsync) ROW(appendopen) ROW(appendlong) ROW(appendlongs) \
    ROW(write) ROW(readall) ROW(readrandom) ROW(readsmall) ROW(overwrite) ROW(rename_same) ROW(rename_across) ROW(delete1) \
    ROW(delete50) ROW(setattr) ROW(nearfull) ROW(notfull) ROW(statdeep) ROW(tinywrite) ROW(mount) \
    ROW(writeopened) ROW(changemany) ROW(wear) ROW(bootlog) ROW(bootcount)
#define CASE_OF(name) row_##name,
#define NAME_OF(name) #name,

typedef enum { ROWS(CASE_OF) no_row } Row;

static const char *const names[] = {ROWS(NAME_OF)};

static Row row_of_name(const char *name) {
    int row = 0;
    while (row < no_row && strcmp(names[row], name)) row++;
    return (Row)row;
}

static void prepare(Row row, uint32_t count) {
    switch (row) {
    case row_create50: make_folders(50); break;
    case row_stat1: case row_delete1: case row_list1: case row_mount: make_files(count, 0); break;
    case row_stat50: case row_delete50: make_folders(50), make_files(count, 50); break;
    case row_readall: case row_readrandom: case row_overwrite: write_blocks("/big", 256); break;
    case row_appendlong: case row_appendlongs: write_blocks("/log", 2048); break;
    case row_rename_same: case row_rename_across: make_folders(2), put("/d000/here", NEW, 5); break;
    case row_setattr: put("/file", NEW, 5); break;
    case row_readsmall: make_files(1000, 0), write_blocks("/zbig", 25); break;
    case row_notfull: put("/f90000", NEW, 4); break;
    case row_changemany: write_long_files(); break;
    case row_statdeep: make_deep(); break;
    case row_nearfull:
        put("/f90000", NEW, 4);
        for (uint32_t k = 0; k < 7; k++) put(path_of(k, 0), NEW, 512);
        break;
    default: break;
    }
}

// The operations of a row, which alone are timed.
static void carry_out(Row row, uint32_t count) {
    switch (row) {
    case row_create1: make_files(count, 0); break;
    case row_create50: make_files(count, 50); break;
    case row_stat1: stat_files(count, 0); break;
    case row_stat50: stat_files(count, 50); break;
    case row_list1: list_root(); break;
    case row_delete1: remove_files(count, 0); break;
    case row_delete50: remove_files(count, 50); break;
    case row_appendsync: case row_appendlong: case row_appendlongs: append_synced(count); break;
    case row_appendopen: append_opened(count); break;
    case row_write: write_blocks("/big", count); break;
    case row_readall: read_file("/big", count, BLOCK); break;
    case row_readrandom: read_anywhere(count); break;
    case row_overwrite: overwrite(count); break;
    case row_rename_same: rename_often(count, "/d000/other"); break;
    case row_rename_across: rename_often(count, "/d001/other"); break;
    case row_setattr: set_often(count); break;
    case row_readsmall: read_file("/zbig", count, 100); break;
    case row_nearfull: case row_notfull: rewrite_small(count); break;
    case row_statdeep: stat_deep(count); break;
    case row_tinywrite: write_tiny(count); break;
    case row_mount: mount_anew(); break;
    case row_writeopened: write_opened(count); break;
    case row_changemany: change_anywhere(count); break;
    case row_wear: wear(count); break;
    case row_bootlog: boots(count, 1); break;
    case row_bootcount: boots(count, 0); break;
    case no_row: SURE(-1);
    }
}

static void configure(uint32_t blocks, uint32_t cache, int32_t cycles) {
    config.read = device_read;
    config.prog = device_prog;
    config.erase = device_erase;
    config.sync = device_sync;
    config.read_size = READ;
    config.prog_size = PAGE;
    config.block_size = BLOCK;
    config.block_count = blocks;
    config.cache_size = cache;
    config.lookahead_size = LOOKAHEAD;
    config.block_cycles = cycles;
    config.disk_version = 0x00020000;
}

int main(int count, char **words) {
    if (count != 6) return 2;
    Row row = row_of_name(words[1]);
    uint32_t blocks = (uint32_t)atoi(words[2]), times = (uint32_t)atoi(words[3]);
    configure(blocks, (uint32_t)atoi(words[4]), atoi(words[5]));
    device = malloc((size_t)blocks * BLOCK);
    memset(device, 0xff, (size_t)blocks * BLOCK);
    erased = calloc(blocks, sizeof *erased);
    memset(bytes, 'x', sizeof bytes);
    SURE(lfs_format(&fs, &config));
    SURE(lfs_mount(&fs, &config));
    if (row == row_wear || row == row_bootlog || row == row_bootcount) {
        carry_out(row, times);
        for (uint32_t k = 0; k < blocks; k++) printf("%u\n", (unsigned)erased[k]);
        return 0;
    }
    prepare(row, times);
    Counts before = counts;
    peak = heap;
    struct timespec start, end;
    clock_gettime(CLOCK_MONOTONIC, &start);
    carry_out(row, times);
    clock_gettime(CLOCK_MONOTONIC, &end);
    printf("%s %llu %llu %llu %llu %llu %lld %zu\n", words[1], counts.reads - before.reads, counts.read_bytes - before.read_bytes,
           counts.programs - before.programs, counts.program_bytes - before.program_bytes, counts.erases - before.erases,
           (end.tv_sec - start.tv_sec) * 1000000000ll + end.tv_nsec - start.tv_nsec, peak + sizeof fs);
    return 0;
}

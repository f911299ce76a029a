// Images by littlefs's own code, for exchange.py, which builds this with it: shows one, makes or changes one by operations
// at random, which may end in a loss of power, or carries out operations that it is told. Where VERSION isn't given, its images
// are of the newest version that the code knows. CACHE is the size of its caches; without it these hold the longest inline file.
//
//   exchange list IMAGE BLOCK PAGE [ended]       a line for each entry, with paths and attributes in hexadecimal numbers;
//                                                with `ended` what a loss of power left half done is ended first:
//                                                f SIZE CHECKSUM PATH, or d PATH, and then TYPE:BYTES for each attribute;
//                                                missing PATH for a listed name that isn't found when it is looked up
//   exchange make IMAGE BLOCK PAGE COUNT CYCLES SEED
//   exchange change IMAGE BLOCK PAGE CYCLES SEED
//   exchange run IMAGE BLOCK PAGE COUNT CYCLES   reads operations, one a line, and answers each with 0 or an error's number;
//                                                the image is made where COUNT isn't 0. Paths are hexadecimal numbers.
//     put PATH SIZE LETTER, append PATH SIZE LETTER, rename OLD NEW, remove PATH, mkdir PATH
//     write PATH AT SIZE LETTER, truncate PATH SIZE
//     read PATH    answers the checksum of a file's bytes
//     cut N        the power goes after so many more programs and erases: nothing but a save comes behind it
//     save FILE    unmounts, writes the image, and mounts it again
#include HEADER
#include <setjmp.h>
#include <stdio.h>
#include <stdlib.h>
#include <string.h>

static uint8_t *device;
static struct lfs_config config;
static lfs_t lfs;

// how many more programs and erases are carried out before the power goes, and -2 from then on; where it goes on then
static long left = -1;
static jmp_buf cut_short;
static int keeps; // an erase leaves what is there

static uint64_t state;

static uint32_t below(uint32_t n) {
    state = state * 6364136223846793005ull + 1442695040888963407ull;
    return (uint32_t)(state >> 33) % n;
}

static uint8_t *at(lfs_block_t block, lfs_off_t off) { return device + (size_t)block * config.block_size + off; }

static int read_device(const struct lfs_config *c, lfs_block_t block, lfs_off_t off, void *buffer, lfs_size_t size) {
    (void)c;
    memcpy(buffer, at(block, off), size);
    return 0;
}

static int program_device(const struct lfs_config *c, lfs_block_t block, lfs_off_t off, const void *buffer, lfs_size_t size) {
    (void)c;
    if (left == 0) {
        left = -2;
        memcpy(at(block, off), buffer, below(size + 1));
        longjmp(cut_short, 1);
    }
    if (left > 0) left--;
    memcpy(at(block, off), buffer, size);
    return 0;
}

static int erase_device(const struct lfs_config *c, lfs_block_t block) {
    (void)c;
    if (left == 0) {
        left = -2;
        longjmp(cut_short, 1);
    }
    if (left > 0) left--;
    if (!keeps) memset(at(block, 0), 0xff, config.block_size);
    return 0;
}

static int sync_device(const struct lfs_config *c) { (void)c; return 0; }

static void configure(uint32_t block, uint32_t page, uint32_t count, int32_t cycles) {
    config.read = read_device;
    config.prog = program_device;
    config.erase = erase_device;
    config.sync = sync_device;
#ifdef CACHE
    config.cache_size = CACHE;
#else
    // room for the longest file that stands in its entry, which littlefs wants to change one
    config.cache_size = block / 8;
#endif
    config.read_size = page < config.cache_size ? page : config.cache_size;
    config.prog_size = config.read_size;
    config.block_size = block;
    config.block_count = count;
    config.block_cycles = cycles;
    config.lookahead_size = 64;
#ifdef VERSION
    config.disk_version = VERSION;
#endif
}

// ---- listing

static void hex(const uint8_t *bytes, size_t len) {
    for (size_t k = 0; k < len; k++) printf("%02x", bytes[k]);
}

// The attributes of the types that come here.
static int show_attributes(const char *path) {
    static uint8_t value[1022];
    for (int kind = 0; kind < 8; kind++) {
        lfs_ssize_t len = lfs_getattr(&lfs, path, (uint8_t)kind, value, sizeof value);
        if (len == LFS_ERR_NOATTR) continue;
        if (len < 0) return (int)len;
        printf(" %d:", kind);
        hex(value, (size_t)len);
    }
    return 0;
}

// The size and the checksum of a file's bytes.
static int sum_file(const char *path, uint32_t *size, uint32_t *sum) {
    static uint8_t part[4096];
    lfs_file_t file;
    int err = lfs_file_open(&lfs, &file, path, LFS_O_RDONLY);
    if (err) return err;
    *sum = 0xffffffff;
    lfs_ssize_t len;
    while ((len = lfs_file_read(&lfs, &file, part, sizeof part)) > 0) *sum = lfs_crc(*sum, part, (size_t)len);
    *size = (uint32_t)lfs_file_size(&lfs, &file);
    lfs_file_close(&lfs, &file);
    return (int)len;
}

static int show_file(const char *path) {
    uint32_t size = 0, sum = 0;
    int err = sum_file(path, &size, &sum);
    if (err == LFS_ERR_NOENT) return err;
    printf("f %u %08x ", (unsigned)size, (unsigned)sum);
    hex((const uint8_t *)path, strlen(path));
    return err;
}

static int show(const char *path);

// An entry that a listing has, looked up by its path.
static int show_entry(const char *path, uint8_t type) {
    struct lfs_info info;
    lfs_dir_t dir;
    int err = lfs_stat(&lfs, path, &info);
    if (!err && info.type != type) err = LFS_ERR_NOENT;
    if (!err && type == LFS_TYPE_REG) err = show_file(path);
    if (!err && type == LFS_TYPE_DIR && !(err = lfs_dir_open(&lfs, &dir, path))) {
        lfs_dir_close(&lfs, &dir);
        printf("d ");
        hex((const uint8_t *)path, strlen(path));
    }
    int missing = err == LFS_ERR_NOENT;
    if (missing) {
        printf("missing ");
        hex((const uint8_t *)path, strlen(path));
        err = 0;
    }
    if (!err && !missing) err = show_attributes(path);
    printf("\n");
    return err || missing || type != LFS_TYPE_DIR ? err : show(path);
}

static int show(const char *path) {
    lfs_dir_t dir;
    struct lfs_info info;
    int err = lfs_dir_open(&lfs, &dir, path);
    if (err) return err;
    while ((err = lfs_dir_read(&lfs, &dir, &info)) > 0) {
        if (!strcmp(info.name, ".") || !strcmp(info.name, "..")) continue;
        char *beneath = malloc(strlen(path) + strlen(info.name) + 2);
        sprintf(beneath, "%s/%s", strcmp(path, "/") ? path : "", info.name);
        err = show_entry(beneath, info.type);
        free(beneath);
        if (err) break;
    }
    lfs_dir_close(&lfs, &dir);
    return err;
}

// ---- operations at random

static void some_name(char *name) {
    uint32_t len = below(20) ? 1 + below(below(4) ? 2 : 30) : 1 + below(255);
    for (uint32_t k = 0; k < len; k++) name[k] = below(3) ? 'a' + (char)below(4) : (char)(1 + below(46 - 1));
    name[len] = 0;
    if (!strcmp(name, ".") || !strcmp(name, "..")) name[0] = 'x';
}

// A path of at most three names, the last of them new perhaps: each is one that stands there, or any.
static void some_path(char *path) {
    path[0] = 0;
    uint32_t depth = 1 + below(3);
    for (uint32_t k = 0; k < depth; k++) {
        char name[256];
        some_name(name);
        lfs_dir_t dir;
        struct lfs_info info;
        if (below(4) && !lfs_dir_open(&lfs, &dir, path[0] ? path : "/")) {
            uint32_t seen = 0;
            while (lfs_dir_read(&lfs, &dir, &info) > 0)
                if (strcmp(info.name, ".") && strcmp(info.name, "..") && below(++seen) == 0) strcpy(name, info.name);
            lfs_dir_close(&lfs, &dir);
        }
        strcat(path, "/");
        strcat(path, name);
    }
}

static uint32_t some_size(void) {
    switch (below(4)) {
    case 0: return below(40);
    case 1: return below(config.block_size / 4);
    case 2: return below(3 * config.block_size);
    default: return below(8) ? below(300) : below(20 * config.block_size);
    }
}

static int write_some(const char *path) {
    static const int flags[] = {LFS_O_CREAT, LFS_O_CREAT | LFS_O_TRUNC, LFS_O_CREAT | LFS_O_APPEND, 0};
    lfs_file_t file;
    int err = lfs_file_open(&lfs, &file, path, LFS_O_RDWR | flags[below(4)]);
    if (err) return err;
    for (uint32_t times = 1 + below(3); times && !err; times--) {
        uint32_t size = some_size();
        uint8_t *bytes = malloc(size + 1);
        for (uint32_t k = 0; k < size; k++) bytes[k] = (uint8_t)below(256);
        if (!below(3)) lfs_file_seek(&lfs, &file, (lfs_soff_t)some_size(), LFS_SEEK_SET);
        lfs_ssize_t wrote = lfs_file_write(&lfs, &file, bytes, size);
        if (wrote < 0) err = (int)wrote;
        if (!err && !below(4)) err = lfs_file_truncate(&lfs, &file, (lfs_off_t)some_size());
        if (!err && !below(4)) err = lfs_file_sync(&lfs, &file);
        free(bytes);
    }
    int closed = lfs_file_close(&lfs, &file);
    return err ? err : closed;
}

static int operate(void) {
    static char path[1024], other[1024];
    uint8_t value[300];
    some_path(path);
    switch (below(10)) {
    case 0: case 1: return lfs_mkdir(&lfs, path);
    case 2: return lfs_remove(&lfs, path);
    case 3: case 4:
        some_path(other);
        // littlefs would move a directory beneath itself
        return strncmp(path, other, strlen(path)) ? lfs_rename(&lfs, path, other) : 0;
    case 5:
        for (uint32_t k = 0; k < sizeof value; k++) value[k] = (uint8_t)below(256);
        return lfs_setattr(&lfs, path, (uint8_t)below(5), value, below(10) ? below(20) : below(300));
    case 6: return lfs_removeattr(&lfs, path, (uint8_t)below(5));
    default: return write_some(path);
    }
}

static void refuse_corruption(int err) {
    if (err != LFS_ERR_CORRUPT) return;
    fprintf(stderr, "corrupt\n");
    exit(3);
}

// Carries out operations until one meets the loss of power; refusals are passed over.
static void operate_often(void) {
    if (setjmp(cut_short)) return;
    for (uint32_t times = below(below(2) ? 20 : 200); times; times--) refuse_corruption(operate());
}

// Makes short files and some directories, as far as there is room.
static void fill(void) {
    static char path[1024];
    for (uint32_t wanted = 30 + below(40), times = 8 * wanted; wanted && times; times--) {
        lfs_file_t file;
        some_path(path);
        int is_file = below(8) > 0;
        int err = is_file ? lfs_file_open(&lfs, &file, path, LFS_O_WRONLY | LFS_O_CREAT | LFS_O_EXCL) : lfs_mkdir(&lfs, path);
        if (!err) wanted--;
        if (!err && is_file) {
            lfs_file_write(&lfs, &file, path, below((uint32_t)strlen(path)));
            err = lfs_file_close(&lfs, &file);
        }
        refuse_corruption(err);
    }
}

static int load(const char *file, uint32_t block, uint32_t page, int32_t cycles) {
    FILE *in = fopen(file, "rb");
    if (!in) return 1;
    fseek(in, 0, SEEK_END);
    size_t size = (size_t)ftell(in);
    rewind(in);
    device = malloc(size);
    if (fread(device, 1, size, in) != size) return 1;
    fclose(in);
    configure(block, page, (uint32_t)(size / block), cycles);
    return 0;
}

static int save(const char *file) {
    FILE *out = fopen(file, "wb");
    if (!out) return 1;
    fwrite(device, config.block_size, config.block_count, out);
    return fclose(out);
}

static int begin(uint32_t block, uint32_t page, uint32_t count, int32_t cycles, int byte) {
    device = malloc((size_t)block * count);
    memset(device, byte, (size_t)block * count);
    configure(block, page, count, cycles);
    return lfs_format(&lfs, &config);
}

// ---- operations that are told

static void unhex(const char *word, char *out) {
    unsigned byte;
    for (; sscanf(word, "%2x", &byte) == 1; word += 2) *out++ = (char)byte;
    *out = 0;
}

static int put(const char *path, int flags, uint32_t from, uint32_t size, char letter) {
    lfs_file_t file;
    int err = lfs_file_open(&lfs, &file, path, LFS_O_WRONLY | flags);
    if (err) return err;
    char *bytes = malloc(size + 1);
    memset(bytes, letter, size);
    lfs_ssize_t wrote = lfs_file_seek(&lfs, &file, (lfs_soff_t)from, LFS_SEEK_SET);
    if (wrote >= 0) wrote = lfs_file_write(&lfs, &file, bytes, size);
    free(bytes);
    err = lfs_file_close(&lfs, &file);
    return wrote < 0 ? (int)wrote : err;
}

static int truncate_file(const char *path, uint32_t size) {
    lfs_file_t file;
    int err = lfs_file_open(&lfs, &file, path, LFS_O_WRONLY);
    if (err) return err;
    int cut = lfs_file_truncate(&lfs, &file, size);
    err = lfs_file_close(&lfs, &file);
    return cut ? cut : err;
}

static int64_t sum_of(const char *path) {
    uint32_t size = 0, sum = 0;
    int err = sum_file(path, &size, &sum);
    return err ? err : (int64_t)sum;
}

static int keep(const char *file) {
    int err = left == -2 ? 0 : lfs_unmount(&lfs);
    if (save(file)) return 1;
    return err || left == -2 ? err : lfs_mount(&lfs, &config);
}

static int64_t obey(char *line) {
    static char path[4096], other[4096], words[5][8192];
    int count = sscanf(line, "%8191s %8191s %8191s %8191s %8191s", words[0], words[1], words[2], words[3], words[4]);
    uint32_t size = count > 2 ? (uint32_t)atol(words[count - 2]) : 0;
    if (!strcmp(words[0], "save")) return keep(words[1]);
    if (left == -2) return LFS_ERR_IO;
    if (!strcmp(words[0], "cut")) { left = atol(words[1]); return 0; }
    unhex(words[1], path);
    if (!strcmp(words[0], "put")) return put(path, LFS_O_CREAT | LFS_O_TRUNC, 0, size, words[3][0]);
    if (!strcmp(words[0], "append")) return put(path, LFS_O_APPEND, 0, size, words[3][0]);
    if (!strcmp(words[0], "write")) return put(path, 0, (uint32_t)atol(words[2]), size, words[4][0]);
    if (!strcmp(words[0], "truncate")) return truncate_file(path, (uint32_t)atol(words[2]));
    if (!strcmp(words[0], "read")) return sum_of(path);
    if (!strcmp(words[0], "remove")) return lfs_remove(&lfs, path);
    if (!strcmp(words[0], "mkdir")) return lfs_mkdir(&lfs, path);
    unhex(words[2], other);
    if (!strcmp(words[0], "rename")) return lfs_rename(&lfs, path, other);
    exit(2);
}

static int64_t obey_until_cut(char *line) {
    if (setjmp(cut_short)) return LFS_ERR_IO;
    return obey(line);
}

static int run(void) {
    static char line[20000];
    while (fgets(line, sizeof line, stdin)) {
        printf("%lld\n", (long long)obey_until_cut(line));
        fflush(stdout);
    }
    return 0;
}

int main(int argc, char **words) {
    if (argc < 5) return 2;
    uint32_t block = (uint32_t)atol(words[3]), page = (uint32_t)atol(words[4]);
    int makes = !strcmp(words[1], "make"), runs = !strcmp(words[1], "run"), lists = !strcmp(words[1], "list");
    int ends = lists && argc == 6 && !strcmp(words[5], "ended");
    if (argc != (lists ? 5 + ends : makes ? 8 : 7)) return 2;
    uint32_t count = makes || runs ? (uint32_t)atol(words[5]) : 0;
    int32_t cycles = lists ? -1 : (int32_t)atol(words[makes || runs ? 6 : 5]);
    state = runs || lists ? 0 : (uint64_t)atoll(words[argc - 1]);
    if (count ? begin(block, page, count, cycles, below(2) ? 0xff : 0) : load(words[2], block, page, cycles)) return 2;
    if (!lists && !runs) keeps = (int)below(2);
    int err = lfs_mount(&lfs, &config);
    if (ends && !err) err = lfs_fs_mkconsistent(&lfs);
    if (lists && !err) err = show("/");
    if (lists && err) printf("error %d\n", err);
    if (lists || err) return err ? 1 : 0;
    if (runs) return run();
    if (makes) fill();
    if (below(2)) left = (long)below(below(2) ? 60 : 600);
    operate_often();
    if (left != -2) lfs_unmount(&lfs);
    return save(words[2]) ? 2 : 0;
}

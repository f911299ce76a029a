// Random calls of lfs.h, for drop_in.py, which builds this with littlefs's own code and with bindings/lfs: both must print the same.
//
//   lfs_calls SEED CALLS IMAGE     writes the device to IMAGE at the end
//
// Differences by choice (bindings/lfs/lfs.h) are left out: a path that is open twice, an open file that is renamed or removed, an append
// after the end, a write of no bytes, full devices, a directory as its own parent, and a directory that is changed while it is read,
// unless an entry that was read is removed.
#include HEADER
#include <stdio.h>
#include <stdlib.h>
#include <string.h>

enum { BLOCK = 1024, BLOCKS = 2048, SLOTS = 5, NAMES = 6, FOLDERS = 4, ATTRS = 2 };

static uint8_t device[BLOCKS][BLOCK];
static uint64_t state;
static lfs_t lfs;

static uint32_t below(uint32_t n) {
    state = state * 6364136223846793005ull + 1442695040888963407ull;
    return (uint32_t)(state >> 33) % n;
}

static int read_device(const struct lfs_config *c, lfs_block_t block, lfs_off_t off, void *buffer, lfs_size_t size) {
    (void)c;
    memcpy(buffer, &device[block][off], size);
    return 0;
}

static int program_device(const struct lfs_config *c, lfs_block_t block, lfs_off_t off, const void *buffer, lfs_size_t size) {
    (void)c;
    memcpy(&device[block][off], buffer, size);
    return 0;
}

static int erase_device(const struct lfs_config *c, lfs_block_t block) {
    static unsigned kind; // not by chance, since the two call it different numbers of times
    (void)c;
    if (kind++ % 3) memset(device[block], kind % 3 == 1 ? 0xff : 0x5a, BLOCK);
    return 0;
}

static int sync_device(const struct lfs_config *c) { (void)c; return 0; }

static const struct lfs_config config = {
    .read = read_device, .prog = program_device, .erase = erase_device, .sync = sync_device, .read_size = 16, .prog_size = 16,
    .block_size = BLOCK, .block_count = BLOCKS, .block_cycles = 100, .cache_size = 128, .lookahead_size = 64,
#ifdef VERSION
    .disk_version = VERSION,
#endif
};

// ---- Paths

static const char *folders[FOLDERS] = {"", "/d", "/d/e", "/f.f"};
static const char *names[NAMES] = {"a", "a.b", "log", "log.old", "x", "no/such"};

struct slot {
    lfs_file_t file;
    struct lfs_file_config cfg;
    struct lfs_attr attrs[ATTRS];
    uint8_t values[ATTRS][12];
    int is_open, flags;
    char path[64];
};

static struct slot slots[SLOTS];

static int is_at_or_beneath(const char *path, const char *above) {
    size_t len = strlen(above);
    return !strncmp(path, above, len) && (!path[len] || path[len] == '/');
}

// Whether a file is open at a path or beneath it.
static int is_used(const char *path) {
    for (int k = 0; k < SLOTS; k++)
        if (slots[k].is_open && is_at_or_beneath(slots[k].path, path)) return 1;
    return 0;
}

static void some_plain_path(char *path) {
    if (below(6) == 0) sprintf(path, "%s", folders[1 + below(FOLDERS - 1)]);
    else sprintf(path, "%s/%s", folders[below(FOLDERS)], names[below(NAMES)]);
}

// Another form of the same path.
static void some_form(const char *path, char *form) {
    *form = 0;
    if (below(3) == 0) path++;
    while (*path) {
        size_t len = strcspn(path + 1, "/") + 1;
        if (below(8) == 0) strcat(form, below(2) ? "/." : "/none/../");
        if (below(8) == 0 && *path == '/') strcat(form, "/");
        strncat(form, path, len);
        path += len;
    }
    if (below(16) == 0) strcat(form, below(2) ? "/" : below(2) ? "/." : "/y/..");
    if (below(64) == 0) strcpy(form, below(2) ? "/d/../.." : below(2) ? "" : "/");
}

static uint32_t sum(const void *bytes, size_t len) { return lfs_crc(0xffffffff, bytes, len); }

// ---- Files

static uint32_t some_size(void) { return below(3) == 0 ? below(40) : below(2) ? below(300) : below(6000); }

static void open_slot(struct slot *s) {
    static const int access[] = {LFS_O_RDONLY, LFS_O_WRONLY, LFS_O_RDWR, LFS_O_RDWR};
    char form[256];
    some_plain_path(s->path);
    some_form(s->path, form);
    if (is_used(s->path)) return;
    s->flags = access[below(4)] | (below(2) ? LFS_O_CREAT : 0) | (below(6) ? 0 : LFS_O_EXCL) | (below(5) ? 0 : LFS_O_TRUNC) | (below(5) ? 0 : LFS_O_APPEND);
    if (!(s->flags & LFS_O_WRONLY)) s->flags &= ~(LFS_O_APPEND | LFS_O_CREAT | LFS_O_TRUNC);
    memset(&s->cfg, 0, sizeof s->cfg);
    s->cfg.attrs = s->attrs;
    s->cfg.attr_count = below(3) ? 0 : ATTRS;
    for (int k = 0; k < ATTRS; k++) {
        s->attrs[k] = (struct lfs_attr){(uint8_t)(1 + below(3)), s->values[k], 4 + 8 * (lfs_size_t)k};
        memset(s->values[k], (int)below(256), sizeof s->values[k]);
    }
    if (s->attrs[0].type == s->attrs[1].type) s->attrs[1].type += 3;
    int err = lfs_file_opencfg(&lfs, &s->file, form, s->flags, &s->cfg);
    s->is_open = !err;
    printf("open %s %x: %d %08x\n", form, s->flags, err, err ? 0 : sum(s->values, sizeof s->values));
}

static void write_slot(struct slot *s) {
    static uint8_t bytes[6000];
    uint32_t size = 1 + some_size() % 5999;
    for (uint32_t k = 0; k < size; k++) bytes[k] = (uint8_t)below(256);
    if (!(s->flags & LFS_O_WRONLY)) return;
    for (int k = 0; k < ATTRS; k++) s->values[k][0]++;
    int wrote = lfs_file_write(&lfs, &s->file, bytes, size);
    printf("write %u: %d, at %d of %d\n", (unsigned)size, wrote, (int)lfs_file_tell(&lfs, &s->file), (int)lfs_file_size(&lfs, &s->file));
}

static void read_slot(struct slot *s) {
    static uint8_t bytes[9000];
    if (!(s->flags & LFS_O_RDONLY)) return;
    int count = lfs_file_read(&lfs, &s->file, bytes, some_size());
    printf("read: %d %08x, at %d\n", count, count < 0 ? 0 : sum(bytes, (size_t)count), (int)lfs_file_tell(&lfs, &s->file));
}

static void seek_slot(struct slot *s) {
    int whence = (int)below(3), size = lfs_file_size(&lfs, &s->file), at = lfs_file_tell(&lfs, &s->file);
    int off = (int)below((uint32_t)size + 1) - (whence == LFS_SEEK_SET ? 0 : whence == LFS_SEEK_CUR ? at : size);
    if (below(8) == 0) off = -1 - (int)below(10000);
    if (below(8) == 0 && !(s->flags & LFS_O_APPEND)) off += (int)below(3000);
    if (below(50) == 0) off = 2147483647;
    if ((s->flags & LFS_O_APPEND) && (whence == LFS_SEEK_SET ? off : whence == LFS_SEEK_CUR ? at + off : size + off) > size) return;
    int answer = lfs_file_seek(&lfs, &s->file, off, whence);
    printf("seek %d %d: %d, at %d\n", off, whence, answer, (int)lfs_file_tell(&lfs, &s->file));
    // keeps files short
    if (answer > 20000) printf("rewind: %d\n", lfs_file_rewind(&lfs, &s->file));
}

static void truncate_slot(struct slot *s) {
    if (!(s->flags & LFS_O_WRONLY)) return;
    uint32_t size = below(40) ? some_size() : 0x80000000u;
    // an append after the end is left out
    if ((s->flags & LFS_O_APPEND) && size < (uint32_t)lfs_file_tell(&lfs, &s->file)) return;
    int err = lfs_file_truncate(&lfs, &s->file, size);
    printf("truncate %u: %d, at %d of %d\n", (unsigned)size, err, (int)lfs_file_tell(&lfs, &s->file), (int)lfs_file_size(&lfs, &s->file));
}

static void close_slot(struct slot *s) {
    printf("close: %d\n", lfs_file_close(&lfs, &s->file));
    s->is_open = 0;
}

static void use_slot(void) {
    struct slot *s = &slots[below(SLOTS)];
    if (!s->is_open) {
        open_slot(s);
        return;
    }
    switch (below(12)) {
    case 0: printf("sync: %d\n", lfs_file_sync(&lfs, &s->file)); break;
    case 1: close_slot(s); break;
    case 2: case 3: truncate_slot(s); break;
    case 4: case 5: seek_slot(s); break;
    case 6: case 7: case 8: read_slot(s); break;
    default: write_slot(s);
    }
}

// ---- Directories and entries

static void list_folder(void) {
    struct lfs_info info;
    lfs_dir_t dir;
    char path[64], form[256];
    some_plain_path(path);
    some_form(below(3) ? folders[1 + below(FOLDERS - 1)] : path, form);
    int err = lfs_dir_open(&lfs, &dir, form), places[64], count = 0;
    printf("list %s: %d\n", form, err);
    if (err) return;
    while (count < 64 && (places[count] = (int)lfs_dir_tell(&lfs, &dir), err = lfs_dir_read(&lfs, &dir, &info)) > 0)
        printf(" %d %s %u %u\n", places[count++], info.name, info.type, (unsigned)info.size);
    printf(" end %d\n", err);
    if (below(2)) {
        int again = (int)below((uint32_t)count + 1);
        printf(" seek: %d", lfs_dir_seek(&lfs, &dir, (lfs_off_t)places[again]));
        err = lfs_dir_read(&lfs, &dir, &info);
        printf(" read: %d %s\n", err, info.name);
        printf(" seek: %d\n", lfs_dir_seek(&lfs, &dir, (lfs_off_t)places[count] + 1 + below(9)));
        printf(" rewind: %d", lfs_dir_rewind(&lfs, &dir));
        err = lfs_dir_read(&lfs, &dir, &info);
        printf(" read: %d %s\n", err, info.name);
    }
    printf(" close: %d\n", lfs_dir_close(&lfs, &dir));
}

// Removes each entry of a folder once it is read.
static void empty_folder(void) {
    struct lfs_info info;
    lfs_dir_t dir;
    char path[512];
    const char *folder = folders[1 + below(FOLDERS - 1)];
    if (is_used(folder) || lfs_dir_open(&lfs, &dir, folder)) return;
    while (lfs_dir_read(&lfs, &dir, &info) > 0) {
        if (!strcmp(info.name, ".") || !strcmp(info.name, "..")) continue;
        sprintf(path, "%s/%s", folder, info.name);
        printf("empty %s: %d\n", path, lfs_remove(&lfs, path));
    }
    lfs_dir_close(&lfs, &dir);
}

static void rename_entry(void) {
    char old[64], new[64], old_form[256], new_form[256];
    some_plain_path(old);
    some_plain_path(new);
    if (is_used(old) || is_used(new) || (is_at_or_beneath(new, old) && strcmp(old, new))) return;
    some_form(old, old_form);
    some_form(new, new_form);
    printf("rename %s %s: %d\n", old_form, new_form, lfs_rename(&lfs, old_form, new_form));
}

static void set_attribute(const char *form) {
    uint8_t value[40], type = (uint8_t)(1 + below(6));
    uint32_t size = below(40) ? below(40) : 1023;
    static uint8_t large[1023];
    memset(value, (int)below(256), sizeof value);
    printf("set %s %u: %d\n", form, (unsigned)size, lfs_setattr(&lfs, form, type, size < 40 ? value : large, size));
}

static void get_attribute(const char *form) {
    uint8_t value[40];
    memset(value, 0xee, sizeof value);
    int count = lfs_getattr(&lfs, form, (uint8_t)(1 + below(6)), value, below(40));
    printf("get %s: %d %08x\n", form, count, sum(value, sizeof value));
}

static void use_entry(void) {
    struct lfs_info info = {0};
    char path[64], form[256];
    int err;
    some_plain_path(path);
    some_form(path, form);
    int is_root = !strcmp(form, "/");
    switch (below(12)) {
    case 0: list_folder(); break;
    case 1: if (below(4) == 0) empty_folder(); break;
    case 2: case 3: rename_entry(); break;
    case 4: if (!is_root) set_attribute(form); break;
    case 5: if (!is_root) get_attribute(form); break;
    case 6: if (!is_root) printf("take %s: %d\n", form, lfs_removeattr(&lfs, form, (uint8_t)(1 + below(6)))); break;
    case 7: case 8:
        err = lfs_stat(&lfs, form, &info);
        printf("stat %s: %d %u %u %s\n", form, err, info.type, info.type == LFS_TYPE_REG ? (unsigned)info.size : 0, info.name);
        break;
    case 9: printf("mkdir %s: %d\n", form, lfs_mkdir(&lfs, form)); break;
    case 10: printf("mkdir %s: %d\n", folders[1], lfs_mkdir(&lfs, folders[1 + below(FOLDERS - 1)])); break;
    default: if (!is_used(path)) printf("remove %s: %d\n", form, lfs_remove(&lfs, form));
    }
}

// ---- The whole

static void mount_again(void) {
    struct lfs_config other = config;
    struct lfs_fsinfo info;
    // sometimes files are left open, and their changes are lost
    for (int k = 0; k < SLOTS && below(2); k++)
        if (slots[k].is_open) close_slot(&slots[k]);
    for (int k = 0; k < SLOTS; k++) slots[k].is_open = 0;
    printf("unmount: %d\n", lfs_unmount(&lfs));
    other.block_count = below(2) ? BLOCKS - 1 : BLOCKS / 2;
    printf("mount of other sizes: %d\n", lfs_mount(&lfs, &other));
    other = config;
    other.name_max = 100;
    printf("mount with other limits: %d\n", lfs_mount(&lfs, &other));
    static struct lfs_config by_superblock;
    by_superblock = config;
    by_superblock.block_count = 0;
    printf("mount: %d", lfs_mount(&lfs, below(2) ? &config : &by_superblock));
    printf(" %d", lfs_fs_stat(&lfs, &info));
    printf(" %u %u %u %u %u\n", (unsigned)info.block_size, (unsigned)info.block_count, (unsigned)info.name_max, (unsigned)info.file_max, (unsigned)info.attr_max);
    printf("consistent: %d\n", lfs_fs_mkconsistent(&lfs));
    printf("grow: %d\n", lfs_fs_grow(&lfs, BLOCKS));
    printf("gc: %d\n", lfs_fs_gc(&lfs));
}

int main(int argc, char **words) {
    if (argc != 4) return 2;
    state = (uint64_t)atoll(words[1]);
    memset(device, below(2) ? 0xff : 0, sizeof device);
    printf("mount of nothing: %d\n", lfs_mount(&lfs, &config));
    printf("format: %d\n", lfs_format(&lfs, &config));
    printf("mount: %d\n", lfs_mount(&lfs, &config));
    for (int calls = atoi(words[2]); calls; calls--) {
        if (below(400) == 0) mount_again();
        else if (below(3)) use_slot();
        else use_entry();
    }
    for (int k = 0; k < SLOTS; k++)
        if (slots[k].is_open) close_slot(&slots[k]);
    printf("unmount: %d\n", lfs_unmount(&lfs));
    FILE *out = fopen(words[3], "wb");
    return !out || fwrite(device, sizeof device, 1, out) != 1 || fclose(out);
}

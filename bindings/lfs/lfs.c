/* lfs.h over littlefs_c.h: makes plain paths, passes calls on to a volume in memory, and brings its changes to the device. */
#include <stdlib.h>
#include <string.h>

#include "lfs.h"
#include "../c/littlefs_c.h"

enum { MOST_BYTES = 268435456, LONGEST_ATTR = 1022 };

/* What a mount holds. Nothing here points to the caller's memory, which may be one that is collected. */
struct lfs_mounted {
    lfs_c_volume volume;
    lfs_size_t block_size, page;
    int has_ended;              /* the device isn't as the image any more: nothing is written to it */
    uint64_t next;              /* the number of the volume's next change */
    uint8_t *bytes, *read_back; /* a block each */
    char *paths[2];             /* of a call */
    struct lfs_opened *first;   /* open files and directories */
};

struct listed {
    uint32_t kind, size;
    const char *name;
};

/* An open file or directory. It outlives its mount. */
struct lfs_opened {
    struct lfs_opened *next;
    struct lfs_mounted *mounted;
    char *path;             /* NULL once it is removed or replaced */
    char *moved;            /* the path after a rename, within that call */
    uint32_t number;        /* a file's in the volume */
    struct listed *entries; /* a directory's */
    uint32_t count;
    uint64_t listed_at; /* the volume's next change then */
    char *names;
};

/* A plain path: names with one `/` in front of each. */
struct plain {
    const uint8_t *text;
    size_t len;
    enum { IS_PLAIN, HAD_SLASH, HAD_MORE } end; /* what stood behind the last name: only a directory may be there then */
};

/* The number of an error in lfs.h for one of littlefs_c.h. What isn't an error stays. */
static int error_of(int64_t answer) {
    switch (answer) {
    case -LFS_C_FAILED:
    case -LFS_C_NOT_KEPT: return LFS_ERR_IO;
    case -LFS_C_ENTRY_FULL: return LFS_ERR_NOSPC;
    case -LFS_C_NO_VOLUME: return LFS_ERR_BADF;
    default: return (int)answer;
    }
}

/* ---- The device */

static int callback_error(int err) { return err > 0 ? LFS_ERR_IO : err; }

/* Reads bytes of a block to its place in a block's room, in whole read sizes. */
static int read_part(const struct lfs_config *cfg, lfs_block_t block, lfs_off_t off, lfs_size_t size, uint8_t *room) {
    lfs_off_t first = off - off % cfg->read_size, behind = off + size;
    behind += (cfg->read_size - behind % cfg->read_size) % cfg->read_size;
    return callback_error(cfg->read(cfg, block, first, room + first, behind - first));
}

static int is_blank(const uint8_t *bytes, lfs_size_t size) {
    for (lfs_size_t at = 0; at < size; at++)
        if (bytes[at] != 0xff) return 0;
    return 1;
}

static int program(lfs_t *lfs, lfs_block_t block, lfs_off_t off, const uint8_t *bytes, lfs_size_t size) {
    uint8_t *room = lfs->mounted->read_back;
    int err = callback_error(lfs->cfg->prog(lfs->cfg, block, off, bytes, size));
    if (!err) err = read_part(lfs->cfg, block, off, size, room);
    return err ? err : memcmp(room + off, bytes, size) ? LFS_ERR_CORRUPT : 0;
}

/* Erases a block. Where the device leaves other bytes than 0xff, programs these. */
static int erase(lfs_t *lfs, lfs_block_t block) {
    struct lfs_mounted *m = lfs->mounted;
    int err = callback_error(lfs->cfg->erase(lfs->cfg, block));
    if (!err) err = read_part(lfs->cfg, block, 0, m->block_size, m->read_back);
    if (err || is_blank(m->read_back, m->block_size)) return err;
    uint8_t blank[512];
    memset(blank, 0xff, sizeof blank);
    for (lfs_off_t off = 0; off < m->block_size && !err; off += m->page)
        if (!is_blank(m->read_back + off, m->page)) err = program(lfs, block, off, blank, m->page);
    return err == LFS_ERR_CORRUPT ? LFS_ERR_IO : err;
}

/* Brings the changes of a call to the device. An error ends the mount. */
static int store_changes(lfs_t *lfs) {
    struct lfs_mounted *m = lfs->mounted;
    lfs_c_change change;
    int64_t answer = 1;
    uint64_t first = m->next;
    int err = m->has_ended ? LFS_ERR_IO : 0;
    while (!err && (answer = lfs_c_fetch_change(&m->volume, m->next, &change, m->bytes, m->block_size)) == 1) {
        if (change.kind == LFS_C_ERASE) err = erase(lfs, change.block);
        else err = program(lfs, change.block, change.offset, m->bytes, (lfs_size_t)change.len);
        m->next++;
    }
    if (!err && answer < 0) err = LFS_ERR_NOMEM;
    if (!err && m->next != first) err = callback_error(lfs->cfg->sync(lfs->cfg));
    if (err) m->has_ended = 1;
    return err;
}

/* What a call answers that may have changed the image. */
static int stored(lfs_t *lfs, int64_t answer) {
    int err = store_changes(lfs);
    return err ? err : error_of(answer);
}

/* Looks whether the device still has the image, by the beginning of its first two blocks. */
static int look_at_device(lfs_t *lfs) {
    struct lfs_mounted *m = lfs->mounted;
    lfs_size_t size = lfs->cfg->read_size < 32 ? 32 : lfs->cfg->read_size;
    for (lfs_block_t block = 0; block < 2; block++) {
        int err = read_part(lfs->cfg, block, 0, size, m->read_back);
        if (err) return err;
        lfs_c_image_part(&m->volume, (size_t)block * m->block_size, m->bytes, size);
        if (memcmp(m->bytes, m->read_back, size)) {
            m->has_ended = 1;
            return LFS_ERR_CORRUPT;
        }
    }
    return 0;
}

/* ---- Each call */

#ifdef LFS_THREADSAFE
static int lock(const struct lfs_config *cfg) { return cfg->lock(cfg); }
static void unlock(const struct lfs_config *cfg) { cfg->unlock(cfg); }
#else
static int lock(const struct lfs_config *cfg) {
    (void)cfg;
    return 0;
}
static void unlock(const struct lfs_config *cfg) { (void)cfg; }
#endif

static int end(lfs_t *lfs, int answer) {
    unlock(lfs->cfg);
    return answer;
}

/* Begins a call on what is mounted. */
static int begin(lfs_t *lfs) {
    int err = lock(lfs->cfg);
    if (err) return err;
    if (!lfs->mounted) return end(lfs, LFS_ERR_BADF);
    return lfs->mounted->has_ended ? end(lfs, LFS_ERR_IO) : 0;
}

/* Begins a call that looks into the tree. */
static int begin_in_tree(lfs_t *lfs) {
    int err = begin(lfs);
    if (err) return err;
    err = look_at_device(lfs);
    return err ? end(lfs, err) : 0;
}

/* ---- Paths */

static size_t without_last(const char *text, size_t len) {
    do len--;
    while (text[len] != '/');
    return len;
}

/* Makes a plain path, the first or the second one of a call. */
static int make_plain(lfs_t *lfs, int which, const char *path, struct plain *plain) {
    char **room = &lfs->mounted->paths[which], *text = realloc(*room, strlen(path) + 2);
    if (!text) return LFS_ERR_NOMEM;
    *room = text;
    *plain = (struct plain){(const uint8_t *)text, 0, IS_PLAIN};
    if (!*path) return LFS_ERR_INVAL;
    while (*path) {
        size_t slashes = strspn(path, "/"), name = strcspn(path + slashes, "/");
        if (slashes && plain->len && plain->end == IS_PLAIN) plain->end = HAD_SLASH;
        path += slashes;
        if (name == 1 && path[0] == '.') {
            plain->end = HAD_MORE;
        } else if (name == 2 && path[0] == '.' && path[1] == '.') {
            if (!plain->len) return LFS_ERR_INVAL;
            plain->len = without_last(text, plain->len);
            plain->end = HAD_MORE;
        } else if (name) {
            text[plain->len++] = '/';
            memcpy(text + plain->len, path, name);
            plain->len += name;
            plain->end = IS_PLAIN;
        }
        path += name;
    }
    if (!plain->len) {
        text[plain->len++] = '/';
        plain->end = IS_PLAIN;
    }
    text[plain->len] = 0;
    return 0;
}

static int64_t look_up(lfs_t *lfs, const struct plain *plain) { return lfs_c_stat_at(&lfs->mounted->volume, plain->text, plain->len); }

/* Makes a plain path to something that has to be there. */
static int make_found(lfs_t *lfs, int which, const char *path, struct plain *plain) {
    int err = make_plain(lfs, which, path, plain);
    if (err || plain->end == IS_PLAIN) return err;
    int64_t answer = look_up(lfs, plain);
    return answer < 0 ? error_of(answer) : answer == LFS_C_DIRECTORY ? 0 : LFS_ERR_NOTDIR;
}

/* Makes a plain path to something that may be new. A file's has no `/` behind it. */
static int make_new(lfs_t *lfs, int which, const char *path, struct plain *plain, int is_directory) {
    int err = make_found(lfs, which, path, plain);
    if (err != LFS_ERR_NOENT || plain->end == HAD_MORE) return err;
    if (is_directory) return 0;
    size_t parent = without_last((const char *)plain->text, plain->len);
    int64_t answer = look_up(lfs, &(struct plain){plain->text, parent ? parent : 1, IS_PLAIN});
    return answer < 0 ? error_of(answer) : LFS_ERR_NOTDIR;
}

/* ---- Open files and directories */

static struct lfs_opened *add_opened(struct lfs_mounted *m, const struct plain *plain) {
    struct lfs_opened *it = calloc(1, sizeof *it);
    char *path = malloc(plain->len + 1);
    if (!it || !path) {
        free(it);
        free(path);
        return NULL;
    }
    memcpy(path, plain->text, plain->len);
    path[plain->len] = 0;
    it->path = path;
    it->mounted = m;
    it->next = m->first;
    m->first = it;
    return it;
}

static void free_mounted(struct lfs_mounted *m) {
    free(m->bytes);
    free(m->read_back);
    free(m->paths[0]);
    free(m->paths[1]);
    free(m);
}

static void drop_opened(struct lfs_opened *it) {
    struct lfs_mounted *m = it->mounted;
    struct lfs_opened **link = &m->first;
    while (*link != it) link = &(*link)->next;
    *link = it->next;
    free(it->path);
    free(it->entries);
    free(it->names);
    free(it);
    if (!m->first && !m->volume.is_open) free_mounted(m);
}

static int is_at_or_beneath(const char *path, const struct plain *plain) {
    return path && !strncmp(path, (const char *)plain->text, plain->len) && (!path[plain->len] || path[plain->len] == '/');
}

static void lose_path(struct lfs_mounted *m, const struct plain *gone) {
    for (struct lfs_opened *it = m->first; it; it = it->next) {
        if (!is_at_or_beneath(it->path, gone)) continue;
        free(it->path);
        it->path = NULL;
    }
}

/* Makes the new paths of what is open at or beneath a path. */
static int plan_moves(struct lfs_mounted *m, const struct plain *old, const struct plain *new) {
    for (struct lfs_opened *it = m->first; it; it = it->next) {
        if (!is_at_or_beneath(it->path, old)) continue;
        size_t rest = strlen(it->path) - old->len + 1;
        it->moved = malloc(new->len + rest);
        if (!it->moved) return LFS_ERR_NOMEM;
        memcpy(it->moved, new->text, new->len);
        memcpy(it->moved + new->len, it->path + old->len, rest);
    }
    return 0;
}

/* Gives what is open its new path if the rename was done. */
static void end_moves(struct lfs_mounted *m, int is_done) {
    for (struct lfs_opened *it = m->first; it; it = it->next) {
        if (!it->moved) continue;
        free(is_done ? it->path : it->moved);
        if (is_done) it->path = it->moved;
        it->moved = NULL;
    }
}

/* Begins a call on an open file or directory. */
static int begin_opened(lfs_t *lfs, struct lfs_opened *it) {
    int err = begin(lfs);
    if (err) return err;
    return it && it->mounted == lfs->mounted ? 0 : end(lfs, LFS_ERR_BADF);
}

/* ---- Format, mount and unmount */

/* The least page of which programs can be made, or 0. */
static lfs_size_t page_of(const struct lfs_config *cfg) {
    if (!cfg->prog_size) return 0;
    for (lfs_size_t page = 8; page <= 512; page *= 2)
        if (page % cfg->prog_size == 0 && cfg->block_size % page == 0 && page <= cfg->block_size / 8) return page;
    return 0;
}

static lfs_size_t limit(lfs_size_t given, lfs_size_t most) { return given && given < most ? given : most; }

static lfs_size_t inline_max_of(const struct lfs_config *cfg, lfs_size_t attr_max) {
    if (cfg->inline_max == (lfs_size_t)-1) return 1;
    if (cfg->inline_max) return cfg->inline_max;
    return lfs_min(lfs_min(cfg->cache_size, attr_max), limit(cfg->metadata_max, cfg->block_size) / 8);
}

static int is_allowed(const struct lfs_config *cfg) {
    if (!cfg->read_size || !cfg->cache_size || !cfg->block_cycles || !page_of(cfg)) return 0;
    return cfg->block_size <= 65536 && cfg->block_size % cfg->read_size == 0 && (uint64_t)cfg->block_size * cfg->block_count <= MOST_BYTES;
}

/* Begins a file system that holds nothing yet, and makes the configuration of its volume. */
static int prepare(lfs_t *lfs, const struct lfs_config *cfg, lfs_c_config *config) {
    *lfs = (lfs_t){.cfg = cfg, .block_count = cfg->block_count};
    if (!is_allowed(cfg)) return LFS_ERR_INVAL;
    lfs->name_max = limit(cfg->name_max, limit(LFS_NAME_MAX, 255));
    lfs->file_max = limit(cfg->file_max, LFS_FILE_MAX);
    lfs->attr_max = limit(cfg->attr_max, limit(LFS_ATTR_MAX, LONGEST_ATTR));
    lfs->inline_max = lfs_min(inline_max_of(cfg, lfs->attr_max), LONGEST_ATTR);
    *config = (lfs_c_config)LFS_C_CONFIG(cfg->block_size, page_of(cfg));
    config->versions = LFS_C_ALSO_2_1;
    config->name_max = lfs->name_max;
    config->file_max = lfs->file_max;
    config->attr_max = lfs->attr_max;
    config->inline_max = lfs->inline_max;
    config->pair_cycles = cfg->block_cycles < 0 ? 0 : ((uint32_t)cfg->block_cycles + 1) | 1;
    struct lfs_mounted *m = lfs->mounted = calloc(1, sizeof *m);
    if (!m) return LFS_ERR_NOMEM;
    m->block_size = cfg->block_size;
    m->page = config->page;
    m->bytes = malloc(m->block_size);
    m->read_back = malloc(m->block_size);
    return m->bytes && m->read_back ? 0 : LFS_ERR_NOMEM;
}

/* Frees what isn't open. */
static void discard(lfs_t *lfs) {
    struct lfs_mounted *m = lfs->mounted;
    lfs->mounted = NULL;
    if (!m) return;
    lfs_c_unmount(&m->volume);
    if (!m->first) free_mounted(m);
}

/* Writes a block of a new file system to the device. */
static int write_block(lfs_t *lfs, lfs_block_t block) {
    struct lfs_mounted *m = lfs->mounted;
    lfs_c_image_part(&m->volume, (size_t)block * m->block_size, m->bytes, m->block_size);
    int err = erase(lfs, block);
    for (lfs_off_t off = 0; off < m->block_size && !err; off += m->page)
        if (!is_blank(m->bytes + off, m->page)) err = program(lfs, block, off, m->bytes + off, m->page);
    return err;
}

static int format(lfs_t *lfs, const struct lfs_config *cfg) {
    lfs_c_config config;
    int err = prepare(lfs, cfg, &config);
    if (!err) err = error_of(lfs_c_mkfs(&lfs->mounted->volume, &config, cfg->block_count));
    for (lfs_block_t block = 0; block < 2 && !err; block++) err = write_block(lfs, block);
    if (!err) err = callback_error(cfg->sync(cfg));
    discard(lfs);
    return err;
}

int lfs_format(lfs_t *lfs, const struct lfs_config *cfg) {
    int err = lock(cfg);
    if (err) return err;
    err = format(lfs, cfg);
    unlock(cfg);
    return err;
}

/* What blocks 0 and 1 seem to say of an image, or zeros. Nothing rests on it but how many blocks are read if the caller doesn't say it, and
 * which error a refused image is. */
static lfs_c_fsinfo seen_superblock(const uint8_t *image, lfs_size_t block_size) {
    uint32_t words[6] = {0};
    for (lfs_block_t block = 0; block < 2 && !words[0]; block++, image += block_size)
        if (!memcmp(image + 8, "littlefs", 8)) memcpy(words, image + 20, sizeof words);
    for (int k = 0; k < 6; k++) words[k] = lfs_fromle32(words[k]);
    return (lfs_c_fsinfo){words[0], words[1], words[2], words[3], words[4], words[5]};
}

/* Whether the configuration is for such images. */
static int is_for(const lfs_t *lfs, const lfs_c_fsinfo *seen) {
    uint32_t version = LFS_DISK_VERSION;
#ifdef LFS_MULTIVERSION
    if (lfs->cfg->disk_version) version = lfs->cfg->disk_version;
#endif
    return seen->disk_version >> 16 == version >> 16 && seen->disk_version <= version && seen->block_size == lfs->cfg->block_size
        && seen->block_count == lfs->block_count && seen->name_max <= lfs->name_max && seen->file_max <= lfs->file_max && seen->attr_max <= lfs->attr_max;
}

static int read_blocks(lfs_t *lfs, uint8_t *image, lfs_block_t from, lfs_block_t to) {
    int err = 0;
    for (lfs_block_t block = from; block < to && !err; block++)
        err = callback_error(lfs->cfg->read(lfs->cfg, block, 0, image + (size_t)block * lfs->cfg->block_size, lfs->cfg->block_size));
    return err;
}

/* Reads the device into memory of its own, which the caller frees also after an error. */
static int read_device(lfs_t *lfs, uint8_t **image, lfs_c_fsinfo *seen) {
    size_t size = lfs->cfg->block_size;
    *image = malloc(2 * size);
    if (!*image) return LFS_ERR_NOMEM;
    if (lfs->block_count == 1) return LFS_ERR_INVAL;
    int err = read_blocks(lfs, *image, 0, 2);
    if (err) return err;
    *seen = seen_superblock(*image, lfs->cfg->block_size);
    if (!lfs->block_count && !seen->disk_version) return LFS_ERR_CORRUPT;
    if (!lfs->block_count) lfs->block_count = seen->block_count;
    if (lfs->block_count < 2 || (uint64_t)size * lfs->block_count > MOST_BYTES) return LFS_ERR_INVAL;
    uint8_t *all = realloc(*image, size * lfs->block_count);
    if (!all) return LFS_ERR_NOMEM;
    *image = all;
    return read_blocks(lfs, all, 2, lfs->block_count);
}

static int mount_image(lfs_t *lfs, const lfs_c_config *config, const uint8_t *image, const lfs_c_fsinfo *seen) {
    lfs_c_volume *volume = &lfs->mounted->volume;
    lfs_c_fsinfo found;
    int err = error_of(lfs_c_mount_with_limits(volume, config, image, (size_t)config->block_size * lfs->block_count));
    if (err == LFS_ERR_CORRUPT && seen->disk_version && !is_for(lfs, seen)) return LFS_ERR_INVAL;
    if (!err) err = error_of(lfs_c_superblock(volume, &found));
    if (!err && !is_for(lfs, &found)) err = LFS_ERR_INVAL;
    if (err) return err;
    lfs->name_max = limit(found.name_max, lfs->name_max);
    lfs->file_max = limit(found.file_max, lfs->file_max);
    lfs->attr_max = limit(found.attr_max, lfs->attr_max);
    lfs->inline_max = lfs_min(lfs->inline_max, lfs->attr_max);
    int64_t next = lfs_c_note_changes(volume);
    if (next < 0) return error_of(next);
    lfs->mounted->next = (uint64_t)next;
    return 0;
}

int lfs_mount(lfs_t *lfs, const struct lfs_config *cfg) {
    lfs_c_config config;
    lfs_c_fsinfo seen;
    uint8_t *image = NULL;
    int err = lock(cfg);
    if (err) return err;
    err = prepare(lfs, cfg, &config);
    if (!err) err = read_device(lfs, &image, &seen);
    if (!err) err = mount_image(lfs, &config, image, &seen);
    free(image);
    if (err) discard(lfs);
    unlock(cfg);
    return err;
}

int lfs_unmount(lfs_t *lfs) {
    int err = lock(lfs->cfg);
    if (err) return err;
    discard(lfs);
    return end(lfs, 0);
}

/* ---- What is at a path */

int lfs_remove(lfs_t *lfs, const char *path) {
    struct plain plain;
    int err = begin_in_tree(lfs);
    if (err) return err;
    err = make_found(lfs, 0, path, &plain);
    if (err) return end(lfs, err);
    err = stored(lfs, lfs_c_remove_at(&lfs->mounted->volume, plain.text, plain.len));
    if (!err) lose_path(lfs->mounted, &plain);
    return end(lfs, err);
}

static int rename_entry(lfs_t *lfs, const char *oldpath, const char *newpath) {
    struct lfs_mounted *m = lfs->mounted;
    struct plain old, new;
    int err = make_found(lfs, 0, oldpath, &old);
    if (err) return err;
    if (old.len == 1) return LFS_ERR_INVAL;
    int64_t found = look_up(lfs, &old);
    if (found < 0) return error_of(found);
    err = make_new(lfs, 1, newpath, &new, found == LFS_C_DIRECTORY);
    if (err) return err;
    int is_same = old.len == new.len && !memcmp(old.text, new.text, old.len);
    if (found != LFS_C_DIRECTORY && !is_same && is_at_or_beneath((const char *)new.text, &old)) return LFS_ERR_NOTDIR;
    err = is_same ? 0 : plan_moves(m, &old, &new);
    if (!err) err = stored(lfs, lfs_c_rename_at(&m->volume, old.text, old.len, new.text, new.len));
    if (!err && !is_same) lose_path(m, &new);
    end_moves(m, !err);
    return err;
}

int lfs_rename(lfs_t *lfs, const char *oldpath, const char *newpath) {
    int err = begin_in_tree(lfs);
    return err ? err : end(lfs, rename_entry(lfs, oldpath, newpath));
}

static void show(struct lfs_info *info, int is_directory, lfs_size_t size, const char *name, size_t len) {
    memset(info, 0, sizeof *info);
    info->type = is_directory ? LFS_TYPE_DIR : LFS_TYPE_REG;
    info->size = is_directory ? 0 : size;
    memcpy(info->name, name, lfs_min((uint32_t)len, LFS_NAME_MAX));
}

int lfs_stat(lfs_t *lfs, const char *path, struct lfs_info *info) {
    struct plain plain;
    int err = begin_in_tree(lfs);
    if (err) return err;
    err = make_found(lfs, 0, path, &plain);
    if (err) return end(lfs, err);
    int64_t answer = look_up(lfs, &plain);
    if (answer < 0) return end(lfs, error_of(answer));
    const char *text = (const char *)plain.text;
    size_t name = plain.len == 1 ? 0 : without_last(text, plain.len) + 1;
    show(info, answer == LFS_C_DIRECTORY, (lfs_size_t)answer, text + name, plain.len - name);
    return end(lfs, 0);
}

/* Reads an attribute of an entry as far as a buffer has room, with zeros behind it. Returns its size. */
static int64_t read_attribute(lfs_t *lfs, const struct plain *plain, uint8_t type, void *buffer, lfs_size_t size) {
    uint8_t bytes[LONGEST_ATTR];
    int64_t answer = lfs_c_get_attr_at(&lfs->mounted->volume, plain->text, plain->len, type, bytes, sizeof bytes);
    if (answer < 0 || !size) return answer;
    lfs_size_t count = lfs_min((uint32_t)answer, size);
    memcpy(buffer, bytes, count);
    memset((uint8_t *)buffer + count, 0, size - count);
    return answer;
}

lfs_ssize_t lfs_getattr(lfs_t *lfs, const char *path, uint8_t type, void *buffer, lfs_size_t size) {
    struct plain plain;
    int err = begin_in_tree(lfs);
    if (err) return err;
    err = make_found(lfs, 0, path, &plain);
    return end(lfs, err ? err : error_of(read_attribute(lfs, &plain, type, buffer, size)));
}

static int set_attribute(lfs_t *lfs, const struct plain *plain, uint8_t type, const void *buffer, lfs_size_t size) {
    static const uint8_t none[1];
    return stored(lfs, lfs_c_set_attr_at(&lfs->mounted->volume, plain->text, plain->len, type, size ? buffer : none, size));
}

int lfs_setattr(lfs_t *lfs, const char *path, uint8_t type, const void *buffer, lfs_size_t size) {
    struct plain plain;
    int err = begin_in_tree(lfs);
    if (err) return err;
    if (size > lfs->attr_max) return end(lfs, LFS_ERR_NOSPC);
    err = make_found(lfs, 0, path, &plain);
    return end(lfs, err ? err : set_attribute(lfs, &plain, type, buffer, size));
}

int lfs_removeattr(lfs_t *lfs, const char *path, uint8_t type) {
    struct plain plain;
    int err = begin_in_tree(lfs);
    if (err) return err;
    err = make_found(lfs, 0, path, &plain);
    if (!err) err = stored(lfs, lfs_c_remove_attr_at(&lfs->mounted->volume, plain.text, plain.len, type));
    return end(lfs, err == LFS_ERR_NOATTR ? 0 : err);
}

/* ---- Files */

/* The flags by which the volume opens a file: to make or to cut it, it is written. */
static int volume_flags(lfs_t *lfs, const struct plain *plain, int flags, uint32_t *asked) {
    *asked = (uint32_t)flags & (LFS_C_READ | LFS_C_WRITE | LFS_C_CREATE | LFS_C_EXCLUSIVE | LFS_C_TRUNCATE | LFS_C_APPEND);
    if (!(*asked & (LFS_C_READ | LFS_C_WRITE))) return LFS_ERR_INVAL;
    if (!(*asked & LFS_C_WRITE)) *asked &= ~(uint32_t)LFS_C_APPEND;
    if (*asked & (LFS_C_CREATE | LFS_C_TRUNCATE)) *asked |= LFS_C_WRITE;
    if (*asked & LFS_C_CREATE || !(*asked & LFS_C_EXCLUSIVE)) return 0;
    *asked &= ~(uint32_t)LFS_C_EXCLUSIVE;
    int64_t answer = look_up(lfs, plain);
    return answer < 0 ? error_of(answer) : LFS_ERR_EXIST;
}

/* Looks whether the attributes of a file can be stored that is opened for writing, and notes that they are to be. */
static int note_attributes(lfs_t *lfs, lfs_file_t *file) {
    if (!(file->flags & LFS_O_WRONLY)) return 0;
    for (lfs_size_t k = 0; k < file->cfg->attr_count; k++) {
        if (file->cfg->attrs[k].size > lfs->attr_max) return LFS_ERR_NOSPC;
        file->flags |= LFS_F_DIRTY;
    }
    return 0;
}

static int read_attributes(lfs_t *lfs, const lfs_file_t *file, const struct plain *plain) {
    if (!(file->flags & LFS_O_RDONLY)) return 0;
    for (lfs_size_t k = 0; k < file->cfg->attr_count; k++) {
        const struct lfs_attr *attr = &file->cfg->attrs[k];
        int64_t answer = read_attribute(lfs, plain, attr->type, attr->buffer, attr->size);
        if (answer < 0 && answer != -LFS_C_NO_ATTR) return error_of(answer);
    }
    return 0;
}

static int open_file(lfs_t *lfs, lfs_file_t *file, const char *path, int flags) {
    struct plain plain;
    uint32_t asked;
    int err = flags & LFS_O_CREAT ? make_new(lfs, 0, path, &plain, 0) : make_found(lfs, 0, path, &plain);
    if (!err) err = volume_flags(lfs, &plain, flags, &asked);
    if (!err) err = note_attributes(lfs, file);
    if (err) return err;
    struct lfs_opened *it = add_opened(lfs->mounted, &plain);
    if (!it) return LFS_ERR_NOMEM;
    int64_t number = lfs_c_open(&lfs->mounted->volume, plain.text, plain.len, asked);
    err = stored(lfs, number);
    if (err >= 0) err = read_attributes(lfs, file, &plain);
    if (err < 0) {
        if (number >= 0) stored(lfs, lfs_c_file_close(&lfs->mounted->volume, (uint32_t)number));
        drop_opened(it);
        return err;
    }
    it->number = (uint32_t)number;
    file->opened = it;
    if (asked & LFS_C_TRUNCATE) file->flags |= LFS_F_DIRTY;
    return 0;
}

int lfs_file_opencfg(lfs_t *lfs, lfs_file_t *file, const char *path, int flags, const struct lfs_file_config *cfg) {
    *file = (lfs_file_t){NULL, cfg, (uint32_t)flags & (LFS_O_RDWR | LFS_O_CREAT | LFS_O_EXCL | LFS_O_TRUNC | LFS_O_APPEND)};
    int err = begin_in_tree(lfs);
    return err ? err : end(lfs, open_file(lfs, file, path, flags));
}

int lfs_file_open(lfs_t *lfs, lfs_file_t *file, const char *path, int flags) {
    static const struct lfs_file_config defaults;
    return lfs_file_opencfg(lfs, file, path, flags, &defaults);
}

/* Begins a call on an open file that may have a purpose. It looks at the device then if the contents aren't inline. */
static int begin_file(lfs_t *lfs, lfs_file_t *file, uint32_t purpose) {
    int err = begin_opened(lfs, file->opened);
    if (err == LFS_ERR_IO) file->flags |= LFS_F_ERRED;
    if (err || !purpose) return err;
    if (!(file->flags & purpose)) return end(lfs, LFS_ERR_BADF);
    if (lfs_c_file_size(&lfs->mounted->volume, file->opened->number) <= lfs->inline_max) return 0;
    err = look_at_device(lfs);
    if (err && (purpose == LFS_O_WRONLY || lfs->mounted->has_ended)) file->flags |= LFS_F_ERRED;
    return err ? end(lfs, err) : 0;
}

static int store_attributes(lfs_t *lfs, const lfs_file_t *file) {
    const char *path = file->opened->path;
    int err = 0;
    if (!path || !(file->flags & LFS_O_WRONLY)) return 0;
    struct plain plain = {(const uint8_t *)path, strlen(path), IS_PLAIN};
    for (lfs_size_t k = 0; k < file->cfg->attr_count && !err; k++) {
        const struct lfs_attr *attr = &file->cfg->attrs[k];
        err = set_attribute(lfs, &plain, attr->type, attr->buffer, attr->size);
    }
    return err;
}

int lfs_file_sync(lfs_t *lfs, lfs_file_t *file) {
    int err = begin_file(lfs, file, 0);
    if (err) return err;
    if (file->flags & LFS_F_ERRED) return end(lfs, 0);
    int is_dirty = file->flags & LFS_F_DIRTY;
    if (is_dirty) err = look_at_device(lfs);
    if (!err) err = stored(lfs, lfs_c_file_sync(&lfs->mounted->volume, file->opened->number));
    if (!err && is_dirty) err = store_attributes(lfs, file);
    if (err) file->flags |= LFS_F_ERRED;
    else file->flags &= ~(uint32_t)LFS_F_DIRTY;
    return end(lfs, err);
}

/* Stores a file and closes it in the volume. An error of the device ends the mount. */
static int close_file(lfs_t *lfs, const lfs_file_t *file) {
    struct lfs_mounted *m = lfs->mounted;
    int is_dirty = file->flags & LFS_F_DIRTY && !(file->flags & LFS_F_ERRED), err = is_dirty ? look_at_device(lfs) : 0;
    if (err) {
        m->has_ended = 1;
        return err;
    }
    err = stored(lfs, lfs_c_file_close(&m->volume, file->opened->number));
    return !err && is_dirty ? store_attributes(lfs, file) : err;
}

/* A file that has returned an error is closed without another one. */
int lfs_file_close(lfs_t *lfs, lfs_file_t *file) {
    struct lfs_opened *it = file->opened;
    int err = lock(lfs->cfg);
    if (err) return err;
    if (!it || it->mounted != lfs->mounted) err = LFS_ERR_BADF;
    else if (lfs->mounted->has_ended) err = LFS_ERR_IO;
    else err = close_file(lfs, file);
    if (it) drop_opened(it);
    file->opened = NULL;
    return end(lfs, file->flags & LFS_F_ERRED && err != LFS_ERR_BADF ? 0 : err);
}

lfs_ssize_t lfs_file_read(lfs_t *lfs, lfs_file_t *file, void *buffer, lfs_size_t size) {
    int err = begin_file(lfs, file, LFS_O_RDONLY);
    if (err || !size) return err ? err : end(lfs, 0);
    return end(lfs, error_of(lfs_c_file_read(&lfs->mounted->volume, file->opened->number, buffer, size)));
}

lfs_ssize_t lfs_file_write(lfs_t *lfs, lfs_file_t *file, const void *buffer, lfs_size_t size) {
    int err = begin_file(lfs, file, LFS_O_WRONLY);
    if (err || !size) return err ? err : end(lfs, 0);
    err = error_of(lfs_c_file_write(&lfs->mounted->volume, file->opened->number, buffer, size));
    if (err > 0) file->flags = (file->flags | LFS_F_DIRTY) & ~(uint32_t)LFS_F_ERRED;
    return end(lfs, err);
}

lfs_soff_t lfs_file_seek(lfs_t *lfs, lfs_file_t *file, lfs_soff_t off, int whence) {
    int err = begin_file(lfs, file, 0);
    if (err) return err;
    lfs_c_volume *volume = &lfs->mounted->volume;
    uint32_t number = file->opened->number;
    int64_t position = whence == LFS_SEEK_SET ? 0 : whence == LFS_SEEK_END ? lfs_c_file_size(volume, number) : lfs_c_file_tell(volume, number);
    if (position < 0) return end(lfs, error_of(position));
    if (whence >= LFS_SEEK_SET && whence <= LFS_SEEK_END) position += off;
    if (position < 0 || position > (int64_t)lfs->file_max) return end(lfs, LFS_ERR_INVAL);
    err = error_of(lfs_c_file_seek(volume, number, (uint32_t)position));
    return end(lfs, err ? err : (lfs_soff_t)position);
}

int lfs_file_truncate(lfs_t *lfs, lfs_file_t *file, lfs_off_t size) {
    int err = begin_file(lfs, file, LFS_O_WRONLY);
    if (err) return err;
    if (size > LFS_FILE_MAX) return end(lfs, LFS_ERR_INVAL);
    lfs_c_volume *volume = &lfs->mounted->volume;
    if (lfs_c_file_size(volume, file->opened->number) == size) return end(lfs, 0);
    err = error_of(lfs_c_file_truncate(volume, file->opened->number, size));
    if (!err) file->flags |= LFS_F_DIRTY;
    return end(lfs, err);
}

lfs_soff_t lfs_file_tell(lfs_t *lfs, lfs_file_t *file) {
    int err = begin_file(lfs, file, 0);
    return err ? err : end(lfs, error_of(lfs_c_file_tell(&lfs->mounted->volume, file->opened->number)));
}

int lfs_file_rewind(lfs_t *lfs, lfs_file_t *file) {
    lfs_soff_t position = lfs_file_seek(lfs, file, 0, LFS_SEEK_SET);
    return position < 0 ? position : 0;
}

lfs_soff_t lfs_file_size(lfs_t *lfs, lfs_file_t *file) {
    int err = begin_file(lfs, file, 0);
    return err ? err : end(lfs, error_of(lfs_c_file_size(&lfs->mounted->volume, file->opened->number)));
}

/* ---- Directories */

int lfs_mkdir(lfs_t *lfs, const char *path) {
    struct plain plain;
    int err = begin_in_tree(lfs);
    if (err) return err;
    err = make_new(lfs, 0, path, &plain, 1);
    return end(lfs, err ? err : stored(lfs, lfs_c_mkdir_at(&lfs->mounted->volume, plain.text, plain.len)));
}

/* Of two names that begin alike the longer one comes first. */
static int in_order(const void *one, const void *other) {
    const unsigned char *a = (const unsigned char *)((const struct listed *)one)->name, *b = (const unsigned char *)((const struct listed *)other)->name;
    while (*a && *a == *b) a++, b++;
    return *a == *b ? 0 : !*a ? 1 : !*b ? -1 : *a < *b ? -1 : 1;
}

/* Counts the entries of a list, and the bytes of their names with zeros behind them. */
static int64_t count_entries(lfs_c_volume *volume, uint32_t number, uint32_t *count, size_t *bytes) {
    lfs_c_entry entry;
    uint8_t name[255];
    int64_t answer;
    for (*count = 0, *bytes = 0; (answer = lfs_c_dir_read(volume, number, &entry, name, sizeof name)) == 1; ++*count) *bytes += entry.name_len + 1;
    return answer ? answer : lfs_c_dir_seek(volume, number, 0);
}

static int64_t copy_entries(lfs_c_volume *volume, uint32_t number, struct lfs_opened *it, char *name) {
    lfs_c_entry entry;
    int64_t answer = 0;
    for (uint32_t k = 0; k < it->count; k++) {
        answer = lfs_c_dir_read(volume, number, &entry, (uint8_t *)name, 255);
        if (answer != 1) return answer;
        it->entries[k] = (struct listed){entry.kind, entry.size, name};
        name[entry.name_len] = 0;
        name += entry.name_len + 1;
    }
    return answer;
}

/* Takes the list of a directory. One that was removed has none. */
static int take_list(lfs_t *lfs, struct lfs_opened *it) {
    lfs_c_volume *volume = &lfs->mounted->volume;
    size_t bytes;
    free(it->entries);
    free(it->names);
    it->entries = NULL;
    it->names = NULL;
    it->count = 0;
    it->listed_at = lfs->mounted->next;
    if (!it->path) return 0;
    int64_t number = lfs_c_dir_open(volume, (const uint8_t *)it->path, strlen(it->path));
    if (number < 0) return error_of(number);
    int64_t answer = count_entries(volume, (uint32_t)number, &it->count, &bytes);
    it->entries = malloc(it->count * sizeof *it->entries + 1);
    it->names = malloc(bytes + 255); /* a name is written where as many bytes as a name may have are left */
    if (answer >= 0) answer = it->entries && it->names ? copy_entries(volume, (uint32_t)number, it, it->names) : -LFS_C_NO_MEMORY;
    lfs_c_dir_close(volume, (uint32_t)number);
    if (answer < 0) it->count = 0;
    else if (it->count) qsort(it->entries, it->count, sizeof *it->entries, in_order);
    return answer < 0 ? error_of(answer) : 0;
}

static int open_directory(lfs_t *lfs, lfs_dir_t *dir, const char *path) {
    struct plain plain;
    int err = make_found(lfs, 0, path, &plain);
    if (err) return err;
    struct lfs_opened *it = add_opened(lfs->mounted, &plain);
    if (!it) return LFS_ERR_NOMEM;
    err = take_list(lfs, it);
    if (err) drop_opened(it);
    else dir->opened = it;
    return err;
}

int lfs_dir_open(lfs_t *lfs, lfs_dir_t *dir, const char *path) {
    *dir = (lfs_dir_t){NULL, 0};
    int err = begin_in_tree(lfs);
    return err ? err : end(lfs, open_directory(lfs, dir, path));
}

int lfs_dir_close(lfs_t *lfs, lfs_dir_t *dir) {
    struct lfs_opened *it = dir->opened;
    int err = lock(lfs->cfg);
    if (err) return err;
    if (it) drop_opened(it);
    dir->opened = NULL;
    return end(lfs, it ? 0 : LFS_ERR_BADF);
}

/* Says what an entry of a list is now. Returns 1, 0 if it has gone, or an error. */
static int show_listed(lfs_t *lfs, const struct lfs_opened *it, const struct listed *entry, struct lfs_info *info) {
    size_t parent = it->path ? strlen(it->path) : 0, name = strlen(entry->name);
    int64_t answer = entry->kind == LFS_C_DIR ? LFS_C_DIRECTORY : entry->size;
    if (lfs->mounted->next != it->listed_at) {
        if (!it->path) return 0;
        char *path = realloc(lfs->mounted->paths[0], parent + name + 1);
        if (!path) return LFS_ERR_NOMEM;
        lfs->mounted->paths[0] = path;
        if (parent == 1) parent = 0;
        memcpy(path, it->path, parent);
        path[parent] = '/';
        memcpy(path + parent + 1, entry->name, name);
        answer = lfs_c_stat_at(&lfs->mounted->volume, (const uint8_t *)path, parent + 1 + name);
        if (answer == -LFS_C_NO_ENT || answer == -LFS_C_NOT_DIR) return 0;
        if (answer < 0) return error_of(answer);
    }
    show(info, answer == LFS_C_DIRECTORY, (lfs_size_t)answer, entry->name, name);
    return 1;
}

int lfs_dir_read(lfs_t *lfs, lfs_dir_t *dir, struct lfs_info *info) {
    int answer = begin_opened(lfs, dir->opened);
    if (answer) return answer;
    struct lfs_opened *it = dir->opened;
    memset(info, 0, sizeof *info);
    if (dir->pos < 2) {
        dir->pos++;
        show(info, 1, 0, "..", dir->pos);
        return end(lfs, 1);
    }
    while (!answer && dir->pos - 2 < it->count) answer = show_listed(lfs, it, &it->entries[dir->pos++ - 2], info);
    return end(lfs, answer);
}

int lfs_dir_seek(lfs_t *lfs, lfs_dir_t *dir, lfs_off_t off) {
    if (!off) return lfs_dir_rewind(lfs, dir);
    int err = begin_opened(lfs, dir->opened);
    if (err) return err;
    if (off > dir->opened->count + 2) return end(lfs, LFS_ERR_INVAL);
    dir->pos = off;
    return end(lfs, 0);
}

lfs_soff_t lfs_dir_tell(lfs_t *lfs, lfs_dir_t *dir) {
    int err = begin_opened(lfs, dir->opened);
    return err ? err : end(lfs, (int)dir->pos);
}

int lfs_dir_rewind(lfs_t *lfs, lfs_dir_t *dir) {
    int err = begin_opened(lfs, dir->opened);
    if (err) return err;
    err = look_at_device(lfs);
    if (!err) err = take_list(lfs, dir->opened);
    if (!err) dir->pos = 0;
    return end(lfs, err);
}

/* ---- The whole */

int lfs_fs_stat(lfs_t *lfs, struct lfs_fsinfo *fsinfo) {
    lfs_c_fsinfo found;
    int err = begin_in_tree(lfs);
    if (err) return err;
    err = error_of(lfs_c_superblock(&lfs->mounted->volume, &found));
    if (!err) *fsinfo = (struct lfs_fsinfo){found.disk_version, found.block_size, found.block_count, lfs->name_max, lfs->file_max, lfs->attr_max};
    return end(lfs, err);
}

lfs_ssize_t lfs_fs_size(lfs_t *lfs) {
    int err = begin_in_tree(lfs);
    return err ? err : end(lfs, error_of(lfs_c_used_blocks(&lfs->mounted->volume)));
}

/* Counts the directories beneath one. */
static int count_directories(lfs_t *lfs, const struct plain *above, uint32_t *count) {
    struct lfs_opened *it = add_opened(lfs->mounted, above);
    if (!it) return LFS_ERR_NOMEM;
    int err = take_list(lfs, it);
    for (uint32_t k = 0; k < it->count && !err; k++) {
        if (it->entries[k].kind != LFS_C_DIR) continue;
        ++*count;
        size_t name = strlen(it->entries[k].name), len = above->len == 1 ? 0 : above->len;
        char *path = malloc(len + name + 2);
        if (path) {
            memcpy(path, above->text, len);
            path[len] = '/';
            memcpy(path + len + 1, it->entries[k].name, name);
        }
        err = path ? count_directories(lfs, &(struct plain){(const uint8_t *)path, len + 1 + name, IS_PLAIN}, count) : LFS_ERR_NOMEM;
        free(path);
    }
    drop_opened(it);
    return err;
}

int lfs_fs_traverse(lfs_t *lfs, int (*cb)(void *data, lfs_block_t block), void *data) {
    uint32_t directories = 0;
    int err = begin_in_tree(lfs);
    if (err) return err;
    err = count_directories(lfs, &(struct plain){(const uint8_t *)"/", 1, IS_PLAIN}, &directories);
    for (lfs_block_t block = 0; block < lfs->block_count && !err; block++) {
        int is_used = error_of(lfs_c_is_used(&lfs->mounted->volume, block));
        if (is_used) err = is_used < 0 ? is_used : cb(data, block);
    }
    for (; directories && !err; directories--) {
        err = cb(data, 0);
        if (!err) err = cb(data, 1);
    }
    return end(lfs, err);
}

int lfs_fs_mkconsistent(lfs_t *lfs) {
    int err = begin_in_tree(lfs);
    return err ? err : end(lfs, stored(lfs, lfs_c_recover(&lfs->mounted->volume)));
}

int lfs_fs_gc(lfs_t *lfs) { return lfs_fs_mkconsistent(lfs); }

int lfs_fs_grow(lfs_t *lfs, lfs_size_t block_count) {
    int err = begin_in_tree(lfs);
    return err ? err : end(lfs, block_count == lfs->block_count ? 0 : LFS_ERR_INVAL);
}

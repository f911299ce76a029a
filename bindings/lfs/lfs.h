/* littlefs's own interface, lfs.h of its release 2.11, over the proved library: for programs on hosts that are written against littlefs.
 *
 * Put this folder in place of littlefs's, and link two archives more: liblittlefs_c.a of crates/littlefs_c, and the kit's liblibc_c.a
 * (docs/C_PYTHON.md, "Programs on lfs.h"). Names, types, flags and numbers of errors are littlefs's. lfs_t, lfs_file_t and lfs_dir_t have
 * other fields, so compile again all that includes this header.
 *
 * Proved are the calls of littlefs_c.h, which decide all that is written but 0xff where an erase leaves other bytes. This header and lfs.c
 * aren't: they make plain paths, pass calls on, and bring changes to the device.
 *
 * ---- The device
 *
 * lfs_mount reads the whole device into memory. Each call that changes the image brings the changes to the device before it returns, in
 * order: `erase`, `prog` in whole pages, and at last `sync`. So the device has at each moment what the image had after some of its
 * changes, with the next one done in part. If power is lost then, the next mount finds the tree from before the call or from after it,
 * but for two calls: lfs_format, which may leave no image, and one that stores attributes of an open file (see below). A stopped program
 * or erase must leave what docs/PROVED.md, "Power loss", supposes of any device.
 *
 *   - Page: the least power of two from 8 to 512 that is a multiple of prog_size.
 *   - An erase must leave bytes of 0xff. Blocks are read back; where other bytes are left, as in memory or in a file, 0xff is programmed
 *     there. If other bytes are left then, too, the mount ends with LFS_ERR_IO.
 *   - What was programmed is read back. If it differs, the mount ends with LFS_ERR_CORRUPT.
 *   - If `prog`, `erase` or `sync` returns an error, that call returns the same, and the mount ends: nothing is written after it, and all
 *     other calls return LFS_ERR_IO, until lfs_unmount and lfs_mount. lfs_file_close returns 0 for a file that has returned an error
 *     already. littlefs goes to another block where LFS_ERR_CORRUPT is returned.
 *   - `read` is called at the mount, after each change, and at the beginning of a call that looks into the tree, into a file that isn't
 *     inline, or that stores a file: it reads the beginning of blocks 0 and 1 then. If that isn't the image's, the mount ends with
 *     LFS_ERR_CORRUPT. If `read` returns an error at a call's beginning, so does the call, and nothing has changed; the mount goes on, but
 *     for an lfs_file_close that has something to store. After a change an error of `read` ends the mount.
 *   - Nothing else may change the device while it is mounted.
 *
 * ---- Limits
 *
 *   - Blocks of less than 1,024 or more than 65,536 bytes, more than 65,536 blocks or 256 MiB, a prog_size of which no page is a multiple,
 *     and settings that littlefs asserts on: LFS_ERR_INVAL from lfs_format and lfs_mount.
 *   - lfs_fs_grow to another count of blocks: LFS_ERR_INVAL. lfs_migrate isn't declared.
 *   - Static buffers: read_buffer, prog_buffer, lookahead_buffer and lfs_file_config's buffer are taken and not used, also with
 *     LFS_NO_MALLOC. Memory comes from malloc: the image, twice at the mount; and an open file's contents, once it was read or written.
 *     If none is granted: LFS_ERR_NOMEM, and sometimes LFS_ERR_IO after that until lfs_unmount and lfs_mount. A mount that is dropped
 *     without lfs_unmount is never freed.
 *   - Attributes of the root: LFS_ERR_INVAL.
 *   - A file without an inline form: inline_max = -1 leaves files of one byte inline.
 *   - read_size and lookahead_size matter little, compact_thresh nothing. Images are made in version 2.0; an image of version 2.1 stays
 *     2.1. disk_version only limits what lfs_mount accepts. Metadata pairs are compacted by block_size, whatever metadata_max says.
 *   - An image that littlefs made and this library doesn't write, such as one with a longer inline file than inline_max, can be read;
 *     changes return LFS_ERR_ROFS, a number that littlefs doesn't have.
 *
 * ---- Differences from littlefs
 *
 *   - All files that are open on one path see the same contents at once, and a sync or a close of any of them stores these. A file stays
 *     usable when it is renamed, removed or replaced; what is written to a removed one is never stored. In littlefs a file that is
 *     renamed loses later writes.
 *   - A write is in memory until lfs_file_sync or lfs_file_close. So these return LFS_ERR_NOSPC where a write, a read or a seek of littlefs
 *     does. Nothing has changed then. After an lfs_file_sync that returned an error, another one stores nothing and returns 0, as
 *     littlefs's, until a write that succeeds; lfs_file_close tries to store the contents again, and returns 0.
 *   - With LFS_O_APPEND each write is at the end, also where the position is behind it. A write of 0 bytes behind the end does nothing.
 *   - The attributes of an open file are set after its contents, each by itself: if power is lost between them, the file has new contents
 *     with old attributes.
 *   - A new name without room is LFS_ERR_NOSPC, where littlefs returns LFS_ERR_NAMETOOLONG. So is a name that with its attributes
 *     would take more than half of its metadata pair.
 *   - A directory beneath itself as its new path is LFS_ERR_INVAL; littlefs makes an image that can't be walked.
 *   - lfs_file_read without LFS_O_RDONLY, a write or a truncate without LFS_O_WRONLY, and a call on a closed file or directory: LFS_ERR_BADF.
 *     littlefs asserts. An open without either flag is LFS_ERR_INVAL. */
#ifndef LFS_H
#define LFS_H

#include "lfs_util.h"

#ifdef __cplusplus
extern "C" {
#endif

#define LFS_VERSION 0x0002000b
#define LFS_VERSION_MAJOR (0xffff & (LFS_VERSION >> 16))
#define LFS_VERSION_MINOR (0xffff & (LFS_VERSION >> 0))

#define LFS_DISK_VERSION 0x00020001
#define LFS_DISK_VERSION_MAJOR (0xffff & (LFS_DISK_VERSION >> 16))
#define LFS_DISK_VERSION_MINOR (0xffff & (LFS_DISK_VERSION >> 0))

typedef uint32_t lfs_size_t;
typedef uint32_t lfs_off_t;
typedef int32_t lfs_ssize_t;
typedef int32_t lfs_soff_t;
typedef uint32_t lfs_block_t;

/* The most bytes of a name, a file and an attribute. They may be given lower; a name here has at most 255. */
#ifndef LFS_NAME_MAX
#define LFS_NAME_MAX 255
#endif
#ifndef LFS_FILE_MAX
#define LFS_FILE_MAX 2147483647
#endif
#ifndef LFS_ATTR_MAX
#define LFS_ATTR_MAX 1022
#endif

enum lfs_error {
    LFS_ERR_OK = 0,
    LFS_ERR_IO = -5,           /* the device, or the mount has ended */
    LFS_ERR_CORRUPT = -84,     /* no image, or the device doesn't keep it */
    LFS_ERR_NOENT = -2,        /* nothing is at the path */
    LFS_ERR_EXIST = -17,       /* something is at the path */
    LFS_ERR_NOTDIR = -20,      /* a file where a directory is needed */
    LFS_ERR_ISDIR = -21,       /* a directory where a file is needed */
    LFS_ERR_NOTEMPTY = -39,    /* the directory has entries */
    LFS_ERR_BADF = -9,         /* the file or directory isn't open, or not for that */
    LFS_ERR_FBIG = -27,        /* the file would be longer than file_max */
    LFS_ERR_INVAL = -22,       /* a parameter */
    LFS_ERR_NOSPC = -28,       /* too few free blocks, or an attribute longer than attr_max */
    LFS_ERR_NOMEM = -12,       /* no memory */
    LFS_ERR_NOATTR = -61,      /* the entry has no such attribute */
    LFS_ERR_NAMETOOLONG = -36, /* a new name longer than name_max */
    LFS_ERR_ROFS = -30,        /* not in littlefs: the image can only be read */
};

enum lfs_type {
    LFS_TYPE_REG = 0x001,
    LFS_TYPE_DIR = 0x002,
};

enum lfs_open_flags {
    LFS_O_RDONLY = 1,
    LFS_O_WRONLY = 2,
    LFS_O_RDWR = 3,
    LFS_O_CREAT = 0x0100,  /* makes the file if none is there */
    LFS_O_EXCL = 0x0200,   /* fails if something is there */
    LFS_O_TRUNC = 0x0400,  /* makes the file empty */
    LFS_O_APPEND = 0x0800, /* each write is at the end */

    LFS_F_DIRTY = 0x010000, /* used within: something is to be stored */
    LFS_F_ERRED = 0x080000, /* used within: the file has returned an error */
};

enum lfs_whence_flags {
    LFS_SEEK_SET = 0, /* from the beginning */
    LFS_SEEK_CUR = 1, /* from the position */
    LFS_SEEK_END = 2, /* from the end */
};

/* How the file system lies on the device. Set what isn't used to 0. It must stay as it is while the device is mounted. */
struct lfs_config {
    void *context; /* for the functions */

    /* Each returns 0, or an error below 0. */
    int (*read)(const struct lfs_config *c, lfs_block_t block, lfs_off_t off, void *buffer, lfs_size_t size);
    int (*prog)(const struct lfs_config *c, lfs_block_t block, lfs_off_t off, const void *buffer, lfs_size_t size);
    int (*erase)(const struct lfs_config *c, lfs_block_t block);
    int (*sync)(const struct lfs_config *c);
#ifdef LFS_THREADSAFE
    /* Called around each call. If lock returns an error, so does that call, and does nothing. */
    int (*lock)(const struct lfs_config *c);
    int (*unlock)(const struct lfs_config *c);
#endif

    lfs_size_t read_size;   /* bytes of which each read is a multiple */
    lfs_size_t prog_size;   /* bytes of which each program is a multiple */
    lfs_size_t block_size;  /* bytes, 1,024 to 65,536 */
    lfs_size_t block_count; /* 0: the superblock's, for lfs_mount alone */
    int32_t block_cycles;   /* compactions of a metadata pair until it moves to other blocks; -1: never */
    lfs_size_t cache_size;  /* bytes: a file up to this size is inline, unless inline_max is given */
    lfs_size_t lookahead_size, compact_thresh;            /* not used */
    void *read_buffer, *prog_buffer, *lookahead_buffer;   /* not used */

    /* Limits in bytes. 0: LFS_NAME_MAX, LFS_FILE_MAX and LFS_ATTR_MAX. An image with higher ones isn't mounted; lower ones of an image
     * stay. */
    lfs_size_t name_max, file_max, attr_max;

    lfs_size_t metadata_max; /* an eighth of it limits inline files */
    lfs_size_t inline_max;   /* bytes of a file that is inline; 0: as many as cache_size, attr_max and an eighth of a block allow */
#ifdef LFS_MULTIVERSION
    uint32_t disk_version; /* an image of a later version isn't mounted; 0: 2.1 */
#endif
};

/* An entry of a directory, or what is at a path. */
struct lfs_info {
    uint8_t type;    /* LFS_TYPE_REG or LFS_TYPE_DIR */
    lfs_size_t size; /* bytes of a file, as last synced */
    char name[LFS_NAME_MAX + 1];
};

/* The superblock. */
struct lfs_fsinfo {
    uint32_t disk_version; /* 0x00020000 or 0x00020001 */
    lfs_size_t block_size, block_count, name_max, file_max, attr_max;
};

/* An attribute of an open file. */
struct lfs_attr {
    uint8_t type;
    void *buffer;
    lfs_size_t size;
};

/* How a file is opened. It must stay as it is while the file is open. */
struct lfs_file_config {
    void *buffer; /* not used */
    /* Read into their buffers by the open if that reads: a shorter one is filled up with zeros, a longer one is cut, and the buffer of
     * one that isn't there stays. Stored from their buffers by a sync or a close if the file is open for writing, after the open and
     * after each change of its contents. */
    struct lfs_attr *attrs;
    lfs_size_t attr_count;
};

/* A mounted file system, an open file, an open directory. Their memory is the caller's; nothing points into it from elsewhere. */
struct lfs_mounted;
struct lfs_opened;

typedef struct lfs {
    const struct lfs_config *cfg;
    lfs_size_t block_count, name_max, file_max, attr_max, inline_max;
    struct lfs_mounted *mounted;
} lfs_t;

typedef struct lfs_file {
    struct lfs_opened *opened;
    const struct lfs_file_config *cfg;
    uint32_t flags;
} lfs_file_t;

typedef struct lfs_dir {
    struct lfs_opened *opened;
    lfs_off_t pos;
} lfs_dir_t;

/* ---- The file system. Calls return 0 or more, or an error. */

/* Makes an empty file system. Only blocks 0 and 1 are written. Leaves nothing mounted. */
int lfs_format(lfs_t *lfs, const struct lfs_config *config);

/* Reads the device and mounts it. LFS_ERR_CORRUPT if no image is on it; LFS_ERR_INVAL if one is, with other sizes, a later version or higher
 * limits than the configuration's. */
int lfs_mount(lfs_t *lfs, const struct lfs_config *config);

/* Frees what a mount holds. What an open file hasn't synced is lost; its lfs_file_close frees the rest, and returns LFS_ERR_BADF. */
int lfs_unmount(lfs_t *lfs);

/* ---- Paths: names with `/` between them, from the root on. `.`, `..` and further `/` are resolved by the text, as littlefs does; above the
 * root, and for no text at all, it is LFS_ERR_INVAL. With a `/` behind it a path is a directory's. */

/* Removes a file or an empty directory. */
int lfs_remove(lfs_t *lfs, const char *path);

/* Renames or moves an entry, in place of a file or an empty directory that is there. */
int lfs_rename(lfs_t *lfs, const char *oldpath, const char *newpath);

/* Says what is at a path. The name is the path's last one, `/` for the root. */
int lfs_stat(lfs_t *lfs, const char *path, struct lfs_info *info);

/* Returns the size of an attribute, and writes as much of it to the buffer as fits, with zeros behind it. LFS_ERR_NOATTR if there is none. */
lfs_ssize_t lfs_getattr(lfs_t *lfs, const char *path, uint8_t type, void *buffer, lfs_size_t size);

/* Sets an attribute. LFS_ERR_NOSPC if it is longer than attr_max. */
int lfs_setattr(lfs_t *lfs, const char *path, uint8_t type, const void *buffer, lfs_size_t size);

/* Removes an attribute, if there is one. */
int lfs_removeattr(lfs_t *lfs, const char *path, uint8_t type);

/* ---- Files */

int lfs_file_open(lfs_t *lfs, lfs_file_t *file, const char *path, int flags);
int lfs_file_opencfg(lfs_t *lfs, lfs_file_t *file, const char *path, int flags, const struct lfs_file_config *config);

/* Syncs the file and closes it, also if that returns an error. */
int lfs_file_close(lfs_t *lfs, lfs_file_t *file);

/* Stores what was written. */
int lfs_file_sync(lfs_t *lfs, lfs_file_t *file);

/* Return how many bytes were read or written. */
lfs_ssize_t lfs_file_read(lfs_t *lfs, lfs_file_t *file, void *buffer, lfs_size_t size);
lfs_ssize_t lfs_file_write(lfs_t *lfs, lfs_file_t *file, const void *buffer, lfs_size_t size);

/* Sets the position and returns it. It may be behind the end. LFS_ERR_INVAL below 0 or above file_max. */
lfs_soff_t lfs_file_seek(lfs_t *lfs, lfs_file_t *file, lfs_soff_t off, int whence);

/* Cuts the file, or fills it up with zeros. The position stays. LFS_ERR_INVAL above LFS_FILE_MAX, LFS_ERR_FBIG above file_max. */
int lfs_file_truncate(lfs_t *lfs, lfs_file_t *file, lfs_off_t size);

lfs_soff_t lfs_file_tell(lfs_t *lfs, lfs_file_t *file);
int lfs_file_rewind(lfs_t *lfs, lfs_file_t *file);
lfs_soff_t lfs_file_size(lfs_t *lfs, lfs_file_t *file);

/* ---- Directories: `.` and `..`, and then the entries in littlefs's order, of two names that begin alike the longer one first. They are
 * listed by the open, a rewind and a seek to 0. Entries that have gone since are passed over, and new ones aren't seen; types and sizes
 * are those of the moment. A directory that is renamed stays readable. */

int lfs_mkdir(lfs_t *lfs, const char *path);
int lfs_dir_open(lfs_t *lfs, lfs_dir_t *dir, const char *path);
int lfs_dir_close(lfs_t *lfs, lfs_dir_t *dir);

/* Returns 1 and an entry, or 0 at the end. */
int lfs_dir_read(lfs_t *lfs, lfs_dir_t *dir, struct lfs_info *info);

/* Sets the position to one that lfs_dir_tell has returned. */
int lfs_dir_seek(lfs_t *lfs, lfs_dir_t *dir, lfs_off_t off);
lfs_soff_t lfs_dir_tell(lfs_t *lfs, lfs_dir_t *dir);
int lfs_dir_rewind(lfs_t *lfs, lfs_dir_t *dir);

/* ---- The whole */

int lfs_fs_stat(lfs_t *lfs, struct lfs_fsinfo *fsinfo);

/* Returns how many blocks are used. What isn't synced takes none. */
lfs_ssize_t lfs_fs_size(lfs_t *lfs);

/* Calls a function for each used block in order, and then for block 0 and block 1 again for each directory below the root. So as many
 * calls are made as littlefs makes, which names a directory's blocks twice. If the function returns another number than 0, so does
 * this one, at once. The function calls nothing of this header. */
int lfs_fs_traverse(lfs_t *lfs, int (*cb)(void *data, lfs_block_t block), void *data);

/* Ends what a loss of power left half done. The first change after a mount does so, too. lfs_fs_gc is the same here. */
int lfs_fs_mkconsistent(lfs_t *lfs);
int lfs_fs_gc(lfs_t *lfs);

/* Returns 0 if the file system has that many blocks, and else LFS_ERR_INVAL. */
int lfs_fs_grow(lfs_t *lfs, lfs_size_t block_count);

#ifdef __cplusplus
}
#endif

#endif

/* littlefs over images in memory.
 *
 * An image is mounted once, as a volume, and then has many calls:
 *
 *     lfs_c_volume fs = LFS_C_CLOSED;                     // all zeros: no volume
 *     lfs_c_config config = LFS_C_CONFIG(4096, 256);      // blocks and pages, and the defaults of all else
 *     lfs_c_mount(&fs, &config, image, image_len);        // copies the image; or lfs_c_mkfs(&fs, &config, 16)
 *     int64_t file = lfs_c_open(&fs, path, path_len, LFS_C_WRITE | LFS_C_CREATE | LFS_C_APPEND);
 *     lfs_c_file_write(&fs, file, text, text_len);
 *     lfs_c_file_close(&fs, file);                        // commits
 *     lfs_c_image(&fs, image, image_len);                 // the image as it is now
 *     lfs_c_unmount(&fs);                                 // frees
 *
 * Any number of files may be open, for reading and writing both, also several times; and a file that is open may be renamed or
 * removed. A volume writes to memory. C can fetch each change of the image, and make it on a flash of its own: see "a flash of C's
 * own" below.
 *
 * Link out/liblittlefs_c.a of crates/littlefs_c, and the kit's c/liblibc_c.a, by which it calls malloc, realloc and free.
 *
 * A call returns 0 or more, or minus one of the numbers below. After a refusal nothing has changed: no file, no position,
 * no byte of the image, and no buffer; only lfs_c_file_close frees the file's number even then. A buffer is written only where what
 * it is to hold fits. docs/PROVED.md says which of this is proved.
 *
 * What the calls rely on, and can't check:
 *   - a pointer isn't NULL, not even beside a length of 0, and as many bytes lie there as the length says;
 *   - what a call may write (a struct or a buffer without const) overlaps with none of its other arguments;
 *   - nothing else reads or writes these bytes while the call runs. Calls on different volumes may run at the same time;
 *   - a volume is all zeros, or as the last call left it, and of two copies only one is used. It may go to another thread, which
 *     is told of it by a lock, a start or a join;
 *   - no call is made from a signal handler.
 * Any bytes may stand in an image, a path may be any bytes, and a number any number.
 *
 * An image has a whole number of blocks: 2 to 65,536 of 1,024 to 65,536 bytes each, at most 268,435,456 bytes in all. A page
 * is what the device programs at once: a power of two from 8 to 512, at most an eighth of a block, that divides it.
 * A path is `/`, or a `/` in front of each name. */
#ifndef LITTLEFS_C_H
#define LITTLEFS_C_H

#include <stddef.h>
#include <stdint.h>

#ifdef __cplusplus
extern "C" {
#endif

#define LFS_C_NO_ENT 2         /* nothing is at the path, or a parent of it isn't there */
#define LFS_C_BAD_FILE 9       /* no file or directory is open under the number, or the file is open for the other purpose */
#define LFS_C_NO_MEMORY 12     /* memory was wanted and not granted */
#define LFS_C_BUSY 16          /* the volume is mounted already */
#define LFS_C_EXIST 17         /* something is at the path already */
#define LFS_C_NOT_DIR 20       /* a file stands where a directory is needed */
#define LFS_C_IS_DIR 21        /* a directory stands where a file is needed */
#define LFS_C_INVALID 22       /* the bytes are no image of that geometry, or a path, flags, a position or a number is out of range */
#define LFS_C_TOO_BIG 27       /* a file or an attribute would pass its limit */
#define LFS_C_NO_SPACE 28      /* too few blocks are free */
#define LFS_C_READ_ONLY 30     /* the image can be read, and this library doesn't write images like it */
#define LFS_C_NAME_TOO_LONG 36 /* a name has more bytes than it may: 255, or as many as the configuration says */
#define LFS_C_NOT_EMPTY 39     /* the directory has entries */
#define LFS_C_NO_ATTR 61       /* the attribute isn't there */
#define LFS_C_NO_VOLUME 77     /* the volume isn't mounted */
#define LFS_C_CORRUPT 84       /* the bytes hold no image that is accepted; one of version 2.1 is with LFS_C_ALSO_2_1 */
#define LFS_C_FAILED 200       /* the volume had no memory in an earlier call; lfs_c_remount mends it */
#define LFS_C_ENTRY_FULL 201   /* a name and its attributes would take more than a half of their metadata pair */
#define LFS_C_NOT_KEPT 202     /* the change isn't kept */

/* What lfs_c_stat_at returns for a directory. */
#define LFS_C_DIRECTORY INT64_C(4294967296)

/* Which comes first of a name and a longer one that begins with it. littlefs's own code has the longer ones first. */
#define LFS_C_LONGER_FIRST 0
#define LFS_C_SHORTER_FIRST 1

/* ---- a volume */

/* An image that is mounted. Only the calls read and write it. */
typedef struct lfs_c_volume {
    void *at;
    uint64_t is_open;
} lfs_c_volume;

#define LFS_C_CLOSED { NULL, 0 }

/* How an image is divided, what is accepted of it, and what is written there. littlefs's own code mounts an image only if its
 * limits are at most those that the code was built with, and it changes short files only if its cache holds them. An image with
 * other limits can be read, and not be written. */
typedef struct lfs_c_config {
    uint32_t block_size; /* bytes */
    uint32_t page;       /* bytes */
    uint32_t order;      /* of names in a new image; a mount finds the order by the names */
    uint32_t versions;   /* LFS_C_ONLY_2_0, or LFS_C_ALSO_2_1 */
    uint32_t name_max;   /* bytes of a name, 1 to 255 */
    uint32_t file_max;   /* bytes of a file, 1 to 2,147,483,647 */
    uint32_t attr_max;   /* bytes of an attribute, 1 to 1,022 */
    uint32_t inline_max; /* bytes of a file that is kept beside its name, 1 to 1,022; never more than an eighth of a block */
    uint32_t pair_cycles; /* compactions until a metadata pair moves to other blocks; 0: never. Blocks 0 and 1 and the first pair
                             of a directory below the root never move */
} lfs_c_config;

/* The on-disk versions that are accepted. littlefs writes 2.1 since its release 2.6. New images are of version 2.0. */
#define LFS_C_ONLY_2_0 0
#define LFS_C_ALSO_2_1 1

#define LFS_C_CONFIG(block_size, page) \
    { (block_size), (page), LFS_C_LONGER_FIRST, LFS_C_ONLY_2_0, 255, 2147483647, 1022, 1022, 0 }

/* Mounts a copy of an image and returns 0. If both orders of names fit, the longer names come first.
 * Refused: BUSY where an image is mounted already; INVALID for a number out of range, or bytes that are no image of that geometry;
 * CORRUPT; NO_MEMORY. */
int64_t lfs_c_mount(lfs_c_volume *volume, const lfs_c_config *config, const uint8_t *image, size_t image_len);

/* Mounts a copy of an image as lfs_c_mount does, with the limits of the image in place of the configuration's. So an image that was
 * made with lower limits may be changed, and stays within them. Refused as lfs_c_mount. */
int64_t lfs_c_mount_with_limits(lfs_c_volume *volume, const lfs_c_config *config, const uint8_t *image, size_t image_len);

/* Makes an empty file system of so many blocks, mounts it and returns 0. All bytes but those of the first two blocks are 255.
 * Refused: BUSY where an image is mounted already; INVALID for a number out of range; NO_MEMORY. */
int64_t lfs_c_mkfs(lfs_c_volume *volume, const lfs_c_config *config, uint32_t block_count);

/* Unmounts a volume and frees its memory. Returns 0, even if nothing is mounted. What an open file hasn't synced is lost. */
int64_t lfs_c_unmount(lfs_c_volume *volume);

/* Each call below returns NO_VOLUME if nothing is mounted, and then leaves buffers and structs as they were. It returns NO_MEMORY if
 * memory isn't granted. After NO_MEMORY either nothing has changed, or the volume has failed: it returns FAILED to all but
 * lfs_c_remount, lfs_c_image, lfs_c_image_part, lfs_c_is_writable, lfs_c_note_changes, lfs_c_fetch_change, the calls of directory
 * handles but lfs_c_dir_open and lfs_c_dir_rewind, and lfs_c_unmount. */

/* Closes all files and directories, reads the image again and returns 0. What an open file hasn't synced is lost. */
int64_t lfs_c_remount(lfs_c_volume *volume);

/* Ends what a loss of power left in the image and returns 0. Each call that changes the image does so first.
 * Refused: READ_ONLY. */
int64_t lfs_c_recover(lfs_c_volume *volume);

/* Returns how many blocks the image uses. Blocks of what isn't synced aren't counted: it takes none. */
int64_t lfs_c_used_blocks(lfs_c_volume *volume);

/* Returns 1 if the image uses a block, and else 0. Refused: INVALID where the image has no such block. */
int64_t lfs_c_is_used(lfs_c_volume *volume, uint32_t block);

/* An image's superblock. Sizes and limits are in bytes. */
typedef struct lfs_c_fsinfo {
    uint32_t disk_version; /* the major number in the upper 16 bits, the minor one in the lower: 0x20000 or 0x20001 */
    uint32_t block_size;
    uint32_t block_count;
    uint32_t name_max;
    uint32_t file_max;
    uint32_t attr_max;
} lfs_c_fsinfo;

/* Shows what the image's superblock says, and returns 0. */
int64_t lfs_c_superblock(lfs_c_volume *volume, lfs_c_fsinfo *info);

/* Returns 1 if the image may be changed, and else 0: then changes are refused as READ_ONLY, or FAILED where the volume has failed. */
int64_t lfs_c_is_writable(lfs_c_volume *volume);

/* The breach of a rule by which an image is read only. A metadata pair is known by its two blocks, and an entry by its slot, counted
 * from 0 in that pair. A slot or a limit that the rule doesn't speak of is 0. */
typedef struct lfs_c_breach {
    uint32_t pair[2];
    size_t slot;
    uint32_t limit; /* the one that the superblock has, where that is another than the configuration's */
} lfs_c_breach;

#define LFS_C_OTHER_NAME_MAX 1 /* the superblock in the slot has another name_max than the configuration */
#define LFS_C_OTHER_FILE_MAX 2 /* another file_max */
#define LFS_C_OTHER_ATTR_MAX 3 /* another attr_max */
#define LFS_C_LONG_INLINE 4    /* the file in the slot has more bytes beside its name than inline_max, or an eighth of a block */
#define LFS_C_EMPTY_PAIR 5     /* a directory goes on in the pair, and the pair has no entry */
#define LFS_C_LARGE_PAIR 6     /* the pair has more entries or bytes than one that this library compacts */

/* Returns 0 if the image may be changed. Else it returns one of the numbers above, and shows where the image breaks that rule.
 * lfs_c_mount_with_limits takes the image's own limits. */
int64_t lfs_c_read_only_reason(lfs_c_volume *volume, lfs_c_breach *breach);

/* Returns how many bytes the image has, and writes them to the buffer if they fit. */
int64_t lfs_c_image(lfs_c_volume *volume, uint8_t *buffer, size_t buffer_len);

/* Writes the bytes of the image from an offset on to the buffer, as many as it has room for, and returns how many they are. */
int64_t lfs_c_image_part(lfs_c_volume *volume, size_t offset, uint8_t *buffer, size_t buffer_len);

/* ---- what is at a path */

/* Returns a file's size in bytes, at most 2,147,483,647, or LFS_C_DIRECTORY. A file that is being written has the size that it had
 * at its last sync. Refused: INVALID for a path that isn't well formed; NO_ENT, NOT_DIR. */
int64_t lfs_c_stat_at(lfs_c_volume *volume, const uint8_t *path, size_t path_len);

/* Returns the size of a directory's lines, and writes them to the buffer if they fit: a line for each entry, in name
 * order, the shorter names first. It is `f SIZE NAME` for a file and `d 0 NAME` for a directory, with a newline at its end. The
 * bytes of a name from the space to `~` stand for themselves; the backslash and all others are `\xNN`, in lower case. Sizes are as
 * those of lfs_c_stat_at. Refused: INVALID for a path that isn't well formed; NO_ENT, NOT_DIR. */
int64_t lfs_c_list_at(lfs_c_volume *volume, const uint8_t *path, size_t path_len, uint8_t *buffer, size_t buffer_len);

/* Makes an empty directory and returns 0.
 * Refused: READ_ONLY, INVALID, NO_ENT, NOT_DIR, NAME_TOO_LONG, EXIST, ENTRY_FULL, NO_SPACE. */
int64_t lfs_c_mkdir_at(lfs_c_volume *volume, const uint8_t *path, size_t path_len);

/* Removes a file or an empty directory and returns 0. A file that is open can still be read and written; nothing of it is stored.
 * Refused: READ_ONLY, INVALID (also for the root), NO_ENT, NOT_DIR, NOT_EMPTY. */
int64_t lfs_c_remove_at(lfs_c_volume *volume, const uint8_t *path, size_t path_len);

/* Renames or moves an entry, with all beneath it; replaces a file or an empty directory at the new path. Returns 0. Open files go
 * with it; one that is replaced is as a removed one.
 * Refused: READ_ONLY, INVALID (also for the root, or a new path beneath the old one), NO_ENT, NOT_DIR, NAME_TOO_LONG,
 * IS_DIR, NOT_EMPTY, ENTRY_FULL, NO_SPACE. */
int64_t lfs_c_rename_at(lfs_c_volume *volume, const uint8_t *from, size_t from_len, const uint8_t *to, size_t to_len);

/* Returns the size of an entry's attribute, and writes its bytes to the buffer if they fit.
 * Refused: INVALID (also for the root), NO_ENT, NOT_DIR, NO_ATTR. */
int64_t lfs_c_get_attr_at(lfs_c_volume *volume, const uint8_t *path, size_t path_len, uint8_t kind,
                          uint8_t *buffer, size_t buffer_len);

/* Sets an attribute of an entry, at most attr_max bytes, in place of the one of that type. Returns 0.
 * Refused: READ_ONLY, INVALID (also for the root), NO_ENT, NOT_DIR, TOO_BIG, ENTRY_FULL, NO_SPACE. */
int64_t lfs_c_set_attr_at(lfs_c_volume *volume, const uint8_t *path, size_t path_len, uint8_t kind,
                          const uint8_t *bytes, size_t bytes_len);

/* Removes an attribute from an entry. Returns 0.
 * Refused: READ_ONLY, INVALID (also for the root), NO_ENT, NOT_DIR, NO_ATTR. */
int64_t lfs_c_remove_attr_at(lfs_c_volume *volume, const uint8_t *path, size_t path_len, uint8_t kind);

/* ---- open files: any number of them. All that are open on one path see the same bytes at once; each has a position of its own.
 * What was written is in the image after a sync or a close. */

#define LFS_C_READ 0x1
#define LFS_C_WRITE 0x2
#define LFS_C_CREATE 0x100    /* makes the file where none is at the path; it is in the tree at once */
#define LFS_C_EXCLUSIVE 0x200 /* with CREATE: refuses where something is at the path */
#define LFS_C_TRUNCATE 0x400  /* the file is empty at first, and in the image after a sync */
#define LFS_C_APPEND 0x800    /* each write is at the end */

/* Opens a file, and returns its number: the least that isn't open. The position is 0. Flags are READ, WRITE or both; CREATE, TRUNCATE
 * and APPEND go with WRITE alone, and EXCLUSIVE with CREATE. Refused: INVALID, also for other flags; NO_ENT, NOT_DIR, IS_DIR; and for
 * writing READ_ONLY, NAME_TOO_LONG, EXIST, ENTRY_FULL, NO_SPACE. */
int64_t lfs_c_open(lfs_c_volume *volume, const uint8_t *path, size_t path_len, uint32_t flags);

/* Reads a file from its position on, and returns how many bytes it wrote to the buffer: as many as it has room for, and fewer
 * where the file ends. The position is after them then. The first read or write of a file loads all of it.
 * Refused: BAD_FILE, also for a file that isn't open for reading. */
int64_t lfs_c_file_read(lfs_c_volume *volume, uint32_t file, uint8_t *buffer, size_t buffer_len);

/* Writes bytes at the position of a file, or at its end with APPEND, and returns how many they are. Zeros fill a gap before them.
 * The position is after them then. They are in the image after a sync or a close. No bytes change nothing, also behind the end.
 * Refused: BAD_FILE, also for a file that isn't open for writing; TOO_BIG above file_max. */
int64_t lfs_c_file_write(lfs_c_volume *volume, uint32_t file, const uint8_t *bytes, size_t bytes_len);

/* Sets the position of a file and returns 0. It may be after the end. Refused: BAD_FILE; INVALID above file_max. */
int64_t lfs_c_file_seek(lfs_c_volume *volume, uint32_t file, uint32_t position);

/* Returns the position of a file. Refused: BAD_FILE. */
int64_t lfs_c_file_tell(lfs_c_volume *volume, uint32_t file);

/* Returns the size of a file in bytes, with what isn't synced. Refused: BAD_FILE. */
int64_t lfs_c_file_size(lfs_c_volume *volume, uint32_t file);

/* Sets the size of a file: truncates it, or extends it with zeros. The position stays. Returns 0.
 * Refused: BAD_FILE, also for a file that isn't open for writing; TOO_BIG above file_max. */
int64_t lfs_c_file_truncate(lfs_c_volume *volume, uint32_t file, uint32_t size);

/* Commits what was written to a file and returns 0. Nothing is done for a file that was removed, or if nothing was written.
 * Refused: BAD_FILE; NO_SPACE where fewer blocks are free than two and those of the whole file. */
int64_t lfs_c_file_sync(lfs_c_volume *volume, uint32_t file);

/* Commits what was written to a file, closes it and returns 0. Its number is free then, also where the sync is refused: what it would
 * have stored is lost, unless the file is open under another number. Refused: as lfs_c_file_sync. */
int64_t lfs_c_file_close(lfs_c_volume *volume, uint32_t file);

/* ---- open directories: any number of them, with numbers of their own. Each is a list of the directory's entries, which is taken at
 * the open and at a rewind, in name order, the shorter names first. Later changes of the directory aren't in it. */

#define LFS_C_FILE 1
#define LFS_C_DIR 2

/* An entry of a directory, as it was when the list was taken. */
typedef struct lfs_c_entry {
    uint32_t kind;     /* LFS_C_FILE or LFS_C_DIR */
    uint32_t size;     /* bytes of a file, as lfs_c_stat_at has them; 0 for a directory */
    uint32_t name_len; /* bytes of the name, 1 to 255 */
} lfs_c_entry;

/* Opens a directory, and returns its number: the least that isn't open. The position is 0.
 * Refused: INVALID for a path that isn't well formed; NO_ENT, NOT_DIR. */
int64_t lfs_c_dir_open(lfs_c_volume *volume, const uint8_t *path, size_t path_len);

/* Returns 1 and shows the entry at the position, which is one more then; or returns 0 at the end of the list. The name is written to
 * the buffer if it fits, as it does in 255 bytes: without a zero behind it. Refused: BAD_FILE. */
int64_t lfs_c_dir_read(lfs_c_volume *volume, uint32_t dir, lfs_c_entry *entry, uint8_t *name, size_t name_len);

/* Sets the position: how many entries are before it. Returns 0. Refused: BAD_FILE; INVALID above the number of entries. */
int64_t lfs_c_dir_seek(lfs_c_volume *volume, uint32_t dir, uint32_t position);

/* Returns the position. Refused: BAD_FILE. */
int64_t lfs_c_dir_tell(lfs_c_volume *volume, uint32_t dir);

/* Takes the list of the directory again, by the path of its open, sets the position to 0 and returns 0.
 * Refused: BAD_FILE; NO_ENT or NOT_DIR where no directory is at that path any more. */
int64_t lfs_c_dir_rewind(lfs_c_volume *volume, uint32_t dir);

/* Closes a directory and returns 0. Its number is free then. Refused: BAD_FILE. */
int64_t lfs_c_dir_close(lfs_c_volume *volume, uint32_t dir);

/* ---- a flash of C's own. A volume changes its image by programs and erases, as on flash. C fetches them and makes them on its flash:
 *
 *     int64_t next = lfs_c_note_changes(&fs);            // after the mount of what the flash has
 *     lfs_c_mkdir_at(&fs, path, path_len);
 *     lfs_c_change change;
 *     static uint8_t bytes[4096];                        // a block's size is enough
 *     while (lfs_c_fetch_change(&fs, next, &change, bytes, sizeof bytes) == 1) {
 *         if (change.kind == LFS_C_ERASE) my_erase(change.block);
 *         else my_program(change.block, change.offset, bytes, change.len);
 *         next++;
 *     }
 *
 * The changes are fetched complete and in order, each by its number. So the flash has at each moment what the image had after some
 * of its changes, with the next one done in part. If power is lost then, the flash has the tree from before the call or the one
 * from after it. C must keep four rules, as docs/C_PYTHON.md has them:
 *   - at lfs_c_note_changes the flash has the image's bytes: those that were mounted, or the whole image after lfs_c_mkfs;
 *   - C makes the changes in order, each one whole, also those of a refused or failed call, before it relies on that call;
 *   - an erase leaves bytes of 255, and a stopped program or erase what docs/PROVED.md, "Power loss", supposes of any device;
 *   - after a failed program or erase of the flash C unmounts the volume, and mounts what the flash has. */

#define LFS_C_PROGRAM 1
#define LFS_C_ERASE 2

/* A change of a block: bytes that were programmed from an offset on, in whole pages; or an erase, with 0 for offset and len. */
typedef struct lfs_c_change {
    uint32_t kind; /* LFS_C_PROGRAM or LFS_C_ERASE */
    uint32_t block;
    uint32_t offset;
    size_t len;
} lfs_c_change;

/* Keeps the changes of the image from now on, where none are kept yet, and returns the number of the next one. Changes are numbered
 * from 0 on since the mount. They take memory until they are fetched. Refused: NOT_KEPT after 2 to the 62nd changes. */
int64_t lfs_c_note_changes(lfs_c_volume *volume);

/* Returns 1, shows the change of that number, and writes the bytes of a program to the buffer if they fit; or returns 0 if there
 * is no change of that number yet. The changes before it may be discarded.
 * Refused: NOT_KEPT where none were kept then, a later one was fetched, or memory wasn't granted for it or a later one. Write the
 * whole image to the flash then; lfs_c_note_changes returns the number to go on with. */
int64_t lfs_c_fetch_change(lfs_c_volume *volume, uint64_t number, lfs_c_change *change, uint8_t *buffer, size_t buffer_len);

#ifdef __cplusplus
}
#endif

#endif

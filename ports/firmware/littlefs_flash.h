/* littlefs on a flash that is read and written by block. The library calls four functions, which your program defines: the driver,
 * at the end of this file.
 *
 *     static lfs_flash fs = LFS_FLASH(0, 4096, 256, 64);      // flash number 0: 64 blocks of 4,096 bytes, pages of 256
 *     static const lfs_flash_config config = LFS_FLASH_CONFIG;
 *
 *     if (lfs_flash_mount(&fs, &config) == -LFS_FLASH_CORRUPT) {
 *         lfs_flash_format(&fs, &config);                     // an empty file system
 *         lfs_flash_mount(&fs, &config);
 *     }
 *     int64_t file = lfs_flash_file_open(&fs, path, path_len, LFS_FLASH_WRITE | LFS_FLASH_CREATE | LFS_FLASH_APPEND);
 *     lfs_flash_file_write(&fs, (uint32_t)file, text, text_len);
 *     lfs_flash_file_close(&fs, (uint32_t)file);              // commits
 *     lfs_flash_unmount(&fs);
 *
 * Each call returns 0 or more, or minus one of the error numbers below. After a refusal nothing has changed: no file, no position, no
 * byte of the flash, and no buffer.
 *
 * The calls rely on what they can't check:
 *   - No pointer is NULL, not even with a length of 0, and it points to as many bytes as the length says.
 *   - What a call may write (a buffer, an lfs_flash, an lfs_flash_info) overlaps with none of its other arguments.
 *   - One call runs at a time for each lfs_flash, and none from an interrupt. Two of them with different chips are independent.
 *   - An lfs_flash is as LFS_FLASH made it, or as the last call left it. Of two copies only one is used, and each flash has one alone.
 *   - It stays with one thread.
 *   - malloc, realloc and free are there. malloc aligns a block to each power of two up to 16 that divides its size: newlib's
 *     aligns to 8 alone. It may return NULL at any time.
 * A path may be any bytes, a number any number, and the flash may hold any bytes.
 *
 * Blocks have 1,024 to 65,536 bytes; there are 2 to 65,536 of them, and at most 268,435,456 bytes in all. A page is what the flash
 * programs at once: a power of two from 8 to 512, at most an eighth of a block, that divides it.
 * A path is `/`, or names with a `/` before each.
 *
 * The header is for 32 and for 64 bits. Lengths have a type of their own with 64 bits, an lfs_flash has the same 32 bytes, and no
 * struct is passed or returned by value. */
#ifndef LITTLEFS_FLASH_H
#define LITTLEFS_FLASH_H

#include <stdint.h>

#ifdef __cplusplus
extern "C" {
#endif

#define LFS_FLASH_NO_ENT 2         /* no entry is at the path, or a parent is missing */
#define LFS_FLASH_IO 5             /* the flash failed; the session has failed */
#define LFS_FLASH_BAD_FILE 9       /* no file is open under the number, or it is open for the other purpose */
#define LFS_FLASH_NO_MEMORY 12     /* malloc returned NULL; the session has failed */
#define LFS_FLASH_BUSY 16          /* there is a session already; or an open file prevents the operation */
#define LFS_FLASH_EXIST 17         /* an entry is at the path already */
#define LFS_FLASH_NOT_DIR 20       /* a file is where a directory is needed */
#define LFS_FLASH_IS_DIR 21        /* a directory is where a file is needed */
#define LFS_FLASH_INVALID 22       /* a size, a setting, a path, flags or a position is out of range */
#define LFS_FLASH_TOO_BIG 27       /* a file or an attribute would pass its limit */
#define LFS_FLASH_NO_SPACE 28      /* too few blocks are free */
#define LFS_FLASH_READ_ONLY 30     /* the image is only read: lfs_flash_read_only_reason says why */
#define LFS_FLASH_NAME_TOO_LONG 36 /* a name has more than 255 bytes, or than name_max */
#define LFS_FLASH_NOT_EMPTY 39     /* the directory has entries */
#define LFS_FLASH_NO_ATTR 61       /* the entry has no such attribute */
#define LFS_FLASH_NO_SESSION 77    /* nothing is mounted */
#define LFS_FLASH_CORRUPT 84       /* the flash holds no image that is accepted: erased, damaged, another version or other sizes */
#define LFS_FLASH_FAILED 200       /* the session failed in an earlier call */
#define LFS_FLASH_ENTRY_FULL 201   /* a name and its attributes would fill more than half of their metadata pair */

typedef uint64_t lfs_flash_size;

/* A flash chip, as its driver sees it. Sizes are in bytes. */
typedef struct lfs_flash_chip {
    uint32_t number; /* tells one chip from another */
    uint32_t block_size, page, block_count;
} lfs_flash_chip;

/* A session or none, and the chip while there is none. It lies in the caller's memory, and only the calls read and write it. */
typedef struct lfs_flash {
    uint64_t at, is_open;
    lfs_flash_chip chip;
} lfs_flash;

typedef char lfs_flash_has_32_bytes[sizeof(lfs_flash) == 32 ? 1 : -1]; /* the library's struct does */

#define LFS_FLASH(number, block_size, page, block_count) { 0, 0, { (number), (block_size), (page), (block_count) } }

/* The images that are accepted, and the limits of a new one. littlefs's own code mounts an image only if its limits are at most
 * those that the code was built with. lfs_flash_fs_stat reads an image's limits. */
typedef struct lfs_flash_config {
    uint32_t versions;    /* 0 to accept version 2.0 alone, 1 to accept 2.1 too; a new image has 2.0 */
    uint32_t name_max;    /* bytes of a name, 1 to 255 */
    uint32_t file_max;    /* bytes of a file, 1 to 2,147,483,647 */
    uint32_t attr_max;    /* bytes of an attribute, 1 to 1,022 */
    uint32_t inline_max;  /* bytes of a file that is kept in its directory, 1 to 1,022; never more than an eighth of a block */
    uint32_t pair_cycles; /* after how many compactions a metadata pair moves to other blocks; 0: never */
} lfs_flash_config;

#define LFS_FLASH_CONFIG { 0, 255, 2147483647, 1022, 1022, 0 }

/* ---- a session */

/* Makes an empty file system, and returns 0. No session begins. Only blocks 0 and 1 are written.
 * Refused: INVALID for a size or a setting out of range, or while the flash is mounted; NO_MEMORY. After IO the two blocks may hold
 * anything. */
int64_t lfs_flash_format(lfs_flash *fs, const lfs_flash_config *config);

/* Begins a session, and returns 0. The flash is only read.
 * Refused: BUSY if there is a session; INVALID; CORRUPT; IO; NO_MEMORY. */
int64_t lfs_flash_mount(lfs_flash *fs, const lfs_flash_config *config);

/* Ends a session, frees its memory, and returns 0, without a session too. Nothing is written: changes that aren't synced are lost. */
int64_t lfs_flash_unmount(lfs_flash *fs);

/* Each call below refuses by NO_SESSION if there is none. After IO or NO_MEMORY the session has failed: it makes no further call of
 * the driver, and refuses all by FAILED but lfs_flash_remount and lfs_flash_unmount. lfs_flash_list may return NO_MEMORY without
 * having failed. The tree on the flash is then the one from before the call that failed, or the one from after it. */

/* Closes all files, reads the flash again, and returns 0. Changes that aren't synced are lost. Refused: CORRUPT, IO, NO_MEMORY. */
int64_t lfs_flash_remount(lfs_flash *fs);

/* Ends what a loss of power left on the flash, and returns 0. Each call that changes entries does so first. Refused: READ_ONLY. */
int64_t lfs_flash_recover(lfs_flash *fs);

/* Returns what a recovery has to end: 0 for nothing, 1 if metadata pairs may be orphans, 2 if a move isn't ended, 3 for both. */
int64_t lfs_flash_gstate(lfs_flash *fs);

/* A superblock's fields, as littlefs's struct lfs_fsinfo has them. */
typedef struct lfs_flash_info {
    uint32_t version; /* 0x20000 for 2.0, 0x20001 for 2.1 */
    uint32_t block_size, block_count, name_max, file_max, attr_max;
} lfs_flash_info;

/* Reads the superblock's fields, and returns 0. */
int64_t lfs_flash_fs_stat(lfs_flash *fs, lfs_flash_info *info);

/* Returns the image's order of names: 0 for littlefs's, the longer of two first that begin alike; 1 for the shorter. */
int64_t lfs_flash_name_order(lfs_flash *fs);

/* Returns 1 if the session may write, and 0 if its image is only read or the session has failed. */
int64_t lfs_flash_is_writable(lfs_flash *fs);

/* Why an image is only read. With OTHER_LIMITS it can be written by a session that is mounted with name_max, file_max and attr_max as
 * lfs_flash_fs_stat reads them. If several rules are broken, the first of them is returned. */
#define LFS_FLASH_OTHER_LIMITS 1 /* the image was made with other limits than the configuration has */
#define LFS_FLASH_LONG_INLINE 2  /* a file in a directory has more bytes than an eighth of a block, or than inline_max */
#define LFS_FLASH_EMPTY_PAIR 3   /* a directory goes on in a metadata pair without entries */
#define LFS_FLASH_TOO_LARGE 4    /* a metadata pair or an entry is larger than this library writes */

/* Returns 0 if the session may write, and otherwise one of these numbers; then it reads the directories. */
int64_t lfs_flash_read_only_reason(lfs_flash *fs);

/* Returns how many blocks the image uses. */
int64_t lfs_flash_used_blocks(lfs_flash *fs);

/* Returns 1 if the image uses a block, and 0 if the block is free. Refused: INVALID for a block that isn't there. */
int64_t lfs_flash_is_used(lfs_flash *fs, uint32_t block);

/* ---- the entry at a path. Refused by each: INVALID for a path that isn't well formed; NO_ENT, NOT_DIR */

/* lfs_flash_stat returns this for a directory. */
#define LFS_FLASH_DIRECTORY INT64_C(4294967296)

/* Returns a file's size in bytes, at most 2,147,483,647, or LFS_FLASH_DIRECTORY. A file that is being written has the size of its
 * last sync. */
int64_t lfs_flash_stat(lfs_flash *fs, const uint8_t *path, lfs_flash_size path_len);

/* Returns how many bytes a directory's lines have, and writes them to the buffer if they fit: `f SIZE NAME` or `d 0 NAME` for each
 * entry, with a newline at its end, in name order, the shorter names first. The bytes of a name from the space to `~` stand for
 * themselves; the backslash and all others are `\xNN`, in lower case. */
int64_t lfs_flash_list(lfs_flash *fs, const uint8_t *path, lfs_flash_size path_len, uint8_t *buffer, lfs_flash_size buffer_len);

/* Makes an empty directory, and returns 0. Refused: READ_ONLY, NAME_TOO_LONG, EXIST, ENTRY_FULL, NO_SPACE. */
int64_t lfs_flash_mkdir(lfs_flash *fs, const uint8_t *path, lfs_flash_size path_len);

/* Removes a file, or a directory without entries, and returns 0. Refused: READ_ONLY, INVALID for the root, NOT_EMPTY, BUSY. */
int64_t lfs_flash_remove(lfs_flash *fs, const uint8_t *path, lfs_flash_size path_len);

/* Renames an entry, in place of a file or an empty directory at the new path, and returns 0. What is beneath it moves with it.
 * Refused: READ_ONLY, INVALID for the root or a new path beneath the old one, NAME_TOO_LONG, IS_DIR, NOT_EMPTY, BUSY, ENTRY_FULL,
 * NO_SPACE. */
int64_t lfs_flash_rename(lfs_flash *fs, const uint8_t *from, lfs_flash_size from_len, const uint8_t *to, lfs_flash_size to_len);

/* Returns how many bytes an entry's attribute has, and copies them to the buffer if they fit. Refused: INVALID for the root, NO_ATTR. */
int64_t lfs_flash_get_attr(lfs_flash *fs, const uint8_t *path, lfs_flash_size path_len, uint8_t kind, uint8_t *buffer,
                           lfs_flash_size buffer_len);

/* Sets an attribute of at most attr_max bytes, in place of the one of that type, and returns 0.
 * Refused: READ_ONLY, INVALID for the root, TOO_BIG, ENTRY_FULL, NO_SPACE. */
int64_t lfs_flash_set_attr(lfs_flash *fs, const uint8_t *path, lfs_flash_size path_len, uint8_t kind, const uint8_t *bytes,
                           lfs_flash_size bytes_len);

/* Removes an attribute, and returns 0. Refused: READ_ONLY, INVALID for the root, NO_ATTR. */
int64_t lfs_flash_remove_attr(lfs_flash *fs, const uint8_t *path, lfs_flash_size path_len, uint8_t kind);

/* ---- open files: one that is written, and up to 16 that are read. Refused by each but the open: BAD_FILE */

#define LFS_FLASH_READ 0x1
#define LFS_FLASH_WRITE 0x2
#define LFS_FLASH_CREATE 0x100    /* makes the file if there is none; it is in the tree at once */
#define LFS_FLASH_EXCLUSIVE 0x200 /* with CREATE: refuses if an entry is at the path */
#define LFS_FLASH_TRUNCATE 0x400  /* makes the file empty */
#define LFS_FLASH_APPEND 0x800    /* writes at the end */

/* Opens a file, and returns its number: the least that isn't open. Flags are READ alone, or WRITE with any of the others.
 * Refused: READ_ONLY, INVALID, NO_ENT, NOT_DIR, NAME_TOO_LONG, EXIST, IS_DIR, BUSY, ENTRY_FULL, NO_SPACE. */
int64_t lfs_flash_file_open(lfs_flash *fs, const uint8_t *path, lfs_flash_size path_len, uint32_t flags);

/* Reads a file from its position on, and returns how many bytes it read: as many as the buffer has room for, or fewer if the file
 * ends. The position advances by as many. */
int64_t lfs_flash_file_read(lfs_flash *fs, uint32_t file, uint8_t *buffer, lfs_flash_size buffer_len);

/* Writes bytes at a file's position, or at its end with APPEND, and returns how many they are. Zeros fill a gap before them. The
 * position is after them then. They are in the tree after a sync or a close. Refused: TOO_BIG, NO_SPACE. */
int64_t lfs_flash_file_write(lfs_flash *fs, uint32_t file, const uint8_t *bytes, lfs_flash_size bytes_len);

/* Sets a file's position, and returns 0. It may be after the end. Refused: INVALID above file_max. */
int64_t lfs_flash_file_seek(lfs_flash *fs, uint32_t file, uint32_t position);

/* Returns a file's position. */
int64_t lfs_flash_file_tell(lfs_flash *fs, uint32_t file);

/* Returns a file's size in bytes; a file that is being written counts what isn't synced. */
int64_t lfs_flash_file_size(lfs_flash *fs, uint32_t file);

/* Sets a file's size, and returns 0: the file is cut, or zeros fill it up. The position stays. Refused: TOO_BIG, NO_SPACE. */
int64_t lfs_flash_file_truncate(lfs_flash *fs, uint32_t file, uint32_t size);

/* Commits what was written to a file, and returns 0. */
int64_t lfs_flash_file_sync(lfs_flash *fs, uint32_t file);

/* Commits what was written to a file, closes it, and returns 0. Its number is free then. */
int64_t lfs_flash_file_close(lfs_flash *fs, uint32_t file);

/* ---- the driver, which your program defines. Each function returns 0 if it did its work, and any other number if the flash failed.
 *
 * The library asks for bytes within one block of the chip, programs whole pages, and programs no byte twice without an erase between.
 * It relies on this of the driver, and the proofs hold only if it is so:
 *   - Each function returns, and writes no memory but its own and the buffer that it is given. It calls nothing of this file.
 *   - Its struct lfs_flash_chip has the sizes of the real flash: pages that it programs at once, and blocks that it erases at once.
 *   - Nothing else writes to these blocks while the flash is mounted: no other code, no other core, no bootloader.
 *   - Once a function returns 0, the next read sees it, also after a loss of power. A driver that queues or caches waits first.
 *   - A program changes no other page than its own, and an erase no other block than its own, even if they fail or are cut short.
 * If power is lost during a program, its pages may hold any mixture of old and new bytes. An erase, cut short or not, may leave 0xff,
 * what the block held, the beginning of that, or other bytes without a valid commit at the block's beginning. Torn bytes could be a
 * commit with a valid checksum only by chance, and that chance isn't covered by the proofs. */

/* Reads a block's bytes from an offset on into the buffer. After a failure the buffer may hold anything. */
uint32_t lfs_flash_read(const lfs_flash_chip *chip, uint32_t block, uint32_t offset, uint8_t *buffer, lfs_flash_size buffer_len);

/* Programs whole pages of a block from an offset on, which were erased and not programmed since. After a failure these pages may
 * hold anything. */
uint32_t lfs_flash_prog(const lfs_flash_chip *chip, uint32_t block, uint32_t offset, const uint8_t *bytes, lfs_flash_size bytes_len);

/* Erases a block. After a failure the block may hold anything. */
uint32_t lfs_flash_erase(const lfs_flash_chip *chip, uint32_t block);

/* Returns 1 if it is sure that these bytes are unprogrammed since their block's last erase: they read as erased ones, and no program
 * or erase of them was cut short. Returns 0 if it isn't sure, and any other number if the flash failed. A driver may always return
 * 0: then each first commit to a metadata pair after a mount erases a block. */
uint32_t lfs_flash_is_blank(const lfs_flash_chip *chip, uint32_t block, uint32_t offset, uint32_t count);

#ifdef __cplusplus
}
#endif

#endif

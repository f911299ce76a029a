/* The calls of the work, made by this library (by_library.c) or by littlefs's own code (by_littlefs.c) on the same flash. A call returns 0
 * or more, or a negative number if it failed. */
#ifndef FS_H
#define FS_H

#include "flash.h"

int fs_format(void);
int fs_mount(void);
int fs_unmount(void);
int fs_put(const char *path, const void *bytes, uint32_t count); /* the file has these bytes alone */
int fs_get(const char *path, void *bytes, uint32_t room);        /* how many bytes it read */
int fs_log_open(const char *path);
int fs_log_line(const void *bytes, uint32_t count); /* at the end, and a sync */
int fs_log_close(void);
int fs_list(const char *path); /* how many entries */
int fs_remove(const char *path);
int fs_make(const char *path); /* a directory */
int fs_rename(const char *from, const char *to);

/* Called after each call of the library that may have changed the tree; by_library.c alone. */
extern void (*fs_changed)(void);

#endif

/* The tree that a session shows. */
#ifndef TREE_H
#define TREE_H

#include "littlefs_flash.h"

enum { ATTRIBUTE = 3 }; /* one of those that bench/exchange.c shows */

/* Returns a checksum over each path in order, each file's size and littlefs's checksum of its bytes, and each entry's attribute of that
 * type. Prints a line for each entry, if asked to: `f SIZE CHECKSUM PATH` or `d PATH`. */
uint32_t tree_sum(lfs_flash *fs, int is_printed);

#endif

/* Numbers on the host's screen, and an end for what may not be. */
#ifndef PRINT_H
#define PRINT_H

#include "../board/board.h"

static inline void print_number(uint64_t value, int width) {
    char text[24];
    int at = sizeof text - 1;
    text[at] = 0;
    do text[--at] = (char)('0' + value % 10), value /= 10;
    while (value);
    while ((int)sizeof text - 1 - at < width) text[--at] = ' ';
    board_write(text + at);
}

static inline void print_hex(uint64_t value, int digits) {
    char text[17];
    for (int at = 0; at < digits; at++) text[digits - 1 - at] = "0123456789abcdef"[value >> 4 * at & 15];
    text[digits] = 0;
    board_write(text);
}

/* Ends the program if a call failed. */
static inline void must(const char *what, int64_t answer) {
    if (answer >= 0) return;
    board_write("failed: ");
    board_write(what);
    board_write(", -");
    print_number((uint64_t)-answer, 0);
    board_write("\n");
    board_exit(1);
}

static inline void must_be(const char *what, int is_so) { must(what, is_so ? 0 : -1000); }

#endif

/* The board's calls of the host, over `semihost`, which each processor makes in its own way. Included by the start-up code alone. */
#include "board.h"

static long semihost(long call, const void *arguments);

enum { OPEN = 0x01, CLOSE = 0x02, WRITE_TEXT = 0x04, WRITE = 0x05, READ = 0x06, EXIT = 0x18, EXIT_EXTENDED = 0x20 };
enum { READ_BYTES = 1, WRITE_BYTES = 5 }; /* fopen's "rb" and "wb" */

static long open_file(const char *name, long mode) {
    long len = 0;
    while (name[len]) len++;
    const long open[3] = { (long)name, mode, len };
    return semihost(OPEN, open);
}

static void close_file(long file) {
    const long close[1] = { file };
    semihost(CLOSE, close);
}

void board_write(const char *text) { semihost(WRITE_TEXT, text); }

_Noreturn void board_exit(int status) {
    const long words[2] = { 0x20026, status };
    semihost(sizeof(long) == 8 ? EXIT : EXIT_EXTENDED, words);
    for (;;) {}
}

void board_save(const char *name, const void *bytes, size_t count) {
    long file = open_file(name, WRITE_BYTES);
    const long write[3] = { file, (long)bytes, (long)count };
    if (file == -1 || semihost(WRITE, write)) {
        board_write("the host wrote no file\n");
        board_exit(98);
    }
    close_file(file);
}

size_t board_load(const char *name, void *buffer, size_t room) {
    long file = open_file(name, READ_BYTES);
    if (file == -1) return 0;
    const long read[3] = { file, (long)buffer, (long)room };
    size_t left = (size_t)semihost(READ, read);
    close_file(file);
    return room - left;
}

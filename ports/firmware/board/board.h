/* The functions that the programs here call on a board. The host is the machine that runs the emulator; files are read and written there
 * by semihosting. */
#ifndef BOARD_H
#define BOARD_H

#include <stddef.h>
#include <stdint.h>

/* Writes a text to the host's screen. */
void board_write(const char *text);

/* Writes a file of the host. */
void board_save(const char *name, const void *bytes, size_t count);

/* Reads a file of the host into the buffer, and returns how many bytes it read: 0 if there is no file. */
size_t board_load(const char *name, void *buffer, size_t room);

/* Ends the emulator. */
_Noreturn void board_exit(int status);

/* Returns how many instructions were executed, with qemu's -icount shift=0. On a Cortex-M it counts in ticks of a timer. */
uint64_t board_instructions(void);

int main(void);

#endif

/* Measures the work: for each part the instructions, the bytes of the stack and of the heap at most, the heap's calls, and the calls of
 * the flash. At the end the flash's bytes are in the host's file flash.img. */
#include <string.h>

#include "counted_heap.h"
#include "fs.h"
#include "print.h"
#include "work.h"

enum { PAINT = 0x5afe57ac };

extern uint32_t stack_bottom[], stack_top[];
static uint64_t began;

static void begins(void) {
    uintptr_t here = (uintptr_t)__builtin_frame_address(0) - 256;
    for (volatile uint32_t *at = stack_bottom; (uintptr_t)at < here; at++) *at = PAINT;
    memset(&flash_counts, 0, sizeof flash_counts);
    heap_counts.most = heap_counts.now;
    heap_counts.calls = 0;
    began = board_instructions();
}

static void ends(const char *name) {
    uint64_t took = board_instructions() - began;
    volatile uint32_t *at = stack_bottom;
    while (*at == PAINT) at++;
    board_write(name);
    print_number(took, 12);
    print_number((uint64_t)((char *)stack_top - (char *)at), 8);
    print_number(heap_counts.most, 8);
    print_number(heap_counts.calls, 7);
    print_number(flash_counts.reads, 7);
    print_number(flash_counts.read_bytes, 9);
    print_number(flash_counts.programs, 6);
    print_number(flash_counts.program_bytes, 8);
    print_number(flash_counts.erases, 5);
    board_write("\n");
}

int main(void) {
    memset(flash, 0xff, sizeof flash);
    part_begins = begins, part_ends = ends;
    board_write("                  instructions   stack    heap blocks  reads    bytes progs   bytes eras\n");
    perform_work();
    board_write("in use at the end: ");
    print_number(heap_counts.now, 0);
    board_write(", the heap's top: ");
    print_number(heap_counts.top, 0);
    board_write("\n");
    board_save("flash.img", flash, sizeof flash);
    return 0;
}

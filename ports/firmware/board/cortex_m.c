/* Start-up of a Cortex-M in qemu: the vectors, the data, the stack, and Arm's semihosting. With -icount shift=0 an instruction takes one
 * nanosecond of qemu's clock. The timer counts in ticks of TICK_PS picoseconds. */
#include "semihosting.h"

extern char stack_top[], data_from[], data_start[], data_end[], bss_start[], bss_end[];

static long semihost(long call, const void *arguments) {
    register long r0 __asm__("r0") = call;
    register const void *r1 __asm__("r1") = arguments;
    __asm__ volatile("bkpt 0xab" : "+r"(r0) : "r"(r1) : "memory");
    return r0;
}

#ifdef NRF51 /* the microbit's chip: its first timer, 32 bits wide at 16 MHz */

enum { TICK_PS = 62500 };
static volatile uint32_t *const timer = (volatile uint32_t *)0x40008000;

static void start_timer(void) {
    timer[0x508 / 4] = 3; /* 32 bits */
    timer[0x510 / 4] = 0; /* no division */
    timer[0] = 1;
}

static uint32_t ticks(void) {
    timer[0x40 / 4] = 1; /* captures the count */
    return timer[0x540 / 4];
}

#else /* the MPS boards: the first timer of CMSDK's, which counts down */

#ifndef TIMER
#define TIMER 0x40000000
#define TICK_PS 40000
#endif
static volatile uint32_t *const timer = (volatile uint32_t *)TIMER; /* CTRL, VALUE, RELOAD, INT */

static void start_timer(void) {
    timer[2] = 0xffffffff;
    timer[1] = 0xffffffff;
    timer[0] = 1;
}

static uint32_t ticks(void) { return 0xffffffff - timer[1]; }

#endif

uint64_t board_instructions(void) {
    static uint64_t all;
    static uint32_t last;
    uint32_t now = ticks();
    all += (uint32_t)(now - last);
    last = now;
    return all * TICK_PS / 1000;
}

static _Noreturn void fault(void) {
    board_write("a fault of the processor\n");
    board_exit(99);
}

static _Noreturn void reset(void) {
    for (char *from = data_from, *to = data_start; to < data_end;) *to++ = *from++;
    for (char *to = bss_start; to < bss_end;) *to++ = 0;
    start_timer();
    board_exit(main());
}

__attribute__((section(".vectors"), used)) void (*const vectors[16])(void) = {
    (void (*)(void))stack_top, reset, fault, fault, fault, fault, fault, fault, fault, fault, fault, fault, fault, fault, fault, fault,
};

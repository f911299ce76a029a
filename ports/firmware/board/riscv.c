/* Start-up of qemu's RISC-V machine `virt`, in machine mode, and semihosting. With -icount shift=0 minstret counts instructions. */
#include "semihosting.h"

__attribute__((naked, section(".start"), used)) void start(void) {
    __asm__ volatile(
        ".option push\n.option norelax\nla gp, __global_pointer$\n.option pop\n"
        "la sp, stack_top\n"
        "la t0, fault\ncsrw mtvec, t0\n"
        "la t0, bss_start\nla t1, bss_end\n"
        "1: bgeu t0, t1, 2f\nsb zero, 0(t0)\naddi t0, t0, 1\nj 1b\n"
        "2: call main\ncall board_exit");
}

static long semihost(long call, const void *arguments) {
    register long a0 __asm__("a0") = call;
    register const void *a1 __asm__("a1") = arguments;
    __asm__ volatile(
        ".balign 16\n.option push\n.option norvc\nslli x0, x0, 0x1f\nebreak\nsrai x0, x0, 7\n.option pop" : "+r"(a0) : "r"(a1) : "memory");
    return a0;
}

uint64_t board_instructions(void) {
#if __riscv_xlen == 64
    uint64_t count;
    __asm__ volatile("csrr %0, minstret" : "=r"(count));
    return count;
#else
    uint32_t high, low, again;
    do __asm__ volatile("csrr %0, minstreth\ncsrr %1, minstret\ncsrr %2, minstreth" : "=r"(high), "=r"(low), "=r"(again));
    while (high != again);
    return (uint64_t)high << 32 | low;
#endif
}

__attribute__((aligned(4), used)) void fault(void) {
    board_write("a fault of the processor\n");
    board_exit(99);
}

/* libunwind's time for a chain of 64 frames in a program of 10,000 functions with frame pointers, its caches off and on, beside
 * walk.c. It walks its own stack, and finds records by the sorted table of .eh_frame_hdr.
 *
 *     gcc -O2 -o target/differential/walk_libunwind differential/speed/walk_libunwind.c -lunwind */
#define _POSIX_C_SOURCE 199309L
#define UNW_LOCAL_ONLY
#include <libunwind.h>
#include <stdio.h>
#include <stdlib.h>
#include <time.h>

enum { FRAMES = 64, TURNS = 40 };

extern void first(long depth);

/* Function n calls function n + 157 of 10,000, as deep as it is told, and then `deepest`. */
__asm__(
    ".text\n.altmacro\n.macro function n, next\n.type f\\n, @function\nf\\n:\n.cfi_startproc\npushq %rbp\n.cfi_def_cfa_offset 16\n"
    ".cfi_offset %rbp, -16\nmovq %rsp, %rbp\n.cfi_def_cfa_register %rbp\ndecq %rdi\njz 1f\ncall f\\next\njmp 2f\n1: call deepest\n"
    "2: popq %rbp\n.cfi_def_cfa %rsp, 8\n.cfi_restore %rbp\nret\n.cfi_endproc\n.size f\\n, . - f\\n\n.endm\n"
    ".set i, 0\n.rept 10000\nfunction %i, %(i + 157) % 10000\n.set i, i + 1\n.endr\n.noaltmacro\n.globl first\n.set first, f0\n");

static double now(void) {
    struct timespec t;
    clock_gettime(CLOCK_PROCESS_CPUTIME_ID, &t);
    return (double)t.tv_sec + (double)t.tv_nsec * 1e-9;
}

static double time_walk(unw_caching_policy_t policy) {
    double best = 0;
    unw_set_caching_policy(unw_local_addr_space, policy);
    for (int turn = 0; turn < TURNS; turn++) {
        unw_context_t context;
        unw_cursor_t cursor;
        unw_word_t pc, sum = 0;
        double start = now();
        unw_getcontext(&context);
        unw_init_local(&cursor, &context);
        /* From here through `deepest` to the 64 functions. */
        for (int n = 0; n < FRAMES + 1; n++) {
            if (unw_step(&cursor) <= 0) exit(1);
            unw_get_reg(&cursor, UNW_REG_IP, &pc);
            sum += pc;
        }
        double taken = now() - start;
        if (sum && (best == 0 || taken < best)) best = taken;
    }
    return best;
}

void deepest(void) {
    printf("libunwind, 64 frames over 10,000 functions: %.1f us without caches, %.1f us with\n", time_walk(UNW_CACHE_NONE) * 1e6,
        time_walk(UNW_CACHE_GLOBAL) * 1e6);
}

int main(void) {
    first(FRAMES);
    return 0;
}

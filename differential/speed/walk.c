/* Times of the walk: chains of 1, 8 and 64 frames over tables of 1 to 10,000 functions, eh_frame, a frame pointer in each. Processor time;
 * the fastest of several turns counts. */
#define _POSIX_C_SOURCE 199309L
#include <stdint.h>
#include <stdio.h>
#include <stdlib.h>
#include <string.h>
#include <time.h>

#include "../../include/dekvoz.h"

enum { MOST = 10000, ROWS = 5, LENGTH = 31, APART = 32, FRAMES = 64, REGISTERS = 17, TURNS = 12, RBP = 6, RSP = 7 };
static const uint64_t START = 0x400000, STACK = 0x7fff0000;

static uint64_t functions[18 * MOST], rows[4 * ROWS], header_places[MOST], relocations[20 * MOST], machine[70], placed[2 * MOST];
static uint8_t section[100 * MOST], record[16 * FRAMES + 8 * REGISTERS + 16];
static uint64_t frames[2 * FRAMES];

static double now(void) {
    struct timespec t;
    clock_gettime(CLOCK_PROCESS_CPUTIME_ID, &t);
    return (double)t.tv_sec + (double)t.tv_nsec * 1e-9;
}

static void check(int right, const char *what) {
    if (right) return;
    fprintf(stderr, "walk: %s\n", what);
    exit(1);
}

static unwind_written table(uint64_t count) {
    /* push rbp; mov rbp, rsp; ..; pop rbp; ret */
    static const uint64_t frame[ROWS][4] = {{1, 1, 0, 16}, {1, 3, RBP, 0xfffffff0}, {4, 2, RBP, 0}, {30, 0, RSP, 8}, {30, 4, RBP, 0}};
    memcpy(rows, frame, sizeof rows);
    for (uint64_t k = 0; k < count; k++) {
        functions[18 * k] = 16 + k;
        functions[18 * k + 1] = LENGTH;
        functions[18 * k + 3] = ROWS;
        placed[2 * k] = START + APART * k;
        placed[2 * k + 1] = LENGTH;
    }
    check(unwind_machine_x86_64(machine, 70) == 0, "machine");
    return unwind_relaxed_table(machine, 70, 0, functions, 18 * count, rows, 4 * ROWS, NULL, 0, NULL, 0, header_places, MOST, section,
        sizeof section, relocations, 20 * MOST, NULL, 0);
}

/* Behind a call in the n-th function of a chain. */
static uint64_t pc_of(uint64_t n, uint64_t count) {
    return START + APART * (n * 7919 % count) + 9;
}

static void put(uint8_t *at, uint64_t value, int size) {
    for (int i = 0; i < size; i++) at[i] = (uint8_t)(value >> (8 * i));
}

/* The record of a chain: in each frame the caller's rbp and the return address; the last returns to 0. */
static size_t recorded(uint64_t depth, uint64_t count) {
    size_t stack = 16 * depth;
    for (uint64_t n = 0; n < depth; n++) {
        put(record + 16 * n, STACK + 16 * (n + 1), 8);
        put(record + 16 * n + 8, n + 1 < depth ? pc_of(n + 1, count) : 0, 8);
    }
    memset(record + stack, 0, 8 * REGISTERS);
    put(record + stack + 8 * RBP, STACK, 8);
    put(record + stack + 8 * RSP, STACK - 64, 8);
    put(record + stack + 8 * REGISTERS, 8 * REGISTERS, 8);
    put(record + stack + 8 * REGISTERS + 8, REGISTERS, 4);
    put(record + stack + 8 * REGISTERS + 12, stack, 4);
    return stack + 8 * REGISTERS + 16;
}

static double time_walk(uint64_t depth, uint64_t count, const unwind_written *w) {
    size_t size = recorded(depth, count);
    double best = 0;
    int repeats = count < 1000 ? 20 : 1;
    for (int turn = 0; turn < TURNS; turn++) {
        unwind_chain r = {0, 0, 0};
        double start = now();
        for (int i = 0; i < repeats; i++)
            r = unwind_walk(machine, 70, record, size, section, w->bytes, relocations, 5 * w->relocations, 0, pc_of(0, count), STACK,
                placed, 2 * count, frames, 2 * FRAMES);
        double taken = (now() - start) / repeats;
        check(r.number == 0 && r.frames == depth && r.ending == UNWIND_HELD_BY_NONE, "chain");
        if (best == 0 || taken < best) best = taken;
    }
    return best;
}

int main(void) {
    static const uint64_t counts[] = {1, 10, 100, 1000, 2500, 5000, 10000}, depths[] = {1, 8, 64};
    printf("functions   1 frame  8 frames 64 frames (microseconds)\n");
    for (size_t i = 0; i < sizeof counts / sizeof *counts; i++) {
        unwind_written w = table(counts[i]);
        check(w.number == 0, "table");
        printf("%9u", (unsigned)counts[i]);
        for (size_t j = 0; j < 3; j++) printf(" %9.1f", time_walk(depths[j], counts[i], &w) * 1e6);
        printf("\n");
    }
    return 0;
}

/* Two functions of Windows on ARM64: writes their unwind data, the first as a packed word and the second, which has two ways out, as a
 * record; reads both back, and prints each code as an instruction.
 *
 *     bindings/archive
 *     cc -o arm64 examples/c/arm64.c target/lib/libdekvoz.a && ./arm64 */
#include <inttypes.h>
#include <stdio.h>
#include <string.h>

#include "../../include/dekvoz.h"

#define LENGTH(a) (sizeof(a) / sizeof *(a))
#define PACKED UINT64_MAX

/* stp x19, x20, [sp, -16]!; stp x29, lr, [sp, -16]!; mov x29, sp, and what undoes it */
static const uint64_t codes[] = {
    UNWIND_ARM64_R19R20X, 0, 16,
    UNWIND_ARM64_FPLRX,   0, 16,
    UNWIND_ARM64_SET_FP,  0, 0,
    UNWIND_ARM64_FPLRX,   0, 16,
    UNWIND_ARM64_R19R20X, 0, 16,
};
/* start, codes_at, codes */
static const uint64_t epilogues[] = {
    28, 3, 2,
    16, 3, 2,
};
/* symbol, length, prologue_at, prologue, epilogues_at, epilogues */
static const uint64_t functions[] = {
    16, 40, 0, 3, 0, 1,
    17, 40, 0, 3, 0, 2,
};

static uint64_t markers[2], relocations[5 * 3], starts[3 * 2], held[3 * 7];
static uint8_t bytes[16], info[64];

/* The instruction that a code of these functions stands for, or the one that undoes it. */
static void print_code(const uint64_t *c, int undone) {
    const char *pair = c[0] == UNWIND_ARM64_R19R20X ? "x19, x20" : "x29, lr";
    if (c[0] == UNWIND_ARM64_SET_FP) {
        printf("  %s\n", undone ? "mov sp, x29" : "mov x29, sp");
    } else if (undone) {
        printf("  ldp %s, [sp], %" PRIu64 "\n", pair, c[2]);
    } else {
        printf("  stp %s, [sp, -%" PRIu64 "]!\n", pair, c[2]);
    }
}

/* Function k, read and printed. Whether it is as it was given. */
static int read_back(size_t k, size_t info_n) {
    const uint64_t *given = &functions[6 * k];
    uint32_t word = 0;
    for (size_t i = 4; i-- > 0;) {
        word = word << 8 | bytes[8 * k + 4 + i];
    }
    uint64_t place = markers[k] == PACKED ? 0 : markers[k];
    unwind_arm64_reading r = unwind_read_arm64(word, info, info_n, place, starts, LENGTH(starts), held, LENGTH(held));
    if (r.number) {
        return 0;
    }
    if (markers[k] == PACKED) {
        printf("function %zu: %" PRIu64 " bytes, packed in %#010" PRIx32 "\n", k, r.length, word);
    } else {
        printf("function %zu: %" PRIu64 " bytes, a record at %" PRIu64 "\n", k, r.length, place);
    }
    for (uint64_t i = 0; i < r.prologue; i++) {
        print_code(&held[3 * i], 0);
    }
    int same = r.length == given[1] && r.prologue == given[3] && r.epilogues == given[5] && memcmp(held, codes, 24 * r.prologue) == 0;
    for (uint64_t e = 0; e < r.epilogues; e++) {
        const uint64_t *start = &starts[3 * e], *wanted = &epilogues[3 * (given[4] + e)];
        printf(" epilogue at %" PRIu64 "\n", start[0]);
        for (uint64_t i = 0; i < start[2]; i++) {
            print_code(&held[3 * (start[1] + i)], 1);
        }
        same = same && start[0] == wanted[0] && start[2] == wanted[2] && memcmp(&held[3 * start[1]], &codes[3 * wanted[1]], 24 * start[2]) == 0;
    }
    return same;
}

int main(void) {
    unwind_written w = unwind_arm64(functions, LENGTH(functions), epilogues, LENGTH(epilogues), codes, LENGTH(codes), markers, LENGTH(markers),
        bytes, LENGTH(bytes), relocations, LENGTH(relocations), info, LENGTH(info));
    if (w.number) {
        return 1;
    }
    int same = 1;
    for (size_t k = 0; k < w.places; k++) {
        same = read_back(k, w.sites) && same;
    }
    puts(same ? "both read as they were given" : "they do not read as they were given");
    return !same;
}

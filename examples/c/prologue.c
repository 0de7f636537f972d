/* A Windows function's prologue: writes its x64 record, reads the record back, and prints each code in words and how far the stack
 * pointer moves.
 *
 *     bindings/archive
 *     cc -o prologue examples/c/prologue.c target/lib/libdekvoz.a && ./prologue */
#include <inttypes.h>
#include <stdio.h>

#include "../../include/dekvoz.h"

#define LENGTH(a) (sizeof(a) / sizeof *(a))

enum { PUSH, ALLOC, FRAME, SAVE };
enum { RBX = 3, RBP = 5, XMM6 = 6 };

/* push rbp; sub rsp, 160; lea rbp, [rsp + 128]; mov [rsp + 128], rbx; movaps [rsp + 144], xmm6 */
static const uint64_t codes[] = {
    1,  PUSH,  RBP,  0, 0,
    8,  ALLOC, 0,    0, 160,
    16, FRAME, RBP,  0, 128,
    24, SAVE,  RBX,  0, 128,
    32, SAVE,  XMM6, 1, 144,
};

/* symbol, length, prologue end, codes_at, codes */
static const uint64_t functions[] = {16, 200, 32, 0, LENGTH(codes) / 5};

static uint64_t markers[1], relocations[5 * 3], held[LENGTH(codes)];
static uint8_t bytes[12], info[64];

static void print_code(const uint64_t *c) {
    printf("  at %2" PRIu64 ": ", c[0]);
    switch (c[1]) {
    case PUSH: printf("push register %" PRIu64 "\n", c[2]); break;
    case ALLOC: printf("allocate %" PRIu64 "\n", c[4]); break;
    case FRAME: printf("frame register %" PRIu64 " at %" PRIu64 "\n", c[2], c[4]); break;
    default: printf("save %sregister %" PRIu64 " at %" PRIu64 "\n", c[3] ? "vector " : "", c[2], c[4]);
    }
}

int main(void) {
    unwind_written w = unwind_seh(functions, LENGTH(functions), codes, LENGTH(codes), markers, LENGTH(markers), bytes, LENGTH(bytes),
        relocations, LENGTH(relocations), info, LENGTH(info));
    if (w.number) return 1;
    unwind_x64_reading r = unwind_read_x64(info, w.sites, markers[0], held, LENGTH(held));
    if (r.number) return 1;
    printf("prologue to %" PRIu64 ", %" PRIu64 " codes\n", r.end, r.codes);
    if (r.frame) printf("frame register %" PRIu64 ", %" PRIu64 " above the stack pointer\n", r.frame_register, r.frame_offset);
    uint64_t moved = 0;
    for (uint64_t i = 0; i < r.codes; i++) {
        print_code(&held[5 * i]);
        moved += held[5 * i + 1] == PUSH ? 8 : held[5 * i + 1] == ALLOC ? held[5 * i + 4] : 0;
    }
    printf("the stack pointer stood %" PRIu64 " higher at the entry\n", moved);
    return 0;
}

/* A relaxed function put in place: writes its table, applies the relocations at the addresses that a linker chose, reads the rules
 * behind the step that became shorter, and walks a recorded fault by them.
 *
 *     bindings/archive
 *     gcc -O2 -Wall -Wextra -Werror -o target/placed examples/c/placed.c target/lib/libdekvoz.a
 *     target/placed */
#include <inttypes.h>
#include <stdio.h>

#include "../../include/dekvoz.h"

enum { DEF_CFA_OFFSET = 1, OFFSET = 3, ELF = 0, EH_FRAME = 0, WORD = 8, STACK = 2, RETURN_ADDRESS = 1, NO_FRAME_POINTER = 65536 };
enum { FUNCTION = 16, END = 17, START = 18, MIDDLE = 19 };
#define LENGTH(list) (sizeof(list) / sizeof *(list))

/* RISC-V, 64 bits; what DWARF registers map to is for x64 alone. */
static uint64_t machine[70] = {WORD, 0, STACK, RETURN_ADDRESS, NO_FRAME_POINTER, 0};

/* Two rows at offset 8 before the linker: in front of them stands a call of 8 bytes, to the routine that stores the return address. */
static const uint64_t rows[] = {8, DEF_CFA_OFFSET, 0, 16, 8, OFFSET, RETURN_ADDRESS, (uint32_t)-8};
static const uint64_t pairs[] = {0, 8, START, MIDDLE};
static const uint64_t functions[] = {FUNCTION, 20, 0, 2, 0, 0, 0, 0, 0, 0, 0, 0, 0, 0, 1, END, 0, 1};

/* The linker made the call 4 bytes long. */
static const uint64_t addresses[] = {FUNCTION, 0x10000, START, 0x10000, MIDDLE, 0x10004, END, 0x10010};

/* The function called itself and was stopped: two words of each frame, the upper one where the frame returns to; registers 0 to 2, of
 * which the stack pointer is needed; and the trailer: the distance to the first register, and in one word how many registers and how many
 * bytes of the stack there are. */
enum { STACK_AT = 0x8000 };
static const uint64_t recorded[] = {0, 0x1000c, 0, 0, 0, 0, STACK_AT, 3 * 8, 3 | (uint64_t)(4 * 8) << 32};
static const uint64_t now[] = {0x10000, 0x10010 - 0x10000};

static uint64_t places[1], relocations[5 * 8];
static uint8_t bytes[128], placed[128];

int main(void) {
    for (size_t i = 6; i < LENGTH(machine); i++) machine[i] = 255;
    unwind_written table = unwind_relaxed_table(machine, LENGTH(machine), ELF, functions, LENGTH(functions), rows, LENGTH(rows),
        NULL, 0, pairs, LENGTH(pairs), places, LENGTH(places), bytes, LENGTH(bytes), relocations, LENGTH(relocations), NULL, 0);
    if (table.number) return (int)table.number;
    uint64_t number = unwind_apply(bytes, table.bytes, relocations, 5 * table.relocations, addresses, LENGTH(addresses), 0x12000, 0,
        placed, LENGTH(placed));
    if (number) return (int)number;
    for (uint64_t p = 0; p < 16; p += 4) {
        unwind_reading r = unwind_read(placed, table.bytes, NULL, 0, EH_FRAME, WORD, 0, RETURN_ADDRESS, p);
        if (r.number) return (int)r.number;
        printf("at %2" PRIu64 ": frame address is register %" PRIu64 " plus %" PRId64 "\n", p, r.frame_register, (int64_t)r.frame_offset);
    }
    /* The record's bytes are little-endian, as those of the hosts that the library is for. */
    uint64_t frames[2 * 64];
    unwind_chain chain = unwind_walk(machine, LENGTH(machine), (const uint8_t *)recorded, sizeof recorded, placed, table.bytes, NULL, 0,
        EH_FRAME, 0x10008, STACK_AT, now, LENGTH(now), frames, LENGTH(frames));
    if (chain.number) return (int)chain.number;
    for (uint64_t i = 0; i < chain.frames; i++) printf("frame %" PRIu64 " at %2" PRIu64 "\n", i, frames[2 * i + 1] - now[0]);
    printf(chain.ending == UNWIND_HELD_BY_NONE ? "no function holds what the last one returns to\n" : "the chain ends otherwise\n");
    return 0;
}

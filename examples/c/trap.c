/* A trap in a small firmware: writes the table of its three functions, checks their rows, prints by which rules the caller is found
 * from each frame of the chain, and walks the recorded fault. It prints what bindings/rust/examples/trap.rs prints.
 *
 *     bindings/archive
 *     gcc -O2 -Wall -Wextra -Werror -o target/trap examples/c/trap.c target/lib/libdekvoz.a
 *     target/trap */
#include <inttypes.h>
#include <stdio.h>

#include "../../include/dekvoz.h"

enum { DEF_CFA, DEF_CFA_OFFSET, DEF_CFA_REGISTER, OFFSET, RESTORE, UNDEFINED, REMEMBER_STATE, RESTORE_STATE };
enum { RBX = 3, RBP = 6, RSP = 7, RETURN_ADDRESS = 16 };
enum { ELF = 0, EH_FRAME = 0, WORD = 8, FUNCTIONS = 3 };
#define LENGTH(list) (sizeof(list) / sizeof *(list))

/* An offset operand is 32-bit two's complement. */
static const uint64_t rows[] = {
    /* reset */
    0, UNDEFINED, RETURN_ADDRESS, 0,
    /* control */
    1, DEF_CFA_OFFSET, 0, 16,
    1, OFFSET, RBP, (uint32_t)-16,
    4, DEF_CFA_REGISTER, RBP, 0,
    60, DEF_CFA, RSP, 8,
    60, RESTORE, RBP, 0,
    /* sample */
    1, DEF_CFA_OFFSET, 0, 16,
    1, OFFSET, RBX, (uint32_t)-16,
    5, DEF_CFA_OFFSET, 0, 48,
    30, REMEMBER_STATE, 0, 0,
    34, DEF_CFA_OFFSET, 0, 16,
    35, DEF_CFA_OFFSET, 0, 8,
    36, RESTORE_STATE, 0, 0,
};

/* Symbol, length, the first row and how many; no landings, marks, personality or relaxing labels. */
static const uint64_t functions[18 * FUNCTIONS] = {
    16, 14, 0, 1, 0, 0, 0, 0, 0, 0, 0, 0, 0, 0, 0, 0, 0, 0,
    17, 61, 1, 5, 0, 0, 0, 0, 0, 0, 0, 0, 0, 0, 0, 0, 0, 0,
    18, 50, 6, 7, 0, 0, 0, 0, 0, 0, 0, 0, 0, 0, 0, 0, 0, 0,
};

static const char *const names[FUNCTIONS] = {"reset", "control", "sample"};

/* The trap stands at offset 20 of sample, which returns to 31 of control, which returns to 12 of reset. A caller is looked up one byte
 * before its return address, since the call may be the last instruction of its function. */
static const struct {
    uint64_t k, p, before;
} chain[] = {{2, 20, 0}, {1, 31, 1}, {0, 12, 1}};

/* The registers that are asked about, by their DWARF numbers. */
static const struct {
    const char *name;
    uint16_t number;
} registers[] = {{"rbx", RBX}, {"rbp", RBP}, {"return address", RETURN_ADDRESS}};

/* Where the linker put the functions, with their lengths, and what was recorded when sample was stopped: ten words of the stack, among them
 * rbx and the return address of sample, rbp and that of control; and the registers, of which rbp and rsp are needed. */
static const uint64_t placed[2 * FUNCTIONS] = {0x1000, 14, 0x1010, 61, 0x1050, 50};
enum { STACK = 0x8000, STACK_WORDS = 10, REGISTERS = 17, STOPPED = 0x1050 + 20 };
static const uint64_t stack[STACK_WORDS] = {0, 0, 0, 0, 7, 0x1010 + 31, 0, 0, 0, 0x1000 + 12};
static const uint64_t values[REGISTERS] = {0, 0, 0, 0, 0, 0, /* rbp */ STACK + 64, /* rsp */ STACK};

static uint64_t places[FUNCTIONS], relocations[5 * 8];
static uint8_t bytes[512];

static void print_frame(const unwind_reading *r) {
    if (r->frame) printf("  frame address: register %" PRIu64 " plus %" PRId64 "\n", r->frame_register, (int64_t)r->frame_offset);
    else printf("  no frame address\n");
}

static void print_rule(const char *name, const unwind_reading *r) {
    if (r->rule == 2) printf("  %s: at the frame address plus %" PRId64 "\n", name, (int64_t)r->rule_value);
    else if (r->rule == 4) printf("  %s: in register %" PRIu64 "\n", name, r->rule_value);
    else printf("  %s: %s\n", name, r->rule == 1 ? "gone" : r->rule == 3 ? "kept" : "as it is");
}

/* The rules `before` offset p of function k, or the number of the question that was answered by no. */
static uint64_t print_rules(const unwind_written *table, uint64_t k, uint64_t p, uint64_t before) {
    printf("%s at %" PRIu64 ", asked at %" PRIu64 ":\n", names[k], p, p - before);
    for (size_t i = 0; i < LENGTH(registers); i++) {
        unwind_reading r = unwind_read(bytes, table->bytes, relocations, 5 * table->relocations, EH_FRAME, WORD, k,
            registers[i].number, p - before);
        if (r.number) return r.number;
        if (i == 0) print_frame(&r);
        print_rule(registers[i].name, &r);
    }
    return 0;
}

/* A number's bytes, the lowest first; the place behind them. */
static uint8_t *put(uint8_t *at, uint64_t number, int size) {
    for (int i = 0; i < size; i++) *at++ = (uint8_t)(number >> (8 * i));
    return at;
}

/* The chain by unwind_walk, or the number of the question that was answered by no. */
static uint64_t print_chain(const uint64_t *machine, size_t machine_n, const unwind_written *table) {
    uint8_t record[8 * STACK_WORDS + 8 * REGISTERS + 16], *at = record;
    for (size_t i = 0; i < STACK_WORDS; i++) at = put(at, stack[i], 8);
    for (size_t i = 0; i < REGISTERS; i++) at = put(at, values[i], 8);
    at = put(at, 8 * REGISTERS, 8);
    at = put(at, REGISTERS, 4);
    put(at, 8 * STACK_WORDS, 4);
    uint64_t frames[2 * 64];
    unwind_chain walked = unwind_walk(machine, machine_n, record, sizeof record, bytes, table->bytes, relocations,
        5 * table->relocations, EH_FRAME, STOPPED, STACK, placed, LENGTH(placed), frames, LENGTH(frames));
    if (walked.number) return walked.number;
    printf("the walk:");
    for (uint64_t i = 0; i < walked.frames; i++) {
        uint64_t k = frames[2 * i];
        printf(" %s+%" PRIu64, names[k], frames[2 * i + 1] - placed[2 * k]);
    }
    printf(walked.ending == UNWIND_RETURN_UNDEFINED ? ", which returns nowhere\n" : ", and no further\n");
    return 0;
}

static int refused(uint64_t number, uint64_t position) {
    fprintf(stderr, "refused by question %" PRIu64 " at function %" PRIu64 "\n", number, position);
    return 1;
}

int main(void) {
    for (uint64_t k = 0; k < FUNCTIONS; k++) {
        uint64_t yes = unwind_row_check(functions, LENGTH(functions), rows, LENGTH(rows), k);
        printf("%s: row check %s\n", names[k], yes ? "yes" : "no");
    }
    uint64_t machine[70];
    unwind_machine_x86_64(machine, LENGTH(machine));
    /* There are no landings and pairs, and no call sites. */
    unwind_written table = unwind_relaxed_table(machine, LENGTH(machine), ELF, functions, LENGTH(functions), rows, LENGTH(rows),
        NULL, 0, NULL, 0, places, LENGTH(places), bytes, LENGTH(bytes), relocations, LENGTH(relocations), NULL, 0);
    if (table.number) return refused(table.number, table.position);
    printf("eh_frame: %" PRIu64 " bytes, %" PRIu64 " relocations\n", table.bytes, table.relocations);
    for (size_t i = 0; i < LENGTH(chain); i++) {
        uint64_t number = print_rules(&table, chain[i].k, chain[i].p, chain[i].before);
        if (number) return refused(number, chain[i].k);
    }
    uint64_t number = print_chain(machine, LENGTH(machine), &table);
    return number ? refused(number, 0) : 0;
}

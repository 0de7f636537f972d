/* Many lookups in one section: the index is made once, its functions are sorted by address, and each lookup is a search by halves and one
 * call that reads the record at its place. Nothing is allocated.
 *
 *     bindings/archive
 *     gcc -O2 -Wall -Wextra -Werror -o target/index examples/c/index.c target/lib/libdekvoz.a
 *     target/index */
#include <inttypes.h>
#include <stdio.h>
#include <stdlib.h>

#include "../../include/dekvoz.h"

enum { DEF_CFA_OFFSET = 1, RETURN_ADDRESS = 16, ELF = 0, EH_FRAME = 0, WORD = 8, FUNCTIONS = 3 };
#define LENGTH(list) (sizeof(list) / sizeof *(list))

/* Each function pushes once, at offset 1. */
static const uint64_t rows[] = {1, DEF_CFA_OFFSET, 0, 16};
static const uint64_t functions[18 * FUNCTIONS] = {
    16, 40, 0, 1, 0, 0, 0, 0, 0, 0, 0, 0, 0, 0, 0, 0, 0, 0,
    17, 16, 0, 1, 0, 0, 0, 0, 0, 0, 0, 0, 0, 0, 0, 0, 0, 0,
    18, 64, 0, 1, 0, 0, 0, 0, 0, 0, 0, 0, 0, 0, 0, 0, 0, 0,
};

/* Where the linker put them, in an order of its own, and their section. */
static const uint64_t addresses[] = {16, 0x3000, 17, 0x1000, 18, 0x2000};
enum { SECTION = 0x8000 };

/* A record of the index with its function. */
struct found {
    uint64_t start, length, record, header;
};

static uint64_t places[FUNCTIONS], relocations[5 * 8];
static uint8_t bytes[512], section[512];

static int by_start(const void *a, const void *b) {
    uint64_t x = ((const struct found *)a)->start, y = ((const struct found *)b)->start;
    return (x > y) - (x < y);
}

/* The last function that starts at or before an address, if it holds it. */
static const struct found *holder(const struct found *list, size_t count, uint64_t pc) {
    size_t from = 0;
    while (count > 0) {
        size_t half = count / 2;
        if (list[from + half].start <= pc) {
            from += half + 1;
            count -= half + 1;
        } else {
            count = half;
        }
    }
    return from > 0 && pc - list[from - 1].start < list[from - 1].length ? &list[from - 1] : NULL;
}

int main(void) {
    uint64_t machine[70];
    unwind_machine_x86_64(machine, LENGTH(machine));
    unwind_written table = unwind_relaxed_table(machine, LENGTH(machine), ELF, functions, LENGTH(functions), rows, LENGTH(rows),
        NULL, 0, NULL, 0, places, LENGTH(places), bytes, LENGTH(bytes), relocations, LENGTH(relocations), NULL, 0);
    if (table.number) return (int)table.number;
    uint64_t number = unwind_apply(bytes, table.bytes, relocations, 5 * table.relocations, addresses, LENGTH(addresses), SECTION, 0,
        section, LENGTH(section));
    if (number) return (int)number;

    /* Once: a record has 8 bytes at least, and two numbers in the index. */
    static uint64_t index[2 * LENGTH(section) / 8];
    unwind_indexed indexed = unwind_index(section, table.bytes, NULL, 0, EH_FRAME, WORD, index, LENGTH(index));
    if (indexed.number) return (int)indexed.number;
    static struct found list[LENGTH(section) / 8];
    for (uint64_t k = 0; k < indexed.records; k++) {
        unwind_placed function = unwind_function_at(section, table.bytes, EH_FRAME, WORD, SECTION, index[2 * k]);
        if (function.number) return (int)function.number;
        list[k].start = function.address;
        list[k].length = function.length;
        list[k].record = index[2 * k];
        list[k].header = index[2 * k + 1];
    }
    qsort(list, indexed.records, sizeof *list, by_start);

    /* As often as is asked. */
    static const uint64_t asked[] = {0x1000, 0x1001, 0x100f, 0x1010, 0x203f, 0x2fff, 0x3020};
    for (size_t i = 0; i < LENGTH(asked); i++) {
        const struct found *found = holder(list, indexed.records, asked[i]);
        if (!found) {
            printf("%#" PRIx64 ": no function\n", asked[i]);
            continue;
        }
        unwind_located located = unwind_locate_at(section, table.bytes, EH_FRAME, WORD, found->record, found->header);
        unwind_reading r = unwind_rules_at(section, table.bytes, located, RETURN_ADDRESS, asked[i] - found->start);
        if (r.number) return (int)r.number;
        printf("%#" PRIx64 ": %" PRIu64 " bytes into the function at %#" PRIx64 ", frame address is register %" PRIu64 " plus %" PRId64
               ", return address at frame address plus %" PRId64 "\n",
            asked[i], asked[i] - found->start, found->start, r.frame_register, (int64_t)r.frame_offset, (int64_t)r.rule_value);
    }
    return 0;
}

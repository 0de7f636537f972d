/* The rules at every location of a function, in one run over its record: writes a table and lists where the caller's register 6 (rbp) is.
 *
 *     bindings/archive
 *     gcc -O2 -Wall -Wextra -Werror -o target/lines examples/c/lines.c target/lib/libdekvoz.a
 *     target/lines */
#include <inttypes.h>
#include <stdio.h>

#include "../../include/dekvoz.h"

enum { DEF_CFA = 0, DEF_CFA_OFFSET = 1, DEF_CFA_REGISTER = 2, OFFSET = 3, RESTORE = 4, ELF = 0, EH_FRAME = 0, WORD = 8, RBP = 6, RSP = 7 };
#define LENGTH(list) (sizeof(list) / sizeof *(list))

/* push rbp; mov rbp, rsp; ..; pop rbp; ret */
static const uint64_t rows[] = {
    1, DEF_CFA_OFFSET, 0, 16, 1, OFFSET, RBP, (uint32_t)-16, 4, DEF_CFA_REGISTER, RBP, 0, 30, DEF_CFA, RSP, 8, 30, RESTORE, RBP, 0,
};
static const uint64_t functions[] = {16, 31, 0, 5, 0, 0, 0, 0, 0, 0, 0, 0, 0, 0, 0, 0, 0, 0};

static uint64_t machine[70], places[1], relocations[5];
static uint8_t bytes[128];
/* Room for a line for each byte of the record's operations, and one more: the section is longer than these. */
static uint64_t lines[7 * (LENGTH(bytes) + 1)];

int main(void) {
    unwind_machine_x86_64(machine, LENGTH(machine));
    unwind_written table = unwind_relaxed_table(machine, LENGTH(machine), ELF, functions, LENGTH(functions), rows, LENGTH(rows), NULL, 0,
        NULL, 0, places, LENGTH(places), bytes, LENGTH(bytes), relocations, LENGTH(relocations), NULL, 0);
    if (table.number) return (int)table.number;
    unwind_located located = unwind_locate(bytes, table.bytes, NULL, 0, EH_FRAME, WORD, 0);
    unwind_listed listed = unwind_rules_along(bytes, table.bytes, located, RBP, lines, LENGTH(lines));
    if (listed.number) return (int)listed.number;
    for (uint64_t i = 0; i < listed.lines; i++) {
        const uint64_t *line = lines + 7 * i;
        printf("from %2" PRIu64 ": frame address is register %" PRIu64 " plus %2" PRId64, line[0], line[2], (int64_t)line[3]);
        if (line[4] == 2) printf(", rbp is saved at %" PRId64 " from it", (int64_t)line[5]);
        printf("\n");
    }
    if (listed.ending) printf("from %" PRIu64 ": refused by %" PRIu64 "\n", listed.from, listed.ending);
    return 0;
}

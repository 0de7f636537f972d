/* Faults put between fuzz.c and the library, to see that fuzz.c finds them. Linked with both by
 *
 *     gcc -Wl,--wrap=unwind_relaxed_table,--wrap=unwind_read,--wrap=unwind_pack_rows,--wrap=unwind_row_check_of,\
 *         --wrap=unwind_relaxed_table_of ..
 *
 * The number in UNWIND_FAULT, 1 to 22, says which one a seventh of the calls has. */
#include <stdlib.h>

#include "../../include/dekvoz.h"

enum {
    NONE,
    READS_PAST_ROWS,
    READS_BEFORE_ROWS,
    STORES_PAST_BYTES,
    STORES_BEFORE_BYTES,
    REFUSAL_STORES,
    STORES_PAST_RESULTS,
    STORES_IN_AN_INPUT,
    NO_SUCH_NUMBER,
    REFUSES_FULL_BUFFER,
    REFUSAL_WITH_COUNT,
    OTHER_BYTE,
    READS_PAST_SECTION,
    READS_PAST_RELOCATIONS,
    REFUSES_GOOD_OPERATION,
    REFUSAL_WITH_RULE,
    NO_SUCH_READING,
    READS_PAST_STRUCTS,
    PACKS_ONE_MORE,
    REFUSED_PACK_STORES,
    OTHER_ROW_CHECK,
    NUMBERS_NOT_CLEARED,
    OTHER_QUESTION_FIRST
};

/* The fault of this call, if it has one. */
static int fault(void) {
    static unsigned calls;
    const char *text = getenv("UNWIND_FAULT");
    return text && ++calls % 7 == 0 ? atoi(text) : NONE;
}

unwind_written __real_unwind_relaxed_table(const uint64_t *, size_t, uint64_t, const uint64_t *, size_t, const uint64_t *, size_t,
    const uint64_t *, size_t, const uint64_t *, size_t, uint64_t *, size_t, uint8_t *, size_t, uint64_t *, size_t, uint8_t *, size_t);
unwind_written __wrap_unwind_relaxed_table(const uint64_t *, size_t, uint64_t, const uint64_t *, size_t, const uint64_t *, size_t,
    const uint64_t *, size_t, const uint64_t *, size_t, uint64_t *, size_t, uint8_t *, size_t, uint64_t *, size_t, uint8_t *, size_t);
unwind_reading __real_unwind_read(
    const uint8_t *, size_t, const uint64_t *, size_t, uint64_t, uint64_t, uint64_t, uint16_t, uint64_t);
unwind_reading __wrap_unwind_read(
    const uint8_t *, size_t, const uint64_t *, size_t, uint64_t, uint64_t, uint64_t, uint16_t, uint64_t);

uint64_t __real_unwind_pack_rows(const unwind_row *, size_t, uint64_t *, size_t);
uint64_t __wrap_unwind_pack_rows(const unwind_row *, size_t, uint64_t *, size_t);
uint64_t __real_unwind_row_check_of(uint64_t, const unwind_row *, size_t);
uint64_t __wrap_unwind_row_check_of(uint64_t, const unwind_row *, size_t);
unwind_written __real_unwind_relaxed_table_of(const uint64_t *, size_t, uint64_t, const unwind_function *, size_t, const unwind_row *,
    size_t, const uint64_t *, size_t, const uint64_t *, size_t, uint64_t *, size_t, uint64_t *, size_t, uint8_t *, size_t,
    uint64_t *, size_t, uint8_t *, size_t);
unwind_written __wrap_unwind_relaxed_table_of(const uint64_t *, size_t, uint64_t, const unwind_function *, size_t, const unwind_row *,
    size_t, const uint64_t *, size_t, const uint64_t *, size_t, uint64_t *, size_t, uint64_t *, size_t, uint8_t *, size_t,
    uint64_t *, size_t, uint8_t *, size_t);

unwind_written __wrap_unwind_relaxed_table(const uint64_t *machine, size_t machine_n, uint64_t format, const uint64_t *functions,
    size_t functions_n, const uint64_t *rows, size_t rows_n, const uint64_t *landings, size_t landings_n, const uint64_t *pairs,
    size_t pairs_n, uint64_t *places, size_t places_n, uint8_t *bytes, size_t bytes_n, uint64_t *relocations, size_t relocations_n,
    uint8_t *sites, size_t sites_n) {
    unwind_written w = __real_unwind_relaxed_table(machine, machine_n, format, functions, functions_n, rows, rows_n, landings,
        landings_n, pairs, pairs_n, places, places_n, bytes, bytes_n, relocations, relocations_n, sites, sites_n);
    volatile uint64_t seen = 0;
    switch (fault()) {
    case READS_PAST_ROWS:
        if (rows_n) seen = rows[rows_n];
        break;
    case READS_BEFORE_ROWS:
        if (rows_n) seen = rows[-1];
        break;
    case STORES_PAST_BYTES:
        if (bytes_n) bytes[bytes_n] ^= 1;
        break;
    case STORES_BEFORE_BYTES:
        if (bytes_n) bytes[-1] ^= 1;
        break;
    case REFUSAL_STORES:
        if (w.number && sites_n) sites[sites_n - 1] ^= 1;
        break;
    case STORES_PAST_RESULTS:
        if (!w.number && 5 * w.relocations < relocations_n) relocations[5 * w.relocations] = 0;
        break;
    case STORES_IN_AN_INPUT:
        if (functions_n) ((uint64_t *)functions)[functions_n - 1] ^= 1;
        break;
    case NO_SUCH_NUMBER:
        if (w.number == 21) w.number = 26;
        break;
    case REFUSES_FULL_BUFFER:
        if (!w.number && w.bytes && w.bytes == bytes_n) w = (unwind_written){52, 0, 0, 0, 0, 0};
        break;
    case REFUSAL_WITH_COUNT:
        if (w.number) w.sites = 1;
        break;
    case OTHER_BYTE:
        if (!w.number && w.bytes) bytes[w.bytes - 1] ^= 0x40;
        break;
    default: break;
    }
    (void)seen;
    return w;
}

unwind_reading __wrap_unwind_read(const uint8_t *section, size_t section_n, const uint64_t *relocations, size_t relocations_n,
    uint64_t kind, uint64_t word, uint64_t k, uint16_t reg, uint64_t p) {
    unwind_reading r = __real_unwind_read(section, section_n, relocations, relocations_n, kind, word, k, reg, p);
    volatile uint64_t seen = 0;
    switch (fault()) {
    case READS_PAST_SECTION:
        if (section_n) seen = section[section_n];
        break;
    case READS_PAST_RELOCATIONS:
        if (relocations_n % 5 == 4) seen = relocations[relocations_n];
        break;
    case REFUSES_GOOD_OPERATION:
        if (!r.number) r = (unwind_reading){66, 0, 0, 0, 0, 0, 0, 0};
        break;
    case REFUSAL_WITH_RULE:
        if (r.number) r.rule = 1;
        break;
    case NO_SUCH_READING:
        if (r.number == 65) r.number = 55;
        break;
    default: break;
    }
    (void)seen;
    return r;
}

uint64_t __wrap_unwind_pack_rows(const unwind_row *rows, size_t rows_n, uint64_t *numbers, size_t numbers_n) {
    uint64_t number = __real_unwind_pack_rows(rows, rows_n, numbers, numbers_n);
    volatile uint64_t seen = 0;
    switch (fault()) {
    case READS_PAST_STRUCTS:
        if (rows_n) seen = rows[rows_n].offset;
        break;
    case PACKS_ONE_MORE:
        if (!number && 4 * rows_n < numbers_n) numbers[4 * rows_n] = 0;
        break;
    case REFUSED_PACK_STORES:
        if (number && numbers_n) numbers[0] = rows[0].offset;
        break;
    default: break;
    }
    (void)seen;
    return number;
}

uint64_t __wrap_unwind_row_check_of(uint64_t simple, const unwind_row *rows, size_t rows_n) {
    uint64_t yes = __real_unwind_row_check_of(simple, rows, rows_n);
    return fault() == OTHER_ROW_CHECK && yes && rows_n ? 0 : yes;
}

unwind_written __wrap_unwind_relaxed_table_of(const uint64_t *machine, size_t machine_n, uint64_t format,
    const unwind_function *functions, size_t functions_n, const unwind_row *rows, size_t rows_n, const uint64_t *landings,
    size_t landings_n, const uint64_t *pairs, size_t pairs_n, uint64_t *numbers, size_t numbers_n, uint64_t *places, size_t places_n,
    uint8_t *bytes, size_t bytes_n, uint64_t *relocations, size_t relocations_n, uint8_t *sites, size_t sites_n) {
    unwind_written w = __real_unwind_relaxed_table_of(machine, machine_n, format, functions, functions_n, rows, rows_n, landings,
        landings_n, pairs, pairs_n, numbers, numbers_n, places, places_n, bytes, bytes_n, relocations, relocations_n, sites, sites_n);
    switch (fault()) {
    case NUMBERS_NOT_CLEARED:
        if (!w.number && functions_n) numbers[0] = functions[0].symbol;
        break;
    case OTHER_QUESTION_FIRST:
        if (w.number == 54 && numbers_n < 18 * functions_n) w.number = 13;
        break;
    default: break;
    }
    return w;
}

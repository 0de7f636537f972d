/* Times of the reader by places on a table of 10,000 functions: the index, a record by its two places, a record by its number, and the
 * rules of 65 registers of one record by one locating and by a read each. Processor time; the fastest of several turns counts.
 * `by_place FILE` writes the section too, for by_place_gimli.rs. */
#define _POSIX_C_SOURCE 199309L
#include <inttypes.h>
#include <stdio.h>
#include <stdlib.h>
#include <time.h>

#include "../../include/dekvoz.h"

enum { FUNCTIONS = 10000, ROWS = 5, REGISTERS = 65, TURNS = 40, LOOKUPS = 10000 };

static uint64_t functions[18 * FUNCTIONS], rows[4 * ROWS], header_places[FUNCTIONS], relocations[20 * FUNCTIONS], places[2 * FUNCTIONS];
static uint8_t section[100 * FUNCTIONS], debug[100 * FUNCTIONS], sites[1];
static uint64_t debug_relocations[20 * FUNCTIONS];
static uint64_t machine[70];

static double now(void) {
    struct timespec t;
    clock_gettime(CLOCK_PROCESS_CPUTIME_ID, &t);
    return (double)t.tv_sec + (double)t.tv_nsec * 1e-9;
}

static void check(int right, const char *what) {
    if (right) return;
    fprintf(stderr, "by_place: %s\n", what);
    exit(1);
}

static unwind_written table(void) {
    /* push rbp; mov rbp, rsp; ..; pop rbp; ret */
    static const uint64_t frame[ROWS][4] = {{1, 1, 0, 16}, {1, 3, 6, 0xfffffff0}, {4, 2, 6, 0}, {30, 0, 7, 8}, {30, 4, 6, 0}};
    for (int i = 0; i < ROWS; i++)
        for (int j = 0; j < 4; j++) rows[4 * i + j] = frame[i][j];
    for (uint64_t k = 0; k < FUNCTIONS; k++) {
        functions[18 * k] = 16 + k;
        functions[18 * k + 1] = 31;
        functions[18 * k + 3] = ROWS;
    }
    check(unwind_machine_x86_64(machine, 70) == 0, "machine");
    return unwind_relaxed_table(machine, 70, 0, functions, 18 * FUNCTIONS, rows, 4 * ROWS, NULL, 0, NULL, 0, header_places, FUNCTIONS,
        section, sizeof section, relocations, 20 * FUNCTIONS, sites, 0);
}

static unwind_written debug_table(void) {
    return unwind_relaxed_debug_frame(machine, 70, 0, functions, 18 * FUNCTIONS, rows, 4 * ROWS, NULL, 0, NULL, 0, header_places, FUNCTIONS,
        debug, sizeof debug, debug_relocations, 20 * FUNCTIONS);
}

/* One turn of each, in seconds. */
static double time_index(const uint8_t *s, size_t n, const uint64_t *related, size_t m, uint64_t kind) {
    double start = now();
    unwind_indexed r = unwind_index(s, n, related, m, kind, 8, places, 2 * FUNCTIONS);
    double taken = now() - start;
    check(r.number == 0 && r.records == FUNCTIONS, "index");
    return taken;
}

static double time_places(size_t n) {
    uint64_t sum = 0;
    double start = now();
    for (uint64_t i = 0; i < LOOKUPS; i++) {
        uint64_t k = i * 7919 % FUNCTIONS;
        sum += unwind_locate_at(section, n, 0, 8, places[2 * k], places[2 * k + 1]).length;
    }
    double taken = now() - start;
    check(sum == 31ull * LOOKUPS, "places");
    return taken / LOOKUPS;
}

static double time_lookups(size_t n) {
    uint64_t sum = 0;
    double start = now();
    for (uint64_t i = 0; i < LOOKUPS; i++) {
        uint64_t k = i * 7919 % FUNCTIONS;
        unwind_located l = unwind_locate_at(section, n, 0, 8, places[2 * k], places[2 * k + 1]);
        sum += unwind_rules_at(section, n, l, 6, 8).rule;
    }
    double taken = now() - start;
    check(sum == 2ull * LOOKUPS, "lookups");
    return taken / LOOKUPS;
}

static double time_read(size_t n, size_t m, uint64_t k) {
    double start = now();
    unwind_reading r = unwind_read(section, n, relocations, m, 0, 8, k, 6, 8);
    double taken = now() - start;
    check(r.number == 0 && r.rule == 2, "read");
    return taken;
}

static double time_registers(size_t n, size_t m, uint64_t k) {
    uint64_t saved = 0;
    double start = now();
    unwind_located l = unwind_locate(section, n, relocations, m, 0, 8, k);
    for (uint16_t reg = 0; reg < REGISTERS; reg++) saved += unwind_rules_at(section, n, l, reg, 8).rule;
    double taken = now() - start;
    check(saved == 4, "registers");
    return taken;
}

static double time_reads(size_t n, size_t m, uint64_t k) {
    uint64_t saved = 0;
    double start = now();
    for (uint16_t reg = 0; reg < REGISTERS; reg++) saved += unwind_read(section, n, relocations, m, 0, 8, k, reg, 8).rule;
    double taken = now() - start;
    check(saved == 4, "reads");
    return taken;
}

static double time_holder(size_t n) {
    double start = now();
    unwind_holder r = unwind_record_of(section, n, 0, 8, 0, UINT64_MAX);
    double taken = now() - start;
    check(r.number == 62, "holder");
    return taken;
}

static void least(double *best, double taken) {
    if (*best == 0 || taken < *best) *best = taken;
}

static void save(const char *path, size_t n) {
    FILE *file = fopen(path, "wb");
    check(file != NULL && fwrite(section, 1, n, file) == n && fclose(file) == 0, "the file");
}

int main(int argc, char **argv) {
    enum { DEBUG, INDEX, PLACES, LOOKUP, READ, ALL, READS, HOLDER, KINDS };
    static const char *const NAMES[KINDS] = {"index of 10,000 records, debug_frame", "index of 10,000 records", "record located by its places", "record located by its places, and one register",
        "read by number, the last record", "65 registers, one locating, the last record", "65 registers, a read each, the last record",
        "search of an address that no record holds"};
    double best[KINDS] = {0};
    unwind_written w = table();
    unwind_written d = debug_table();
    check(w.number == 0 && d.number == 0, "table");
    size_t n = w.bytes, m = 5 * w.relocations;
    if (argc == 2) save(argv[1], n);
    for (int turn = 0; turn < TURNS; turn++) {
        if (turn < 3) least(&best[DEBUG], time_index(debug, d.bytes, debug_relocations, 5 * d.relocations, 1));
        least(&best[INDEX], time_index(section, n, relocations, m, 0));
        least(&best[PLACES], time_places(n));
        least(&best[LOOKUP], time_lookups(n));
        least(&best[READ], time_read(n, m, FUNCTIONS - 1));
        least(&best[ALL], time_registers(n, m, FUNCTIONS - 1));
        least(&best[READS], time_reads(n, m, FUNCTIONS - 1));
        least(&best[HOLDER], time_holder(n));
    }
    printf("%zu bytes\n", n);
    for (int i = 0; i < KINDS; i++) printf("%-50s %10.2f us\n", NAMES[i], best[i] * 1e6);
    return 0;
}

/* Times unwind_check_section on sections of 1 to 16 MiB, each with gcc's rows of a function with a frame pointer.
 *
 *     check_section [RUNS]     the shortest of RUNS (5) calls, in milliseconds of processor time, and what it is for each MiB
 *
 * one: one header. each: a header in front of each record. first: as many headers as records, all in front of them. */
#include <inttypes.h>
#include <stdio.h>
#include <stdlib.h>
#include <string.h>
#include <time.h>

#include "../../include/dekvoz.h"

enum { MIB = 1 << 20, HEADER = 24, RECORD = 32 };

static const uint8_t header[HEADER] = {20, 0, 0, 0, 0, 0, 0, 0, 1, 'z', 'R', 0, 1, 0x78, 16, 1, 0x1b, 0x0c, 7, 8, 0x90, 1, 0, 0};
static const uint8_t record[RECORD] = {28, 0, 0, 0, 0, 0, 0, 0, 0, 0, 0, 0, 100, 0, 0, 0, 0, 0x41, 0x0e, 16, 0x86, 2, 0x43, 0x0d, 6, 2, 0x50, 0x0c, 7, 8, 0, 0};

static void put32(uint8_t *at, uint32_t v) {
    for (int i = 0; i < 4; i++) at[i] = v >> 8 * i;
}

static size_t put_header(uint8_t *s, size_t at) {
    memcpy(s + at, header, HEADER);
    return at + HEADER;
}

static size_t put_record(uint8_t *s, size_t at, size_t header_at) {
    memcpy(s + at, record, RECORD);
    put32(s + at + 4, at + 4 - header_at);
    return at + RECORD;
}

static size_t one(uint8_t *s, size_t n) {
    size_t at = put_header(s, 0);
    while (at + RECORD <= n) at = put_record(s, at, 0);
    return at;
}

static size_t each(uint8_t *s, size_t n) {
    size_t at = 0;
    while (at + HEADER + RECORD <= n) {
        size_t header_at = at;
        at = put_record(s, put_header(s, at), header_at);
    }
    return at;
}

static size_t first(uint8_t *s, size_t n) {
    size_t count = n / (HEADER + RECORD), at = 0;
    for (size_t i = 0; i < count; i++) at = put_header(s, at);
    for (size_t i = 0; i < count; i++) at = put_record(s, at, i * HEADER);
    return at;
}

static double now(void) {
    struct timespec t;
    clock_gettime(CLOCK_PROCESS_CPUTIME_ID, &t);
    return t.tv_sec * 1e3 + t.tv_nsec / 1e6;
}

static void measure(const char *name, size_t (*make)(uint8_t *, size_t), uint8_t *s, size_t mib, int runs) {
    size_t n = make(s, mib * MIB);
    double best = 1e30;
    for (int i = 0; i < runs; i++) {
        double begin = now();
        unwind_checked r = unwind_check_section(s, n, 8);
        double took = now() - begin;
        if (r.number != 0) {
            printf("%s, %zu MiB: %" PRIu64 ", record %" PRIu64 "\n", name, mib, r.number, r.record);
            exit(1);
        }
        if (took < best) best = took;
    }
    printf("%-6s %2zu MiB: %8.2f ms, %6.2f ms for each MiB\n", name, mib, best, best / mib);
}

int main(int argc, char **argv) {
    int runs = argc > 1 ? atoi(argv[1]) : 5;
    uint8_t *s = malloc(16 * MIB);
    if (s == NULL) return 3;
    setvbuf(stdout, NULL, _IOLBF, 0);
    for (size_t mib = 1; mib <= 16; mib *= 2) measure("one", one, s, mib, runs);
    for (size_t mib = 1; mib <= 16; mib *= 2) measure("each", each, s, mib, runs);
    for (size_t mib = 1; mib <= 16; mib *= 2) measure("first", first, s, mib, runs);
    free(s);
    return 0;
}

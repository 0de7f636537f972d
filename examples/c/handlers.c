/* Which handler gets a trap: writes a function with two landings, finds the function's table of call sites by its record's relocation,
 * and prints the site of some offsets.
 *
 *     bindings/archive
 *     cc -o handlers examples/c/handlers.c target/lib/libdekvoz.a && ./handlers */
#include <inttypes.h>
#include <stdio.h>

#include "../../include/dekvoz.h"

#define LENGTH(a) (sizeof(a) / sizeof *(a))

enum { ELF = 0, CALL_SITES = 1 };

/* start, length, pad: the calls from 4 to 11 go to the pad at 50, those from 20 to 29 have no handler */
static const uint64_t landings[] = {4, 8, 50, 20, 10, 0};

/* symbol, length, rows_at, rows, landings_at, landings, and no marks */
static const uint64_t functions[18] = {16, 60, 0, 0, 0, LENGTH(landings) / 3};

static const uint64_t offsets[] = {4, 11, 12, 25, 40};

static uint64_t machine[70], places[1], relocations[5 * 8];
static uint8_t bytes[256], sites[64];

int main(void) {
    if (unwind_machine_x86_64(machine, LENGTH(machine))) return 1;
    unwind_written w = unwind_relaxed_table(machine, LENGTH(machine), ELF, functions, LENGTH(functions), NULL, 0, landings, LENGTH(landings),
        NULL, 0, places, LENGTH(places), bytes, LENGTH(bytes), relocations, LENGTH(relocations), sites, LENGTH(sites));
    if (w.number) return 1;
    uint64_t place = w.sites;
    for (uint64_t i = 0; i < w.relocations; i++)
        if (relocations[5 * i + 1] == CALL_SITES) place = relocations[5 * i + 4];
    for (size_t i = 0; i < LENGTH(offsets); i++) {
        unwind_site s = unwind_call_site(sites, w.sites, place, offsets[i]);
        if (s.number) return 1;
        printf("offset %" PRIu64 ": ", offsets[i]);
        if (!s.found) printf("no site\n");
        else if (s.pad) printf("the pad at %" PRIu64 "\n", s.pad);
        else printf("no handler\n");
    }
    return 0;
}

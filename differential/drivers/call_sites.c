/* Hands lines to the reader of call sites and to eh_frame's writer, and prints their answers, a line each.
 *
 *     site PLACE OFFSET HEX    the six numbers
 *     write N N ..             the call sites of one function for each list of landings, three numbers each, the lists parted by `,`;
 *                              the number of the question, the bytes (- for none), and the addend of each relocation to symbol 1
 */
#include <inttypes.h>
#include <stdio.h>
#include <stdlib.h>
#include <string.h>

#include "../../include/dekvoz.h"

enum { MOST = 65536, FUNCTIONS = 64, CALL_SITES = 1 };

static uint8_t bytes[MOST], sites[MOST];
static uint64_t machine[70], functions[18 * FUNCTIONS], landings[MOST], places[FUNCTIONS], relocations[MOST];

static uint64_t number(void) {
    char *word = strtok(NULL, " \n");
    return word ? strtoull(word, NULL, 10) : 0;
}

static void site_one(void) {
    uint64_t place = number(), offset = number();
    char *hex = strtok(NULL, " \n");
    size_t n = hex ? strlen(hex) / 2 : 0;
    if (n > MOST) exit(3);
    for (size_t i = 0; i < n; i++) {
        char digits[3] = {hex[2 * i], hex[2 * i + 1], 0};
        sites[i] = (uint8_t)strtoul(digits, NULL, 16);
    }
    unwind_site s = unwind_call_site(sites, n, place, offset);
    printf("%" PRIu64 " %" PRIu64 " %" PRIu64 " %" PRIu64 " %" PRIu64 " %" PRIu64 "\n", s.number, s.found, s.start, s.length, s.pad, s.shortest);
}

static void function_at(size_t k, size_t first, size_t past) {
    uint64_t *f = &functions[18 * k];
    memset(f, 0, 18 * sizeof *f);
    f[0] = 16 + k;
    f[1] = 100;
    f[4] = first / 3;
    f[5] = (past - first) / 3;
}

static void write_one(void) {
    size_t n = 0, k = 0, first = 0;
    for (char *word; (word = strtok(NULL, " \n")) != NULL && n < MOST && k < FUNCTIONS - 1;) {
        if (strcmp(word, ",") == 0) {
            function_at(k++, first, n);
            first = n;
        } else {
            landings[n++] = strtoull(word, NULL, 10);
        }
    }
    function_at(k++, first, n);
    unwind_machine_x86_64(machine, 70);
    unwind_written w = unwind_relaxed_table(machine, 70, 0, functions, 18 * k, NULL, 0, landings, n, NULL, 0, places, FUNCTIONS, bytes, MOST,
        relocations, MOST, sites, MOST);
    printf("%" PRIu64 " ", w.number);
    if (w.sites == 0) printf("-");
    for (size_t i = 0; i < w.sites; i++) printf("%02x", sites[i]);
    for (size_t i = 0; i < w.relocations; i++)
        if (relocations[5 * i + 1] == CALL_SITES) printf(" %" PRIu64, relocations[5 * i + 4]);
    printf("\n");
}

int main(void) {
    char *line = NULL;
    size_t room = 0;
    while (getline(&line, &room, stdin) != -1) {
        char *key = strtok(line, " \n");
        if (key == NULL) continue;
        if (strcmp(key, "site") == 0) site_one();
        else if (strcmp(key, "write") == 0) write_one();
    }
    free(line);
    return 0;
}

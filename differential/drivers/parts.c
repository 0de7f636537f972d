/* Hands lines to the exports that take a section apart, and prints their answers, a line each.
 *
 *     section HEX                           the section of the questions that follow, which ends at a page that cannot be read; no answer
 *     entry KIND AT                         five numbers
 *     header KIND WORD PLACE                nine
 *     record KIND WORD POINTER PLACE        eight
 *     operation AT END WORD                 six
 *     write KIND WORD FUNCTIONS N N ..      the section that the writer makes of FUNCTIONS functions and the rows behind them, on
 *                                           x86-64 with this word; - for a refusal
 */
#define _DEFAULT_SOURCE
#include <inttypes.h>
#include <stdio.h>
#include <stdlib.h>
#include <string.h>
#include <sys/mman.h>

#include "../../include/dekvoz.h"

enum { MOST = 65536, FUNCTION = 18 };

static uint8_t *section, *limit, bytes[MOST], sites[MOST];
static uint64_t numbers[MOST], places[MOST], relocations[MOST];
static size_t size;

static uint64_t number(void) {
    char *word = strtok(NULL, " \n");
    return word ? strtoull(word, NULL, 10) : 0;
}

static void answer(const void *numbers_of, size_t bytes) {
    const uint64_t *n = numbers_of;
    for (size_t i = 0; i < bytes / sizeof *n; i++) printf(i ? " %" PRIu64 : "%" PRIu64, n[i]);
    printf("\n");
}

static void set_section(void) {
    char *hex = strtok(NULL, " \n");
    size = hex ? strlen(hex) / 2 : 0;
    if (size > MOST) exit(3);
    section = limit - size;
    for (size_t i = 0; i < size; i++) {
        char byte[3] = {hex[2 * i], hex[2 * i + 1], 0};
        section[i] = (uint8_t)strtoul(byte, NULL, 16);
    }
}

static void write_one(void) {
    uint64_t machine[70], kind = number(), word = number(), functions = number(), at = FUNCTION * functions, n = 0;
    if (unwind_machine_x86_64(machine, 70) != 0) exit(3);
    machine[0] = machine[1] = word;
    for (char *text; (text = strtok(NULL, " \n")) != NULL && n < MOST; n++) numbers[n] = strtoull(text, NULL, 10);
    if (n < at) exit(3);
    unwind_written w;
    if (kind == 0)
        w = unwind_relaxed_table(machine, 70, 0, numbers, at, numbers + at, n - at, NULL, 0, NULL, 0, places, MOST, bytes, MOST, relocations,
            MOST, sites, MOST);
    else
        w = unwind_relaxed_debug_frame(
            machine, 70, 0, numbers, at, numbers + at, n - at, NULL, 0, NULL, 0, places, MOST, bytes, MOST, relocations, MOST);
    if (w.number != 0) printf("-");
    for (size_t i = 0; w.number == 0 && i < w.bytes; i++) printf("%02x", bytes[i]);
    printf("\n");
}

int main(void) {
    uint8_t *pages = mmap(NULL, 2 * MOST, PROT_READ | PROT_WRITE, MAP_PRIVATE | MAP_ANONYMOUS, -1, 0);
    if (pages == MAP_FAILED || mprotect(pages + MOST, MOST, PROT_NONE) != 0) return 3;
    section = limit = pages + MOST;
    char *line = NULL;
    size_t room = 0;
    while (getline(&line, &room, stdin) != -1) {
        char *key = strtok(line, " \n");
        if (key == NULL) continue;
        if (strcmp(key, "section") == 0) set_section();
        else if (strcmp(key, "write") == 0) write_one();
        else if (strcmp(key, "entry") == 0) {
            uint64_t kind = number(), at = number();
            unwind_entry e = unwind_next_entry(section, size, kind, at);
            answer(&e, sizeof e);
        } else if (strcmp(key, "header") == 0) {
            uint64_t kind = number(), word = number(), place = number();
            unwind_header_fields h = unwind_read_header(section, size, kind, word, place);
            answer(&h, sizeof h);
        } else if (strcmp(key, "record") == 0) {
            uint64_t kind = number(), word = number(), pointer = number(), place = number();
            unwind_record_fields r = unwind_read_record(section, size, kind, word, pointer, place);
            answer(&r, sizeof r);
        } else if (strcmp(key, "operation") == 0) {
            uint64_t at = number(), end = number(), word = number();
            unwind_operation o = unwind_read_operation(section, size, at, end, word);
            answer(&o, sizeof o);
        }
    }
    free(line);
    return 0;
}

/* Hands sections in text form to the reader's exports by place and prints their numbers, one line for each question.
 *
 *     section HEX
 *     relocations N N ..
 *     locate KIND WORD K
 *     rules REGISTER P and the ten numbers of an unwind_located
 *     along REGISTER ROOM and the ten numbers: the answer, and the lent list with one element behind it
 *     index KIND WORD ROOM        the answer, and the lent list with one element behind it
 *     at KIND WORD RECORD HEADER
 *     function KIND WORD ADDRESS RECORD
 *     holder KIND WORD ADDRESS PC
 *     entries KIND WORD ADDRESS PC
 *     all P ROOM and the ten numbers: the answer, and the lent list with one element behind it
 */
#include <inttypes.h>
#include <stdio.h>
#include <stdlib.h>
#include <string.h>

#include "../../include/dekvoz.h"

enum { MOST = 16 };
/* What the lent list and the element behind it hold before a call. */
static const uint64_t BEFORE = 0x5a5a5a5a5a5a5a5a;

static uint8_t *section;
static uint64_t *relocations;
static size_t bytes, numbers;

static void read_section(const char *hex) {
    bytes = strlen(hex) / 2;
    section = realloc(section, bytes + 1);
    if (section == NULL) exit(3);
    for (size_t i = 0; i < bytes; i++) sscanf(hex + 2 * i, "%2hhx", &section[i]);
}

static void read_relocations(void) {
    char *word;
    numbers = 0;
    while ((word = strtok(NULL, " \n")) != NULL) {
        relocations = realloc(relocations, (numbers + 1) * sizeof *relocations);
        if (relocations == NULL) exit(3);
        relocations[numbers++] = strtoull(word, NULL, 10);
    }
}

static void print(const void *answer, size_t size) {
    const uint64_t *n = answer;
    for (size_t i = 0; i < size / sizeof *n; i++) printf(i ? " %" PRIu64 : "%" PRIu64, n[i]);
}

static void print_index(uint64_t kind, uint64_t word, size_t room) {
    uint64_t *places = malloc((room + 1) * sizeof *places);
    if (places == NULL) exit(3);
    for (size_t i = 0; i <= room; i++) places[i] = BEFORE;
    unwind_indexed r = unwind_index(section, bytes, relocations, numbers, kind, word, places, room);
    print(&r, sizeof r);
    printf(" ");
    print(places, (room + 1) * sizeof *places);
    free(places);
}

static void print_along(uint16_t reg, size_t room, unwind_located located) {
    uint64_t *lines = malloc((room + 1) * sizeof *lines);
    if (lines == NULL) exit(3);
    for (size_t i = 0; i <= room; i++) lines[i] = BEFORE;
    unwind_listed r = unwind_rules_along(section, bytes, located, reg, lines, room);
    print(&r, sizeof r);
    printf(" ");
    print(lines, (room + 1) * sizeof *lines);
    free(lines);
}

static void print_all(uint64_t p, size_t room, unwind_located located) {
    uint64_t *rules = malloc((room + 1) * sizeof *rules);
    if (rules == NULL) exit(3);
    for (size_t i = 0; i <= room; i++) rules[i] = BEFORE;
    unwind_all_rules r = unwind_all_rules_at(section, bytes, located, p, rules, room);
    print(&r, sizeof r);
    printf(" ");
    print(rules, (room + 1) * sizeof *rules);
    free(rules);
}

static void ask(const char *key) {
    uint64_t n[MOST] = {0};
    char *word;
    for (int i = 0; i < MOST && (word = strtok(NULL, " \n")) != NULL; i++) n[i] = strtoull(word, NULL, 10);
    if (strcmp(key, "locate") == 0) {
        unwind_located r = unwind_locate(section, bytes, relocations, numbers, n[0], n[1], n[2]);
        print(&r, sizeof r);
    } else if (strcmp(key, "rules") == 0) {
        unwind_located l;
        memcpy(&l, n + 2, sizeof l);
        unwind_reading r = unwind_rules_at(section, bytes, l, (uint16_t)n[0], n[1]);
        print(&r, sizeof r);
    } else if (strcmp(key, "along") == 0) {
        unwind_located l;
        memcpy(&l, n + 2, sizeof l);
        print_along((uint16_t)n[0], n[1], l);
    } else if (strcmp(key, "index") == 0) {
        print_index(n[0], n[1], n[2]);
    } else if (strcmp(key, "at") == 0) {
        unwind_located r = unwind_locate_at(section, bytes, n[0], n[1], n[2], n[3]);
        print(&r, sizeof r);
    } else if (strcmp(key, "function") == 0) {
        unwind_placed r = unwind_function_at(section, bytes, n[0], n[1], n[2], n[3]);
        print(&r, sizeof r);
    } else if (strcmp(key, "holder") == 0) {
        unwind_holder r = unwind_record_of(section, bytes, n[0], n[1], n[2], n[3]);
        print(&r, sizeof r);
    } else if (strcmp(key, "entries") == 0) {
        unwind_entries r = unwind_entries_of(section, bytes, relocations, numbers, n[0], n[1], n[2], n[3]);
        print(&r, sizeof r);
    } else if (strcmp(key, "all") == 0) {
        unwind_located l;
        memcpy(&l, n + 2, sizeof l);
        print_all(n[0], n[1], l);
    } else {
        exit(2);
    }
    printf("\n");
}

int main(void) {
    char *line = NULL;
    size_t room = 0;
    while (getline(&line, &room, stdin) != -1) {
        char *key = strtok(line, " \n");
        if (key == NULL) continue;
        if (strcmp(key, "section") == 0) {
            char *hex = strtok(NULL, " \n");
            read_section(hex ? hex : "");
        } else if (strcmp(key, "relocations") == 0) {
            read_relocations();
        } else {
            ask(key);
        }
    }
    return 0;
}

/* Hands sections in text form to unwind_read and prints its eight numbers, one line for each `ask`.
 *
 *     section HEX
 *     relocations N N ..
 *     ask KIND WORD K REGISTER P
 */
#include <inttypes.h>
#include <stdio.h>
#include <stdlib.h>
#include <string.h>

#include "../../include/dekvoz.h"

static uint8_t *section;
static uint64_t *relocations;
static size_t bytes, numbers;

static void read_section(const char *hex) {
    bytes = strlen(hex) / 2;
    section = realloc(section, bytes + 1);
    if (section == NULL) exit(3);
    for (size_t i = 0; i < bytes; i++) sscanf(hex + 2 * i, "%2hhx", &section[i]);
}

static void read_relocations(void) {
    char *word;
    numbers = 0;
    while ((word = strtok(NULL, " \n")) != NULL) {
        relocations = realloc(relocations, (numbers + 1) * sizeof *relocations);
        if (relocations == NULL) exit(3);
        relocations[numbers++] = strtoull(word, NULL, 10);
    }
}

static void ask(void) {
    uint64_t n[5] = {0};
    for (int i = 0; i < 5; i++) {
        char *word = strtok(NULL, " \n");
        n[i] = word ? strtoull(word, NULL, 10) : 0;
    }
    unwind_reading r = unwind_read(section, bytes, relocations, numbers, n[0], n[1], n[2], (uint16_t)n[3], n[4]);
    printf("%" PRIu64 " %" PRIu64 " %" PRIu64 " %" PRIu64 " %" PRIu64 " %" PRIu64 " %" PRIu64 " %" PRIu64 "\n",
        r.number, r.frame, r.frame_register, r.frame_offset, r.rule, r.rule_value, r.signing, r.shortest);
}

int main(void) {
    char *line = NULL;
    size_t room = 0;
    while (getline(&line, &room, stdin) != -1) {
        char *key = strtok(line, " \n");
        if (key == NULL) continue;
        if (strcmp(key, "section") == 0) {
            char *hex = strtok(NULL, " \n");
            read_section(hex ? hex : "");
        } else if (strcmp(key, "relocations") == 0) {
            read_relocations();
        } else if (strcmp(key, "ask") == 0) {
            ask();
        }
    }
    return 0;
}

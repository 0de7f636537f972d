/* Hands lines to the reader of x64 records and to `seh`, and prints their answers, a line each.
 *
 *     read PLACE ROOM HEX      the six numbers, then the lent list of ROOM numbers, which starts out as 1000, 1001 ..
 *     seh END N N ..           the question's number and the info's bytes, of one function with these codes; - for no bytes
 */
#include <inttypes.h>
#include <stdio.h>
#include <stdlib.h>
#include <string.h>

#include "../../include/dekvoz.h"

enum { MOST = 8192 };

static uint8_t bytes[MOST];
static uint64_t numbers[MOST];

static uint64_t number(void) {
    char *word = strtok(NULL, " \n");
    return word ? strtoull(word, NULL, 10) : 0;
}

static void read_one(void) {
    uint64_t place = number(), room = number();
    char *hex = strtok(NULL, " \n");
    size_t n = hex ? strlen(hex) / 2 : 0;
    if (n > MOST || room > MOST) exit(3);
    for (size_t i = 0; i < n; i++) sscanf(hex + 2 * i, "%2hhx", &bytes[i]);
    for (size_t i = 0; i < room; i++) numbers[i] = 1000 + i;
    unwind_x64_reading r = unwind_read_x64(bytes, n, place, numbers, room);
    printf("%" PRIu64 " %" PRIu64 " %" PRIu64 " %" PRIu64 " %" PRIu64 " %" PRIu64, r.number, r.end, r.frame, r.frame_register, r.frame_offset,
        r.codes);
    for (size_t i = 0; i < room; i++) printf(" %" PRIu64, numbers[i]);
    printf("\n");
}

static void seh_one(void) {
    uint64_t functions[5] = {16, 1000, number(), 0, 0}, marker[1], relocations[15];
    uint8_t table[12];
    size_t n = 0;
    for (char *word; (word = strtok(NULL, " \n")) != NULL && n < MOST; n++) numbers[n] = strtoull(word, NULL, 10);
    functions[4] = n / 5;
    unwind_written w = unwind_seh(functions, 5, numbers, n, marker, 1, table, sizeof table, relocations, 15, bytes, MOST);
    printf("%" PRIu64 " ", w.number);
    if (w.sites == 0) printf("-");
    for (size_t i = 0; i < w.sites; i++) printf("%02x", bytes[i]);
    printf("\n");
}

int main(void) {
    char *line = NULL;
    size_t room = 0;
    while (getline(&line, &room, stdin) != -1) {
        char *key = strtok(line, " \n");
        if (key == NULL) continue;
        if (strcmp(key, "read") == 0) read_one();
        else if (strcmp(key, "seh") == 0) seh_one();
    }
    free(line);
    return 0;
}

/* Hands sections in text form to unwind_apply and prints, for each `ask`, its number and the whole buffer.
 *
 *     bytes HEX
 *     relocations N N ..
 *     addresses N N ..
 *     ask SECTION IMAGE ROOM
 *
 * The buffer comes in as 0xa5 in every byte, with one byte more that must stay as it is. */
#include <inttypes.h>
#include <stdio.h>
#include <stdlib.h>
#include <string.h>

#include "../../include/dekvoz.h"

typedef struct {
    uint64_t *of;
    size_t n;
} numbers;

static uint8_t *bytes;
static size_t bytes_n;
static numbers relocations, addresses;

static void *grown(void *p, size_t n) {
    p = realloc(p, n + 1);
    if (p == NULL) exit(3);
    return p;
}

static void read_bytes(const char *hex) {
    bytes_n = strlen(hex) / 2;
    bytes = grown(bytes, bytes_n);
    for (size_t i = 0; i < bytes_n; i++) sscanf(hex + 2 * i, "%2hhx", &bytes[i]);
}

static void read_numbers(numbers *list) {
    char *word;
    list->n = 0;
    while ((word = strtok(NULL, " \n")) != NULL) {
        list->of = grown(list->of, (list->n + 1) * sizeof *list->of);
        list->of[list->n++] = strtoull(word, NULL, 10);
    }
}

static void ask(void) {
    uint64_t n[3] = {0};
    for (int i = 0; i < 3; i++) {
        char *word = strtok(NULL, " \n");
        n[i] = word ? strtoull(word, NULL, 10) : 0;
    }
    uint8_t *out = grown(NULL, n[2]);
    memset(out, 0xa5, n[2] + 1);
    uint64_t number = unwind_apply(bytes, bytes_n, relocations.of, relocations.n, addresses.of, addresses.n, n[0], n[1], out, n[2]);
    printf("%" PRIu64 " ", number);
    for (size_t i = 0; i <= n[2]; i++) printf("%02x", out[i]);
    printf("\n");
    free(out);
}

int main(void) {
    char *line = NULL;
    size_t room = 0;
    while (getline(&line, &room, stdin) != -1) {
        char *key = strtok(line, " \n");
        if (key == NULL) continue;
        if (strcmp(key, "bytes") == 0) {
            char *hex = strtok(NULL, " \n");
            read_bytes(hex ? hex : "");
        } else if (strcmp(key, "relocations") == 0) {
            read_numbers(&relocations);
        } else if (strcmp(key, "addresses") == 0) {
            read_numbers(&addresses);
        } else if (strcmp(key, "ask") == 0) {
            ask();
        }
    }
    free(line);
    return 0;
}

/* Hands recorded faults in text form to unwind_walk and to unwind_walk_found and prints, for each `ask`, of both the three numbers and the
 * whole lent list.
 *
 *     machine N N ..
 *     record HEX
 *     section HEX
 *     relocations N N ..
 *     functions N N ..
 *     ask KIND PC STACK ROOM
 *
 * The list comes in as BEFORE in every element, with one element more that must stay as it is. Each input ends against a page that cannot
 * be touched. What is not said again stays. */
#define _GNU_SOURCE
#include <inttypes.h>
#include <stdio.h>
#include <stdlib.h>
#include <string.h>
#include <sys/mman.h>

#include "../../include/dekvoz.h"

static const uint64_t BEFORE = 0x5a5a5a5a5a5a5a5a;
enum { ROOM = 1 << 22, PAGE = 1 << 12 };

/* An input: `n` elements up to `end`, behind which nothing can be read. */
typedef struct {
    uint8_t *end;
    size_t n;
} input;

static input machine, record, section, relocations, functions;

static uint8_t *front(input *i, size_t size) {
    if (i->end == NULL) {
        uint8_t *pages = mmap(NULL, ROOM + PAGE, PROT_READ | PROT_WRITE, MAP_PRIVATE | MAP_ANONYMOUS, -1, 0);
        if (pages == MAP_FAILED || mprotect(pages + ROOM, PAGE, PROT_NONE) != 0) exit(3);
        i->end = pages + ROOM;
    }
    if (i->n > ROOM / size) exit(3);
    return i->end - i->n * size;
}

static const uint64_t *numbers_of(input *i) {
    return (const uint64_t *)front(i, 8);
}

static uint8_t digit(char c) {
    return (uint8_t)(c <= '9' ? c - '0' : c - 'a' + 10);
}

static void read_bytes(input *i) {
    const char *hex = strtok(NULL, " \n");
    i->n = hex ? strlen(hex) / 2 : 0;
    uint8_t *at = front(i, 1);
    for (size_t k = 0; k < i->n; k++) at[k] = (uint8_t)(digit(hex[2 * k]) << 4 | digit(hex[2 * k + 1]));
}

static void read_numbers(input *i) {
    static uint64_t list[ROOM / 8];
    char *word;
    i->n = 0;
    while ((word = strtok(NULL, " \n")) != NULL && i->n < ROOM / 8) list[i->n++] = strtoull(word, NULL, 10);
    memcpy(front(i, 8), list, 8 * i->n);
}

typedef unwind_chain walk(
    const uint64_t *, size_t, const uint8_t *, size_t, const uint8_t *, size_t, const uint64_t *, size_t,
    uint64_t, uint64_t, uint64_t, const uint64_t *, size_t, uint64_t *, size_t);

static void ask_of(walk *asked, const uint64_t n[4], uint64_t *frames) {
    size_t room = n[3];
    for (size_t i = 0; i <= room; i++) frames[i] = BEFORE;
    unwind_chain r = asked(numbers_of(&machine), machine.n, front(&record, 1), record.n, front(&section, 1), section.n,
        numbers_of(&relocations), relocations.n, n[0], n[1], n[2], numbers_of(&functions), functions.n, frames, room);
    printf("%" PRIu64 " %" PRIu64 " %" PRIu64, r.number, r.frames, r.ending);
    for (size_t i = 0; i <= room; i++) printf(" %" PRIu64, frames[i]);
}

static void ask(void) {
    uint64_t n[4] = {0};
    for (int i = 0; i < 4; i++) {
        char *word = strtok(NULL, " \n");
        n[i] = word ? strtoull(word, NULL, 10) : 0;
    }
    uint64_t *frames = malloc((n[3] + 1) * sizeof *frames);
    if (frames == NULL) exit(3);
    ask_of(unwind_walk, n, frames);
    printf(" ");
    ask_of(unwind_walk_found, n, frames);
    printf("\n");
    free(frames);
}

int main(void) {
    char *line = NULL;
    size_t room = 0;
    while (getline(&line, &room, stdin) != -1) {
        char *key = strtok(line, " \n");
        if (key == NULL) continue;
        if (strcmp(key, "machine") == 0) read_numbers(&machine);
        else if (strcmp(key, "record") == 0) read_bytes(&record);
        else if (strcmp(key, "section") == 0) read_bytes(&section);
        else if (strcmp(key, "relocations") == 0) read_numbers(&relocations);
        else if (strcmp(key, "functions") == 0) read_numbers(&functions);
        else if (strcmp(key, "ask") == 0) ask();
        else exit(2);
    }
    free(line);
    return 0;
}

/* unwind_read_arm64 on cases from standard input, one a line: word, place, how many numbers the list of epilogues and the list of codes hold, and
 * the record's bytes in hexadecimal (- for none). Each list starts as 9s. One line of answers: the five numbers, and both lists. */
#include <inttypes.h>
#include <stdio.h>
#include <stdlib.h>
#include <string.h>

#include "../../include/dekvoz.h"

static void numbers(const uint64_t *list, size_t count) {
    printf(" |");
    for (size_t i = 0; i < count; i++) {
        printf(" %" PRIu64, list[i]);
    }
}

int main(void) {
    static char hex[1 << 20];
    uint64_t word, place;
    size_t es, cs;
    while (scanf("%" SCNu64 " %" SCNu64 " %zu %zu %1048575s", &word, &place, &es, &cs, hex) == 5) {
        size_t n = strcmp(hex, "-") == 0 ? 0 : strlen(hex) / 2;
        uint8_t *info = malloc(n + 1);
        uint64_t *epilogues = malloc((es + 1) * sizeof *epilogues);
        uint64_t *codes = malloc((cs + 1) * sizeof *codes);
        if (!info || !epilogues || !codes) {
            return 1;
        }
        for (size_t i = 0; i < n; i++) {
            unsigned byte;
            sscanf(hex + 2 * i, "%2x", &byte);
            info[i] = (uint8_t)byte;
        }
        for (size_t i = 0; i < es; i++) {
            epilogues[i] = 9;
        }
        for (size_t i = 0; i < cs; i++) {
            codes[i] = 9;
        }
        unwind_arm64_reading r = unwind_read_arm64(word, info, n, place, epilogues, es, codes, cs);
        printf("%" PRIu64 " %" PRIu64 " %" PRIu64 " %" PRIu64 " %" PRIu64, r.number, r.length, r.prologue, r.epilogues, r.codes);
        numbers(epilogues, es);
        numbers(codes, cs);
        putchar('\n');
        free(info);
        free(epilogues);
        free(codes);
    }
    return 0;
}

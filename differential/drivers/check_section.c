/* Hands sections to unwind_check_section and prints its two numbers, a line each.
 *
 *     check WORD HEX
 */
#include <inttypes.h>
#include <stdio.h>
#include <stdlib.h>
#include <string.h>

#include "../../include/dekvoz.h"

static int digit(char c) {
    return c <= '9' ? c - '0' : c - 'a' + 10;
}

int main(void) {
    char *line = NULL;
    size_t room = 0;
    while (getline(&line, &room, stdin) != -1) {
        char *key = strtok(line, " \n");
        if (key == NULL || strcmp(key, "check") != 0) continue;
        char *word = strtok(NULL, " \n"), *hex = strtok(NULL, " \n");
        size_t n = hex ? strlen(hex) / 2 : 0;
        /* Memory of just that size, so that a read past it is found by valgrind. */
        uint8_t *bytes = malloc(n + (n == 0));
        if (word == NULL || bytes == NULL) return 3;
        for (size_t i = 0; i < n; i++) bytes[i] = 16 * digit(hex[2 * i]) + digit(hex[2 * i + 1]);
        unwind_checked r = unwind_check_section(bytes, n, strtoull(word, NULL, 10));
        printf("%" PRIu64 " %" PRIu64 "\n", r.number, r.record);
        free(bytes);
    }
    free(line);
    return 0;
}

/* unwind_arm64 on lists from standard input, one case a line: functions;epilogues;codes. Each is asked with lists that are larger than what is
 * written, exactly as large, and each in turn one element short; what must not change is looked at. The answer is `ok` and markers, bytes,
 * relocations and info behind bars, or `no` with the number and the position; `fault` where the answers do not go together.
 * `arm64_written time` takes the first case's time instead: the median of 41 calls with exact lists, in microseconds. */
#include <inttypes.h>
#include <stdio.h>
#include <stdlib.h>
#include <string.h>
#include <time.h>

#include "../../include/dekvoz.h"

enum { FILL = 0x5a, PAST = 3, TIMED = 41 };

typedef struct {
    uint64_t *numbers;
    size_t n;
} list;

/* The lent lists, each with its room. */
typedef struct {
    uint64_t *markers, *relocations;
    uint8_t *bytes, *info;
    size_t room[4];
} lent;

static void *room_for(size_t n) {
    void *p = malloc(n + 1);
    if (!p) {
        exit(1);
    }
    memset(p, FILL, n + 1);
    return p;
}

static lent lend(const size_t room[4]) {
    lent l = {room_for(8 * room[0]), room_for(8 * room[2]), room_for(room[1]), room_for(room[3]), {room[0], room[1], room[2], room[3]}};
    return l;
}

static void give_back(lent *l) {
    free(l->markers);
    free(l->relocations);
    free(l->bytes);
    free(l->info);
}

static int filled(const void *p, size_t from, size_t to) {
    const uint8_t *bytes = p;
    for (size_t i = from; i < to; i++) {
        if (bytes[i] != FILL) {
            return 0;
        }
    }
    return 1;
}

/* Whether everything past these counts is as it was. */
static int rest_unchanged(const lent *l, const size_t used[4]) {
    return filled(l->markers, 8 * used[0], 8 * l->room[0]) && filled(l->bytes, used[1], l->room[1]) &&
           filled(l->relocations, 8 * used[2], 8 * l->room[2]) && filled(l->info, used[3], l->room[3]);
}

static unwind_written ask(const list lists[3], lent *l) {
    return unwind_arm64(lists[0].numbers, lists[0].n, lists[1].numbers, lists[1].n, lists[2].numbers, lists[2].n, l->markers, l->room[0],
        l->bytes, l->room[1], l->relocations, l->room[2], l->info, l->room[3]);
}

static int refused(const unwind_written *w, const lent *l, uint64_t number) {
    static const size_t none[4];
    return w->number == number && !w->position && !w->places && !w->bytes && !w->relocations && !w->sites && rest_unchanged(l, none);
}

static list numbers(char **text) {
    list l = {NULL, 0};
    size_t room = 0;
    for (;;) {
        char *next;
        uint64_t n = strtoull(*text, &next, 10);
        if (next == *text) {
            return l;
        }
        if (l.n == room) {
            room = 2 * room + 8;
            l.numbers = realloc(l.numbers, room * sizeof *l.numbers);
            if (!l.numbers) {
                exit(1);
            }
        }
        l.numbers[l.n++] = n;
        *text = next;
    }
}

static void print(const lent *l, const size_t used[4]) {
    printf("ok");
    for (size_t i = 0; i < used[0]; i++) {
        printf(" %" PRIu64, l->markers[i]);
    }
    putchar('|');
    for (size_t i = 0; i < used[1]; i++) {
        printf("%02x", l->bytes[i]);
    }
    putchar('|');
    for (size_t i = 0; i < used[2]; i++) {
        printf("%" PRIu64 " ", l->relocations[i]);
    }
    putchar('|');
    for (size_t i = 0; i < used[3]; i++) {
        printf("%02x", l->info[i]);
    }
    putchar('\n');
}

/* Whether exact lists take the same, and lists one element short are refused by their number. */
static int tight(const list lists[3], const lent *ample, const unwind_written *w, const size_t used[4]) {
    lent l = lend(used);
    unwind_written again = ask(lists, &l);
    int same = memcmp(&again, w, sizeof again) == 0 && memcmp(l.markers, ample->markers, 8 * used[0]) == 0 &&
               memcmp(l.bytes, ample->bytes, used[1]) == 0 && memcmp(l.relocations, ample->relocations, 8 * used[2]) == 0 &&
               memcmp(l.info, ample->info, used[3]) == 0;
    give_back(&l);
    for (size_t short_one = 0; short_one < 4 && same; short_one++) {
        size_t room[4] = {used[0], used[1], used[2], used[3]};
        if (room[short_one] == 0) {
            continue;
        }
        room[short_one]--;
        l = lend(room);
        again = ask(lists, &l);
        same = refused(&again, &l, 51 + short_one);
        give_back(&l);
    }
    return same;
}

static int by_size(const void *a, const void *b) {
    double x = *(const double *)a, y = *(const double *)b;
    return (x > y) - (x < y);
}

static void timed(const list lists[3], const size_t used[4]) {
    double took[TIMED];
    lent l = lend(used);
    for (int i = 0; i < TIMED; i++) {
        struct timespec from, to;
        clock_gettime(CLOCK_MONOTONIC, &from);
        unwind_written w = ask(lists, &l);
        clock_gettime(CLOCK_MONOTONIC, &to);
        took[i] = 1e6 * (double)(to.tv_sec - from.tv_sec) + 1e-3 * (double)(to.tv_nsec - from.tv_nsec);
        if (w.number) {
            exit(1);
        }
    }
    qsort(took, TIMED, sizeof *took, by_size);
    printf("%.0f\n", took[TIMED / 2]);
    give_back(&l);
}

static void one(const list lists[3], int time_it) {
    /* A record has a header of 8 bytes, 4 an epilogue and at most 1,020 of codes, 4 a code and an end for each run. Lists past question 13,
     * with ranges that overlap, need no room. */
    size_t functions = lists[0].n / 6, epilogues = 0, codes = 0;
    for (size_t k = 0; k < functions; k++) {
        const uint64_t *f = lists[0].numbers + 6 * k;
        epilogues += f[5] < 1 << 20 ? f[5] : 0;
        codes += f[3] < 1 << 20 ? f[3] : 0;
        for (size_t i = 0; i < f[5] && f[4] + i < lists[1].n / 3; i++) {
            uint64_t n = lists[1].numbers[3 * (f[4] + i) + 2];
            codes += n < 1 << 20 ? n : 0;
        }
    }
    size_t info = 12 * functions + 5 * epilogues + 4 * codes + functions;
    size_t room[4] = {functions + PAST, 8 * functions + PAST, 10 * functions + PAST, (info < 1 << 26 ? info : 1 << 26) + PAST};
    lent ample = lend(room);
    unwind_written w = ask(lists, &ample);
    size_t used[4] = {w.places, w.bytes, 5 * w.relocations, w.sites};
    if (w.number) {
        printf(refused(&w, &ample, w.number) ? "no %" PRIu64 " %" PRIu64 "\n" : "fault refusal %" PRIu64 " %" PRIu64 "\n", w.number, w.position);
    } else if (!rest_unchanged(&ample, used) || w.position) {
        puts("fault rest");
    } else if (!tight(lists, &ample, &w, used)) {
        puts("fault tight");
    } else if (time_it) {
        timed(lists, used);
    } else {
        print(&ample, used);
    }
    give_back(&ample);
}

int main(int n, char **words) {
    int time_it = n > 1 && strcmp(words[1], "time") == 0;
    char *line = NULL;
    size_t room = 0;
    while (getline(&line, &room, stdin) > 0) {
        char *text = line;
        list lists[3];
        for (int i = 0; i < 3; i++) {
            lists[i] = numbers(&text);
            text += *text == ';';
        }
        one(lists, time_it);
        for (int i = 0; i < 3; i++) {
            free(lists[i].numbers);
        }
    }
    free(line);
    return 0;
}

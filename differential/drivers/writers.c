/* Hands cases in text form to the library's exports and prints its answers. README.md has the form.
 *
 * Each case is called several times: with more room than it needs; where it is accepted with buffers exactly full, with
 * four numbers behind the last relocation, and with each buffer one short. Every buffer is compared with what it held
 * before, and the elements behind the lent ones too. The same list goes to the entries over structs (structs.c). A line on
 * standard error and status 1 say what went wrong. */
#include <inttypes.h>
#include <stdio.h>
#include <stdlib.h>
#include <string.h>

#include "../../include/dekvoz.h"
#include "structs.h"

enum { MACHINE, FUNCTIONS, ROWS, LANDINGS, PAIRS, CODES, LISTS };
static const char *const KEYS[LISTS] = {"machine", "functions", "rows", "landings", "pairs", "codes"};
enum { TABLE, DEBUG_FRAME, SEH, ENTRIES };
static const char *const ENTRY[ENTRIES] = {"relaxed_table", "relaxed_debug_frame", "seh"};

/* Elements behind every lent buffer, which no call may touch. */
enum { GUARD = 8 };

typedef struct {
    uint64_t *at;
    size_t count, room;
} list;

typedef struct {
    char name[256];
    int entry;
    uint64_t format;
    list lists[LISTS];
} a_case;

/* The four lent buffers: places, bytes, relocations, sites. */
typedef struct {
    size_t count[4];
    void *at[4];
} lent;

/* How often a buffer one short was refused, by the entry and the format. */
enum { ELF, COFF, MACH_O, OTHER, FORMATS };
static const char *const FORMAT[FORMATS] = {" ELF", " COFF", " Mach-O", " other"};
static uint64_t refused_short[ENTRIES][FORMATS][4];

static const size_t WIDTH[4] = {8, 1, 8, 1};
static int failed = 0;

static void wrong(const a_case *c, const char *what) {
    fprintf(stderr, "%s: %s\n", c->name, what);
    failed = 1;
}

static void *get(void *old, size_t bytes) {
    void *now = realloc(old, bytes ? bytes : 1);
    if (now == NULL) exit(3);
    return now;
}

static void push(list *l, uint64_t n) {
    if (l->count == l->room) {
        l->room = l->room ? 2 * l->room : 64;
        l->at = get(l->at, l->room * sizeof *l->at);
    }
    l->at[l->count++] = n;
}

/* A buffer's elements are told from one another and from what a writer stores by chance. */
static void blank(lent *b) {
    for (int i = 0; i < 4; i++) {
        uint8_t *bytes = b->at[i];
        size_t n = (b->count[i] + GUARD) * WIDTH[i];
        for (size_t j = 0; j < n; j++) bytes[j] = (uint8_t)(0xa5 + 31 * j + i);
    }
}

static void lend(lent *b, const size_t count[4]) {
    for (int i = 0; i < 4; i++) {
        b->count[i] = count[i];
        b->at[i] = get(b->at[i], (count[i] + GUARD) * WIDTH[i]);
    }
    blank(b);
}

/* Whether buffer i holds what `blank` put there from element `from` on. */
static int untouched(const lent *b, int i, size_t from) {
    const uint8_t *bytes = b->at[i];
    size_t n = (b->count[i] + GUARD) * WIDTH[i];
    for (size_t j = from * WIDTH[i]; j < n; j++)
        if (bytes[j] != (uint8_t)(0xa5 + 31 * j + i)) return 0;
    return 1;
}

static unwind_written call(const a_case *c, lent *b) {
    const list *l = c->lists;
    switch (c->entry) {
    case TABLE:
        return unwind_relaxed_table(l[MACHINE].at, l[MACHINE].count, c->format, l[FUNCTIONS].at, l[FUNCTIONS].count,
            l[ROWS].at, l[ROWS].count, l[LANDINGS].at, l[LANDINGS].count, l[PAIRS].at, l[PAIRS].count,
            b->at[0], b->count[0], b->at[1], b->count[1], b->at[2], b->count[2], b->at[3], b->count[3]);
    case DEBUG_FRAME:
        return unwind_relaxed_debug_frame(l[MACHINE].at, l[MACHINE].count, c->format, l[FUNCTIONS].at, l[FUNCTIONS].count,
            l[ROWS].at, l[ROWS].count, l[LANDINGS].at, l[LANDINGS].count, l[PAIRS].at, l[PAIRS].count,
            b->at[0], b->count[0], b->at[1], b->count[1], b->at[2], b->count[2]);
    default:
        return unwind_seh(l[FUNCTIONS].at, l[FUNCTIONS].count, l[CODES].at, l[CODES].count,
            b->at[0], b->count[0], b->at[1], b->count[1], b->at[2], b->count[2], b->at[3], b->count[3]);
    }
}

static void elements(const unwind_written *w, size_t count[4]) {
    count[0] = w->places;
    count[1] = w->bytes;
    count[2] = 5 * w->relocations;
    count[3] = w->sites;
}

/* A refusal has no counts and changes nothing. */
static void check_refusal(const a_case *c, const lent *b, const unwind_written *w) {
    if (w->places || w->bytes || w->relocations || w->sites) wrong(c, "a refusal with counts");
    for (int i = 0; i < 4; i++)
        if (!untouched(b, i, 0)) wrong(c, "a refusal changed a buffer");
}

/* The same results in less room: exactly full, and with four numbers behind the last relocation. */
static void check_full(const a_case *c, const lent *ample, const size_t count[4]) {
    static lent b;
    size_t room[4];
    for (int extra = 0; extra < 5; extra += 4) {
        memcpy(room, count, sizeof room);
        room[2] += extra;
        lend(&b, room);
        unwind_written w = call(c, &b);
        size_t got[4];
        elements(&w, got);
        if (w.number || memcmp(got, count, sizeof got)) {
            wrong(c, "exactly full buffers are refused, or have other counts");
            return;
        }
        for (int i = 0; i < 4; i++)
            if (memcmp(b.at[i], ample->at[i], count[i] * WIDTH[i]) || !untouched(&b, i, count[i]))
                wrong(c, "exactly full buffers have other results, or an element behind them changed");
    }
}

/* Each buffer one short is 51 to 54, the first of them where all are; nothing is written. */
static void check_short(const a_case *c, const size_t count[4]) {
    static lent b;
    for (int all = 0; all < 2; all++)
        for (int i = 0; i < 4; i++) {
            if (count[i] == 0) continue;
            size_t room[4];
            for (int j = 0; j < 4; j++) room[j] = count[j] - ((all ? j >= i : j == i) && count[j] > 0);
            lend(&b, room);
            unwind_written w = call(c, &b);
            if (w.number != 51 + (uint64_t)i || w.position) wrong(c, "a buffer one short has another answer");
            check_refusal(c, &b, &w);
            refused_short[c->entry][c->entry == TABLE && c->format < OTHER ? c->format : OTHER][i]++;
        }
}

static void print_short(void) {
    for (int e = 0; e < ENTRIES; e++)
        for (int f = 0; f < FORMATS; f++)
            for (int i = 0; i < 4; i++)
                if (refused_short[e][f][i])
                    printf("# short %d %" PRIu64 " %s%s\n", 51 + i, refused_short[e][f][i], ENTRY[e], e == TABLE ? FORMAT[f] : "");
}

static void print_numbers(const char *key, const uint64_t *at, size_t n) {
    printf("%s", key);
    for (size_t i = 0; i < n; i++) printf(" %" PRIu64, at[i]);
    putchar('\n');
}

static void print_hex(const char *key, const uint8_t *at, size_t n) {
    printf("%s%s", key, n ? " " : "");
    for (size_t i = 0; i < n; i++) printf("%02x", at[i]);
    putchar('\n');
}

/* The sum of number j over the records of a list, as far as question 13 lets it go. */
static size_t reached(const list *l, size_t stride, size_t j) {
    uint64_t sum = 0;
    for (size_t k = 0; k + stride <= l->count; k += stride) {
        sum += l->at[k + j] < 1048576 ? l->at[k + j] : 1048576;
        if (sum > 1048576) sum = 1048576;
    }
    return sum;
}

/* The entries over structs say the same. */
static void check_structs(const a_case *c, const size_t room[4]) {
    const list *l = c->lists;
    structs_case s = {
        c->entry == DEBUG_FRAME, l[MACHINE].at, l[MACHINE].count, c->format,
        {l[FUNCTIONS].at, l[ROWS].at, l[LANDINGS].at, l[PAIRS].at},
        {l[FUNCTIONS].count, l[ROWS].count, l[LANDINGS].count, l[PAIRS].count},
        {room[0], room[1], room[2], room[3]},
    };
    const char *what = structs_differ(&s);
    if (what) wrong(c, what);
}

static void ask(const a_case *c) {
    static lent b;
    const list *f = &c->lists[FUNCTIONS];
    size_t room[4];
    if (c->entry == SEH) {
        size_t n = f->count / 5, codes = reached(f, 5, 4);
        size_t want[4] = {n + 3, 12 * n + 3, 15 * n + 3, 8 * n + 6 * codes + 3};
        memcpy(room, want, sizeof room);
    } else {
        size_t n = f->count / 18, rows = reached(f, 18, 3), landings = reached(f, 18, 5);
        /* Ample, so that the library sizes nothing; where it does, in check_full, the results must be the same. */
        size_t want[4] = {n + 3, 160 * n + 14 * rows + 3, 5 * (8 * n + 2 * rows) + 3, 17 * n + 40 * landings + 8 * rows + 3};
        memcpy(room, want, sizeof room);
    }
    if (c->entry != SEH) check_structs(c, room);
    lend(&b, room);
    unwind_written w = call(c, &b);
    printf("case %s\n", c->name);
    if (w.number) {
        printf("refused %" PRIu64 " %" PRIu64 "\nend\n", w.number, w.position);
        check_refusal(c, &b, &w);
        return;
    }
    size_t count[4];
    elements(&w, count);
    if (w.position) wrong(c, "a position without a refusal");
    for (int i = 0; i < 4; i++)
        if (count[i] > b.count[i] || !untouched(&b, i, count[i])) wrong(c, "a buffer changed past the results");
    if (!count[0] && !count[1] && !count[2] && !count[3]) {
        printf("empty\nend\n");
        return;
    }
    printf("accepted\n");
    print_numbers("places", b.at[0], count[0]);
    print_hex("bytes", b.at[1], count[1]);
    print_numbers("relocations", b.at[2], count[2]);
    print_hex("sites", b.at[3], count[3]);
    printf("end\n");
    check_full(c, &b, count);
    check_short(c, count);
}

/* The ready x86-64 machine. */
static void x86_64(list *l) {
    static const uint64_t front[] = {8, 8, 7, 16, 6, 0, 0, 2, 1, 3, 6, 7, 5, 4};
    l->count = 0;
    for (size_t i = 0; i < sizeof front / sizeof *front; i++) push(l, front[i]);
    for (uint64_t n = 8; n < 16; n++) push(l, n);
    push(l, 255);
    for (uint64_t n = 128; n < 144; n++) push(l, n);
    while (l->count < 70) push(l, 255);
}

/* A number of a list; a negative one stands for its two's complement, of 32 bits as the fourth number of a row. */
static uint64_t number(const char *word, int key, size_t at) {
    if (word[0] != '-') return strtoull(word, NULL, 0);
    uint64_t n = (uint64_t)strtoll(word, NULL, 0);
    return key == ROWS && at % 4 == 3 ? (uint32_t)n : n;
}

static void read_line(a_case *c, char *line) {
    char *key = strtok(line, " \n"), *word;
    if (key == NULL || key[0] == '#') return;
    if (strcmp(key, "case") == 0) {
        word = strtok(NULL, " \n");
        snprintf(c->name, sizeof c->name, "%s", word ? word : "");
        c->entry = TABLE;
        c->format = 0;
        for (int i = 0; i < LISTS; i++) c->lists[i].count = 0;
    } else if (strcmp(key, "entry") == 0) {
        word = strtok(NULL, " \n");
        for (int i = 0; i < ENTRIES; i++)
            if (word && strcmp(word, ENTRY[i]) == 0) c->entry = i;
    } else if (strcmp(key, "format") == 0) {
        word = strtok(NULL, " \n");
        c->format = word ? strtoull(word, NULL, 0) : 0;
    } else if (strcmp(key, "end") == 0) {
        ask(c);
    }
    for (int i = 0; i < LISTS; i++)
        if (strcmp(key, KEYS[i]) == 0)
            while ((word = strtok(NULL, " \n")) != NULL) {
                if (strcmp(word, "x86_64") == 0) x86_64(&c->lists[i]);
                else push(&c->lists[i], number(word, i, c->lists[i].count));
            }
}

int main(void) {
    static a_case c;
    char *line = NULL;
    size_t room = 0;
    while (getline(&line, &room, stdin) != -1) read_line(&c, line);
    print_short();
    printf("# structs %" PRIu64 " compared, %" PRIu64 " passed over\n", structs_compared, structs_passed_over);
    return failed;
}

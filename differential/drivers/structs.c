/* The entries over lists of structs beside those over lists of numbers: functions and rows once as numbers and once as structs.
 *
 * A list that no structs mean (a number that its field cannot hold, an incomplete last record) is passed over. */
#include <stdlib.h>
#include <string.h>

#include "../../include/dekvoz.h"
#include "structs.h"

enum { FUNCTIONS, ROWS, LANDINGS, PAIRS, LISTS };
static const size_t STRIDE[LANDINGS] = {18, 4};
static const size_t WIDTH[4] = {8, 1, 8, 1};

uint64_t structs_compared, structs_passed_over;

typedef struct {
    unwind_function *functions;
    unwind_row *rows;
    size_t count[LANDINGS];
} structs;

static void *room_for(size_t count, size_t width) {
    void *at = calloc(count + 1, width);
    if (at == NULL) exit(3);
    return at;
}

static int functions_of(const uint64_t *n, size_t count, unwind_function *to) {
    for (size_t i = 0; i < count; i++, n += 18) {
        to[i] = (unwind_function){n[0], n[1], n[2], n[3], n[4], n[5], (uint8_t)n[6], (uint8_t)n[7], (uint8_t)n[8], (uint8_t)n[9],
            n[10], (uint8_t)n[11], (uint8_t)n[12], n[13], (uint8_t)n[14], n[15], n[16], n[17]};
        if (n[6] > 255 || n[7] > 255 || n[8] > 255 || n[9] > 255 || n[11] > 255 || n[12] > 255 || n[14] > 255) return 0;
    }
    return 1;
}

static int rows_of(const uint64_t *n, size_t count, unwind_row *to) {
    for (size_t i = 0; i < count; i++, n += 4) {
        to[i] = (unwind_row){n[0], (uint8_t)n[1], (uint16_t)n[2], (int32_t)(uint32_t)n[3]};
        if (n[1] > 255 || n[2] > 65535 || n[3] > 4294967295) return 0;
    }
    return 1;
}

static int structs_of(const uint64_t *const at[LISTS], const size_t n[LISTS], structs *s) {
    for (int i = 0; i < LANDINGS; i++) {
        if (n[i] % STRIDE[i]) return 0;
        s->count[i] = n[i] / STRIDE[i];
    }
    s->functions = room_for(s->count[FUNCTIONS], sizeof *s->functions);
    s->rows = room_for(s->count[ROWS], sizeof *s->rows);
    return functions_of(at[FUNCTIONS], s->count[FUNCTIONS], s->functions) && rows_of(at[ROWS], s->count[ROWS], s->rows);
}

static void end_structs(structs *s) {
    free(s->functions);
    free(s->rows);
}

static uint64_t pack(const structs *s, int i, uint64_t *numbers, size_t n) {
    if (i == FUNCTIONS) return unwind_pack_functions(s->functions, s->count[i], numbers, n);
    return unwind_pack_rows(s->rows, s->count[i], numbers, n);
}

/* Packed structs are the list's numbers, and what lies behind them stays; one number short is 54, and nothing changes. */
static const char *packs_differ(const structs *s, const uint64_t *const at[LISTS], const size_t n[LISTS]) {
    const char *what = NULL;
    for (int i = 0; i < LANDINGS; i++) {
        uint64_t *numbers = room_for(n[i] + 2, 8);
        memset(numbers, 0xa5, (n[i] + 2) * 8);
        if (n[i] && pack(s, i, numbers, n[i] - 1) != 54) what = "a list one short is packed";
        for (size_t j = 0; j < n[i] + 2; j++)
            if (numbers[j] != 0xa5a5a5a5a5a5a5a5) what = "a refused pack changed its list";
        if (pack(s, i, numbers, n[i] + 1)) what = "a pack is refused";
        if (n[i] && memcmp(numbers, at[i], n[i] * 8)) what = "packed structs are other numbers";
        if (numbers[n[i]] != 0xa5a5a5a5a5a5a5a5 || numbers[n[i] + 1] != 0xa5a5a5a5a5a5a5a5) what = "a pack changed what lies behind";
        free(numbers);
    }
    return what;
}

/* The row check of a function's structs is that of its numbers, wherever its rows lie in their list. */
static const char *checks_differ(const structs *s, const uint64_t *const at[LISTS], const size_t n[LISTS]) {
    for (size_t k = 0; k < s->count[FUNCTIONS]; k++) {
        const uint64_t *f = at[FUNCTIONS] + 18 * k;
        uint64_t there = s->count[ROWS];
        if (f[2] > there || f[3] > there - f[2]) continue;
        if (unwind_row_check(at[FUNCTIONS], n[FUNCTIONS], at[ROWS], n[ROWS], k) != unwind_row_check_of(f[6], s->rows + f[2], f[3]))
            return "the row check of structs differs";
    }
    return NULL;
}

typedef struct {
    uint8_t *at[4];
    size_t count[4];
} lent;

static void lend(lent *b, const size_t room[4]) {
    for (int i = 0; i < 4; i++) {
        b->count[i] = room[i];
        b->at[i] = room_for(room[i], WIDTH[i]);
        memset(b->at[i], 0x5a, room[i] * WIDTH[i]);
    }
}

static int same(const lent *a, const lent *b) {
    for (int i = 0; i < 4; i++)
        if (a->count[i] && memcmp(a->at[i], b->at[i], a->count[i] * WIDTH[i])) return 0;
    return 1;
}

static void give_back(lent *b) {
    for (int i = 0; i < 4; i++) free(b->at[i]);
}

static unwind_written by_numbers(const structs_case *c, lent *b) {
    if (c->debug)
        return unwind_relaxed_debug_frame(c->machine, c->machine_n, c->format, c->at[0], c->n[0], c->at[1], c->n[1], c->at[2], c->n[2],
            c->at[3], c->n[3], (uint64_t *)b->at[0], b->count[0], b->at[1], b->count[1], (uint64_t *)b->at[2], b->count[2]);
    return unwind_relaxed_table(c->machine, c->machine_n, c->format, c->at[0], c->n[0], c->at[1], c->n[1], c->at[2], c->n[2], c->at[3],
        c->n[3], (uint64_t *)b->at[0], b->count[0], b->at[1], b->count[1], (uint64_t *)b->at[2], b->count[2], b->at[3], b->count[3]);
}

static unwind_written by_structs(const structs_case *c, const structs *s, uint64_t *numbers, size_t n, lent *b) {
    if (c->debug)
        return unwind_relaxed_debug_frame_of(c->machine, c->machine_n, c->format, s->functions, s->count[0], s->rows, s->count[1],
            c->at[2], c->n[2], c->at[3], c->n[3], numbers, n, (uint64_t *)b->at[0], b->count[0], b->at[1], b->count[1],
            (uint64_t *)b->at[2], b->count[2]);
    return unwind_relaxed_table_of(c->machine, c->machine_n, c->format, s->functions, s->count[0], s->rows, s->count[1], c->at[2],
        c->n[2], c->at[3], c->n[3], numbers, n, (uint64_t *)b->at[0], b->count[0], b->at[1], b->count[1], (uint64_t *)b->at[2],
        b->count[2], b->at[3], b->count[3]);
}

/* The answer by numbers. Where the list lent for the numbers is not ready it is 54, but for an empty result, 78, 11 and 12. */
static unwind_written expected(const structs_case *c, lent *a, int ready) {
    unwind_written x = by_numbers(c, a);
    if (ready || x.number == 11 || x.number == 12 || x.number == 78 || (!x.number && !x.places)) return x;
    give_back(a);
    lend(a, c->room);
    return (unwind_written){54, 0, 0, 0, 0, 0};
}

/* One call by structs beside one by numbers. */
static const char *call_differs(const structs_case *c, const structs *s, uint64_t *numbers, size_t n, int ready) {
    const char *what = NULL;
    lent a, b;
    lend(&a, c->room);
    lend(&b, c->room);
    uint64_t *before = room_for(n, 8);
    if (n) memcpy(before, numbers, n * 8);
    unwind_written x = expected(c, &a, ready);
    unwind_written y = by_structs(c, s, numbers, n, &b);
    if (memcmp(&x, &y, sizeof x)) what = "the answer to structs differs";
    if (!same(&a, &b)) what = "a buffer written from structs differs";
    if (n && memcmp(before, numbers, n * 8)) what = "the list lent for the numbers is not as it was";
    give_back(&a);
    give_back(&b);
    free(before);
    return what;
}

static const char *writers_differ(const structs_case *c, const structs *s) {
    size_t n = c->n[0] + c->n[1];
    uint64_t *numbers = room_for(n + 2, 8);
    const char *what = call_differs(c, s, numbers, n, 1);
    if (what == NULL) what = call_differs(c, s, numbers, n + 2, 1);
    if (what == NULL && n) what = call_differs(c, s, numbers, n - 1, 0);
    numbers[n] = 1;
    if (what == NULL) what = call_differs(c, s, numbers, n + 1, 1);
    numbers[n / 2] = 1;
    if (what == NULL) what = call_differs(c, s, numbers, n + 1, n == 0);
    free(numbers);
    return what;
}

const char *structs_differ(const structs_case *c) {
    structs s = {0};
    const char *what = NULL;
    if (structs_of(c->at, c->n, &s)) {
        structs_compared++;
        what = packs_differ(&s, c->at, c->n);
        if (what == NULL) what = checks_differ(&s, c->at, c->n);
        if (what == NULL) what = writers_differ(c, &s);
    } else {
        structs_passed_over++;
    }
    end_structs(&s);
    return what;
}

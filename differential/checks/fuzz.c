/* Calls the library's exports on random and damaged input, each slice between guard pages.
 *
 *     fuzz CALLS SEED
 *
 * The writers get lists as makers/random_cases.py and makers/wild_cases.py make them, then with numbers replaced, counts off by one and ends cut. The
 * reader gets sections that the library wrote, with their relocations, then with bits flipped, cut, spliced, lengths changed, and
 * relocations moved; kinds, words, records, registers and offsets are at times any.
 *
 * Each slice lies against a page that cannot be touched, by turns with its end and with its start; on its other side stand bytes
 * that no call may change. After each call: these bytes and every input are as before; a refusal left the lent buffers as they
 * were and has no counts, an accepted call left what lies past its results; the number is one that the specification has for the
 * entry. An accepted list is written again into buffers of about its size, where 51 to 54 or the same results are owed, and what
 * was written is read back: where the row check says yes the reader answers.
 *
 * The entries over structs get the structs that such a list means, then with bytes replaced, lists cut, and all bytes random; what
 * lies between the fields is random too. A pack stores the numbers and nothing past them, or answers 54 and stores nothing. The
 * row check and the writers answer as they do to the numbers, into the same buffers; where the list that is lent for the numbers is
 * short or not all zero, the answer is 54, and the list is always as it was.
 *
 * The writer of ARM64 unwind data gets functions that are packed at times, with epilogues that share the prologue's codes or not, then
 * damaged like the others; what it wrote is read back, length, starts and counts, and read with bytes damaged.
 *
 * The same seed makes the same calls. At the end stand the counts by entry and number, and a sum over all answers and results. */
#include <inttypes.h>
#include <signal.h>
#include <stdio.h>
#include <stdlib.h>
#include <string.h>
#include <sys/mman.h>
#include <unistd.h>

#include "../../include/dekvoz.h"

#define LENGTH(list) (sizeof(list) / sizeof *(list))
#define PICK(list) ((list)[below(LENGTH(list))])

/* From OF_STRUCTS on the first five again, over structs; from PACKS on the packs of the two lists. */
enum { ELF, COFF, MACH_O, OTHER, DEBUG_FRAME, SEH, ROW_CHECK, READ, OF_STRUCTS, PACKS = OF_STRUCTS + SEH, ROW_CHECK_OF = PACKS + 2,
    ARM64, READ_ARM64, ENTRIES };
static const char *const ENTRY[ENTRIES] = {"relaxed_table ELF", "relaxed_table COFF", "relaxed_table Mach-O",
    "relaxed_table other", "relaxed_debug_frame", "seh", "row_check", "read", "relaxed_table_of ELF", "relaxed_table_of COFF",
    "relaxed_table_of Mach-O", "relaxed_table_of other", "relaxed_debug_frame_of", "pack_functions", "pack_rows", "row_check_of",
    "arm64", "read_arm64"};
/* The numbers that the specification has for each entry, beside 0. 37, 39 and 41 are met through direct codes alone; to structs every
 * writer with a table answers 54 where the list lent for the numbers is not ready. */
static const uint8_t NUMBERS[ENTRIES][24] = {
    {11, 13, 21, 22, 23, 24, 25, 51, 52, 53, 54},
    {11, 12, 13, 21, 31, 32, 33, 34, 35, 36, 38, 40, 51, 52, 53, 54},
    {78},
    {11},
    {11, 13, 21, 23, 24, 25, 51, 52, 53},
    {13, 21, 34, 35, 36, 37, 38, 39, 40, 41, 51, 52, 53, 54},
    {1},
    {11, 61, 62, 63, 64, 65, 66, 67, 68, 69},
    {11, 13, 21, 22, 23, 24, 25, 51, 52, 53, 54},
    {11, 12, 13, 21, 31, 32, 33, 34, 35, 36, 38, 40, 51, 52, 53, 54},
    {78},
    {11},
    {11, 13, 21, 23, 24, 25, 51, 52, 53, 54},
    {54},
    {54},
    {1},
    {13, 81, 82, 83, 51, 52, 53, 54},
    {54, 76, 77},
};
enum { EMPTY = 99, KNOWN };
static uint64_t counts[ENTRIES][KNOWN];
static uint64_t calls, wanted, seed, sum = 1469598103934665603u;

/* ---- random numbers */

static uint64_t state;

static uint64_t any(void) {
    uint64_t z = (state += 0x9e3779b97f4a7c15u);
    z = (z ^ (z >> 30)) * 0xbf58476d1ce4e5b9u;
    z = (z ^ (z >> 27)) * 0x94d049bb133111ebu;
    return z ^ (z >> 31);
}

static uint64_t below(uint64_t n) { return any() % n; }

static int chance(unsigned percent) { return below(100) < percent; }

/* ---- what went wrong */

static void wrong(const char *what) {
    fprintf(stderr, "fuzz: call %" PRIu64 " of seed %" PRIu64 ": %s\n", calls, seed, what);
    exit(1);
}

/* snprintf is not allowed in a handler everywhere; here nothing else runs any more. */
static void stopped(int number) {
    char text[128];
    int n = snprintf(text, sizeof text, "fuzz: call %" PRIu64 " of seed %" PRIu64 ": signal %d\n", calls, seed, number);
    if (n > 0 && write(2, text, (size_t)n) < 0) _exit(3);
    _exit(2);
}

static void add(const void *at, size_t bytes) {
    const uint8_t *b = at;
    for (size_t i = 0; i < bytes; i++) sum = (sum ^ b[i]) * 1099511628211u;
}

/* ---- slices between guard pages */

enum { PLACES = 5, SPARE = 9, SLOTS, ROOM = 16 << 20, PAGE = 4096, CANARIES = 256 };

typedef struct {
    uint8_t *base, *at, *canary;
    const void *source;
    size_t bytes;
} slot;
static slot slots[SLOTS];

static void open_slots(void) {
    for (int i = 0; i < SLOTS; i++) {
        uint8_t *all = mmap(NULL, ROOM + 2 * PAGE, PROT_NONE, MAP_PRIVATE | MAP_ANONYMOUS | MAP_NORESERVE, -1, 0);
        if (all == MAP_FAILED || mprotect(all + PAGE, ROOM, PROT_READ | PROT_WRITE)) wrong("no memory");
        slots[i].base = all + PAGE;
    }
}

static uint8_t mark(int i, size_t j) { return (uint8_t)(0xa5 + 31 * j + i); }

/* Room for a slice at one of the slot's ends, and marks on its free side. An empty one is a null pointer at times. */
static uint8_t *place(int i, size_t bytes) {
    slot *s = &slots[i];
    int last = chance(50);
    if (bytes + CANARIES > ROOM) wrong("a slice too long for its slot");
    s->bytes = bytes;
    s->source = NULL;
    s->at = last ? s->base + ROOM - bytes : s->base;
    s->canary = last ? s->at - CANARIES : s->at + bytes;
    for (size_t j = 0; j < CANARIES; j++) s->canary[j] = mark(i, 3 * j);
    return bytes == 0 && chance(50) ? NULL : s->at;
}

static void *hand(int i, const void *source, size_t bytes) {
    uint8_t *at = place(i, bytes);
    if (bytes) memcpy(at, source, bytes);
    slots[i].source = source;
    return at;
}

static void *lend(int i, size_t bytes) {
    uint8_t *at = place(i, bytes);
    for (size_t j = 0; j < bytes; j++) at[j] = mark(i, j);
    return at;
}

/* Whether a lent slice is as it was from this byte on. */
static int untouched(int i, size_t from) {
    for (size_t j = from; j < slots[i].bytes; j++)
        if (slots[i].at[j] != mark(i, j)) return 0;
    return 1;
}

static void check_around(int from, int to) {
    for (int i = from; i < to; i++) {
        const slot *s = &slots[i];
        for (size_t j = 0; j < CANARIES; j++)
            if (s->canary[j] != mark(i, 3 * j)) wrong("a byte beside a slice changed");
        if (s->source && s->bytes && memcmp(s->at, s->source, s->bytes))
            wrong(i == SPARE ? "the list lent for the numbers is not as it was" : "an input changed");
    }
}

/* An answer is counted; its number must be one of the entry's. */
static void tally(int e, uint64_t number, int empty) {
    if (number && (number >= EMPTY || !memchr(NUMBERS[e], (int)number, LENGTH(NUMBERS[e]))))
        wrong("a number that the entry does not have");
    counts[e][empty ? EMPTY : number]++;
}

/* ---- lists */

enum { MACHINE, FUNCTIONS, ROWS, LANDINGS, PAIRS, CODES, EPILOGUES, LISTS };
static const size_t STRIDE[LISTS] = {70, 18, 4, 3, 4, 5, 3};
enum { MOST = (ROOM - CANARIES) / 8 };
static struct {
    uint64_t at[MOST];
    size_t count;
} lists[LISTS];

/* What the lists are for: the entry, and the format that it is asked of. */
static int entry;
static uint64_t format, word, pushed, frame;
/* Whether the list may hold numbers that a question refuses. */
static int bad;

static int amiss(unsigned percent) { return bad && chance(percent); }

static void push(int key, uint64_t n) {
    if (lists[key].count < MOST) lists[key].at[lists[key].count++] = n;
}

static void put(int key, size_t n, const uint64_t *numbers) {
    for (size_t i = 0; i < n; i++) push(key, numbers[i]);
}

static size_t stride(int key) {
    if (key == FUNCTIONS && entry == SEH) return 5;
    if (entry == ARM64 && (key == FUNCTIONS || key == CODES)) return key == FUNCTIONS ? 6 : 3;
    return STRIDE[key];
}

static size_t records(int key) { return lists[key].count / stride(key); }

static const uint64_t ODD[] = {0, 1, 2, 3, 5, 9, 15, 16, 17, 255, 256, 65535, 65536, 65537, 1048576, 1048577, 1u << 31,
    UINT32_MAX, 1ull << 32, 1ull << 63, UINT64_MAX};
static const uint64_t REGISTERS[] = {0, 1, 3, 6, 7, 12, 16, 23, 31, 63, 64, 127, 128, 16383, 16384, 65535};
static const uint64_t STEPS[] = {0, 0, 1, 1, 2, 4, 5, 62, 63, 64, 65, 255, 256, 257, 65535, 65536, UINT32_MAX};
static const uint64_t LENGTHS[] = {0, 1, 6, 40, 127, 128, 255, 256, 65535, 65536, INT32_MAX, 1u << 31, UINT32_MAX};
static const uint64_t WIDE[] = {0, 1, 63, 64, 127, 128, 16383, 16384, UINT32_MAX, 1ull << 32, 1ull << 63, UINT64_MAX};
static const uint64_t PERSONALITIES[] = {0x00, 0x03, 0x0b, 0x04, 0x0c, 0x13, 0x1b, 0x80, 0x83, 0x8b, 0x84, 0x8c, 0x93, 0x9b};
static const uint64_t LSDAS[] = {0x00, 0x03, 0x0b, 0x04, 0x0c, 0x13, 0x1b};
static const uint64_t BAD_ENCODINGS[] = {0x01, 0x02, 0x0a, 0x14, 0x1c, 0x20, 0x90, 0xff};

static uint64_t x86_64(unsigned d) {
    static const uint8_t first[] = {0, 2, 1, 3, 6, 7, 5, 4};
    return d < 8 ? first[d] : d < 16 ? d : d > 16 && d < 33 ? d + 111 : 255;
}

static void make_machine(void) {
    static const uint64_t words[] = {8, 8, 8, 4, 2}, frames[] = {6, 6, 5, 65536}, slots_pushed[] = {0, 1, 1, 1, 2, 16};
    int ready = chance(50), map = (int)below(3);
    word = ready || (entry == COFF && chance(98)) ? 8 : PICK(words);
    pushed = ready ? 8 : word * PICK(slots_pushed);
    frame = ready ? 6 : PICK(frames);
    uint64_t stack = ready ? 7 : PICK(REGISTERS), back = ready ? 16 : PICK(REGISTERS);
    uint64_t front[6] = {word, pushed, stack, back, frame, 0};
    put(MACHINE, 6, front);
    for (unsigned d = 0; d < 64; d++) push(MACHINE, ready || map == 0 ? x86_64(d) : map == 1 ? d % 40 : 255);
}

static void row(uint64_t at, uint64_t kind, uint64_t reg, int64_t operand) {
    uint64_t numbers[4] = {at, kind, reg, (uint32_t)operand};
    put(ROWS, 4, numbers);
}

/* A multiple of the word of either sign, or at times another number. */
static int64_t offset(void) {
    static const int64_t slots_away[] = {-1, -2, -3, -8, 0, 1, 63, 64, 65, -63, -64, -127, -128, -1000};
    return amiss(10) ? (int64_t)below(2001) - 1000 : PICK(slots_away) * (int64_t)word;
}

static void any_row(uint64_t at) {
    static const uint64_t kinds[] = {0, 1, 1, 2, 3, 3, 3, 4, 5, 6, 7, 8, 9, 10};
    static const int64_t positive[] = {0, 1, 8, 16, 127, 128, INT32_MAX};
    uint64_t kind = PICK(kinds), reg = PICK(REGISTERS);
    int64_t operand = kind == 3 || chance(30) ? offset() : PICK(positive);
    if (kind == 10) operand = (int64_t)PICK(REGISTERS);
    row(at, kind, kind == 1 || (kind > 5 && kind < 9) ? 0 : reg, kind == 0 || kind == 1 || kind == 3 || kind == 10 ? operand : 0);
}

static void any_rows(void) {
    static const uint64_t many[] = {0, 1, 2, 4, 8, 8, 24};
    uint64_t at = 0, end = PICK(many);
    /* Small steps, so that the rows lie below the length more often. */
    int small = chance(50);
    for (uint64_t i = 0; i < end; i++) {
        at += small ? below(5) : chance(70) ? PICK(STEPS) : 0;
        if (amiss(5)) at = chance(50) && at ? at - 1 : at + (1ull << 32);
        any_row(at);
    }
}

/* More states stored than a reader keeps, or nearly. */
static void deep_rows(void) {
    uint64_t stored = 14 + below(5), back = below(stored + 2), at = 1;
    for (uint64_t i = 0; i < stored; i++, at++) row(at, 6, 0, 0);
    for (uint64_t i = 0; i < back; i++, at++) row(at, 7, 0, 0);
}

/* Rows of an x64 prologue, with a row at times that does not belong there. */
static void prologue_rows(void) {
    static const uint64_t saved[] = {3, 6, 12, 13, 15, 23}, spilled[] = {3, 6, 12, 17, 23, 32};
    static const uint64_t sizes[] = {1, 6, 16, 17, 65535, 65536};
    uint64_t at = 0, distance = pushed, early = chance(15);
    for (uint64_t i = early ? 1 : below(5); i > 0; i--) {
        at += 1 + below(3);
        distance += word;
        row(at, 1, 0, (int64_t)distance);
        row(at, 3, early && frame < 65536 ? frame : PICK(saved), -(int64_t)distance);
    }
    if (early) row(at + 3, 2, frame % 65536, 0);
    else if (chance(80)) {
        at += chance(50) ? 4 : 90;
        distance += 8 * PICK(sizes);
        row(at, 1, 0, (int64_t)distance - (amiss(10) ? 4 : 0));
        for (uint64_t i = below(4); i > 0; i--) {
            uint64_t reg = PICK(spilled);
            row(at += 4, 3, reg, -8 * (int64_t)(1 + below(distance / 8)));
        }
        if (chance(30)) row(at + 3, 0, frame % 65536, (int64_t)distance);
    }
    if (amiss(40)) any_row(at + (chance(50) ? below(2) : 250));
    if (chance(50)) {
        row(at + 20, 6, 0, 0);
        row(at + 21, 7, 0, 0);
    }
}

/* As many saves as a record has slots, or about. */
static void many_saves(void) {
    uint64_t end = 126 + below(4);
    for (uint64_t i = 0; i < end; i++) row(1 + i % 250, 3, 3, -8);
}

static void make_rows(void) {
    if (entry == COFF && !amiss(10)) {
        if (chance(1)) many_saves();
        else prologue_rows();
    } else if (chance(4)) deep_rows();
    else any_rows();
}

/* Pairs for some of the steps of the rows from here on, and at times one that no step has. */
static void make_pairs(size_t from) {
    uint64_t before = 0;
    for (size_t i = from; i < records(ROWS); i++) {
        uint64_t at = lists[ROWS].at[4 * i], a = 1000 + below(20), numbers[4] = {before, at, a, 1000 + (a - 999) % 20};
        if (at != before && chance(60)) put(PAIRS, 4, numbers);
        before = at;
    }
    uint64_t other[4] = {5, amiss(50) ? 5 : 6, 1000, 1001};
    if (chance(20)) put(PAIRS, 4, other);
}

static uint64_t make_length(void) {
    uint64_t length = PICK(LENGTHS);
    if (amiss(10)) return chance(50) ? 1ull << 32 : UINT64_MAX;
    return entry == DEBUG_FRAME && word == 2 ? length % 65536 : length;
}

static void make_function(uint64_t number) {
    static const uint64_t many[] = {0, 0, 0, 1, 3};
    size_t rows = records(ROWS), landings = records(LANDINGS), pairs = records(PAIRS);
    make_rows();
    for (uint64_t i = PICK(many); i > 0; i--)
        for (int j = 0; j < 3; j++) push(LANDINGS, PICK(WIDE));
    int named = chance(40), lsda = chance(60), relaxed = chance(20), simple = chance(20), signal = chance(20);
    uint64_t encoding = amiss(20) ? PICK(BAD_ENCODINGS) : PICK(PERSONALITIES), symbol = 40 + below(2), length = make_length();
    uint64_t table = amiss(20) ? PICK(BAD_ENCODINGS) : PICK(LSDAS), data = 50 + below(2);
    if (relaxed) make_pairs(rows);
    uint64_t f[18] = {16 + number, length, rows, records(ROWS) - rows, landings, records(LANDINGS) - landings, simple, signal,
        named, named ? encoding : 0, named ? symbol : 0, named && lsda, named && lsda ? table : 0, named && lsda ? data : 0,
        relaxed, relaxed ? 60 + number : 0, relaxed ? pairs : 0, records(PAIRS) - pairs};
    put(FUNCTIONS, 18, f);
}

static void make_code(uint64_t at) {
    static const uint64_t kinds[] = {0, 0, 1, 2, 3, 3}, frames[] = {0, 16, 240}, bad_frames[] = {8, 256, (uint64_t)-16};
    static const uint64_t values[] = {8, 16, 120, 128, 136, 524272, 524280, 524288, 1048560, 1048576, 4294967288};
    static const uint64_t bad_values[] = {0, 4, (uint64_t)-8, 12, 1ull << 32, INT64_MAX, 1ull << 63};
    uint64_t kind = PICK(kinds), reg = amiss(5) ? 16 + below(240) : below(16);
    uint64_t value = amiss(10) ? PICK(bad_values) : PICK(values);
    if (kind == 2) value = amiss(10) ? PICK(bad_frames) : PICK(frames);
    uint64_t far = amiss(3) ? 256 : 0, vector = kind == 3 && chance(40);
    uint64_t c[5] = {at + far, kind, kind == 1 ? 0 : reg, vector, kind == 0 ? 0 : value};
    put(CODES, 5, c);
}

static void make_prologue(uint64_t number) {
    static const uint64_t many[] = {0, 1, 2, 5, 9};
    uint64_t first = records(CODES), at = 0, end = chance(1) ? 100 + below(157) : PICK(many);
    for (uint64_t i = 0; i < end; i++) make_code(at += end > 9 ? i % 2 : 1 + below(8));
    uint64_t length = make_length(), last = amiss(5) ? 256 : at;
    uint64_t f[5] = {16 + number, length, last, first, records(CODES) - first};
    put(FUNCTIONS, 5, f);
}

/* A code of ARM64: of each kind, with a register and an offset that it has, at times others. */
static void arm64_code(void) {
    uint64_t kind = amiss(3) ? 18 : below(18), reg = 0, at = 8 * below(chance(50) ? 6 : 32) + 8;
    if (kind >= 4 && kind <= 12) reg = kind == 8 ? 19 + 2 * below(5) : kind < 8 ? 19 + below(10) : 8 + below(7);
    if (kind == 0) at = 16 * below(chance(50) ? 32 : 3000);
    if (kind == 13 || kind > 14) at = 0;
    if (amiss(4)) reg = PICK(REGISTERS);
    if (amiss(4)) at = PICK(ODD);
    put(CODES, 3, (uint64_t[]){kind, reg, at});
}

/* The front of a run of codes again, backwards: an epilogue that undoes it. */
static uint64_t undo(size_t first, uint64_t n, int frame_too) {
    uint64_t before = records(CODES);
    for (uint64_t i = n; i-- > 0;) {
        const uint64_t *c = lists[CODES].at + 3 * (first + i);
        if (c[0] != 13 || frame_too) put(CODES, 3, (uint64_t[]){c[0], c[1], c[2]});
    }
    return records(CODES) - before;
}

/* stp x19, x20, [sp, -16 n]!; stp x29, lr, [sp, -16 m]!; mov x29, sp: what packed words stand for. */
static void packable_codes(void) {
    put(CODES, 3, (uint64_t[]){1, 0, 16});
    if (chance(50)) put(CODES, 3, (uint64_t[]){0, 0, 16 + 16 * below(4)});
    else put(CODES, 6, (uint64_t[]){3, 0, 16 + 16 * below(4), 13, 0, 0});
}

static void make_arm64(uint64_t number) {
    static const uint64_t many[] = {0, 1, 2, 5, 9, 40, 130}, ends[] = {0, 1, 1, 1, 2, 5, 31, 32};
    static const uint64_t lengths[] = {4, 40, 400, 8188, 8192, 1048572};
    uint64_t first = records(CODES), length = amiss(10) ? PICK(ODD) : PICK(lengths), epilogues = records(EPILOGUES), most = PICK(ends);
    int packable = chance(30);
    if (packable) packable_codes();
    else
        for (uint64_t i = PICK(many); i > 0; i--) arm64_code();
    uint64_t n = records(CODES) - first;
    for (uint64_t i = packable ? 1 : most; i > 0; i--) {
        uint64_t at = records(CODES), held = 0;
        if (packable || chance(60)) held = undo(first, packable ? n : below(n + 1), !packable || chance(20));
        else
            for (held = below(4); records(CODES) < at + held;) arm64_code();
        int last = packable || (most == 1 && chance(50));
        uint64_t start = last ? length - 4 * held - 4 : length / 4 ? 4 * below(length / 4) : 0;
        put(EPILOGUES, 3, (uint64_t[]){amiss(5) ? PICK(ODD) : start, at, held});
    }
    put(FUNCTIONS, 6, (uint64_t[]){16 + number, length, first, n, epilogues, records(EPILOGUES) - epilogues});
}

/* Lists at question 13's limits: many plain functions, or rows that many functions share. */
static void long_lists(void) {
    uint64_t shared = chance(50), functions = shared ? 511 + below(3) : 65535 + below(3);
    for (uint64_t i = 0; shared && i < 2048; i++) row(i, 8, 0, 0);
    for (uint64_t i = 0; i < functions; i++) {
        uint64_t f[18] = {16 + i, 9, 0, shared * 2048};
        put(FUNCTIONS, 18, f);
    }
}

/* A range's start or count off by one. */
static void move_range(void) {
    static const size_t fields[] = {2, 3, 4, 5, 16, 17};
    size_t j = entry == SEH ? 3 + below(2) : entry == ARM64 ? 2 + below(4) : PICK(fields);
    size_t k = stride(FUNCTIONS) * below(records(FUNCTIONS) + 1) + j;
    uint64_t by = chance(50) ? 1 : UINT64_MAX;
    if (k < lists[FUNCTIONS].count) lists[FUNCTIONS].at[k] += by;
}

/* A number replaced or changed by one, a range moved, or a list cut or made longer. */
static void damage(void) {
    int key = chance(40) ? FUNCTIONS : (int)below(LISTS);
    if (lists[key].count == 0) return;
    uint64_t how = below(100), *n = &lists[key].at[below(lists[key].count)];
    if (how < 40) *n = PICK(ODD);
    else if (how < 55) *n += chance(50) ? 1 : UINT64_MAX;
    else if (how < 65) *n = any();
    else if (how < 80) move_range();
    else if (how < 92) lists[key].count -= chance(60) ? 1 : below(lists[key].count);
    else push(key, PICK(ODD));
}

static void make_case(void) {
    static const int entries[] = {ELF, ELF, ELF, ELF, COFF, COFF, MACH_O, DEBUG_FRAME, DEBUG_FRAME, SEH, SEH, ARM64, ARM64};
    static const uint64_t many[] = {1, 1, 2, 3, 5}, others[] = {3, 4, 5, UINT64_MAX};
    uint64_t functions = chance(98) ? PICK(many) : chance(50) ? 0 : below(200);
    for (int i = 0; i < LISTS; i++) lists[i].count = 0;
    bad = chance(25);
    entry = chance(2) ? OTHER : PICK(entries);
    format = entry == OTHER ? PICK(others) : entry < OTHER ? (uint64_t)entry : chance(97) ? 0 : PICK(ODD);
    make_machine();
    if (entry != SEH && entry != ARM64 && below(4000) == 0) long_lists();
    else
        for (uint64_t i = 0; i < functions; i++)
            if (entry == SEH) make_prologue(i);
            else if (entry == ARM64) make_arm64(i);
            else make_function(i);
    while (chance(30)) damage();
}

/* ---- lists of structs */

_Static_assert(sizeof(unwind_function) == 112 && sizeof(unwind_row) == 16, "functions and rows");

static struct {
    unwind_function functions[MOST / 18];
    unwind_row rows[MOST / 4];
} given;
static void *const GIVEN[] = {NULL, given.functions, given.rows};
static const size_t SIZE[] = {0, sizeof *given.functions, sizeof *given.rows};

/* A record's numbers in a struct, each as far as its field holds it; what lies between the fields stays. */
static void fill(int key, size_t i) {
    const uint64_t *n = lists[key].at + STRIDE[key] * i;
    if (key == ROWS) {
        unwind_row *r = &given.rows[i];
        r->offset = n[0], r->kind = (uint8_t)n[1], r->reg = (uint16_t)n[2], r->value = (int32_t)(uint32_t)n[3];
    }
    if (key != FUNCTIONS) return;
    unwind_function *f = &given.functions[i];
    f->symbol = n[0], f->length = n[1], f->rows_at = n[2], f->rows = n[3], f->landings_at = n[4], f->landings = n[5];
    f->simple = (uint8_t)n[6], f->signal = (uint8_t)n[7], f->personality = (uint8_t)n[8], f->encoding = (uint8_t)n[9];
    f->routine = n[10], f->lsda = (uint8_t)n[11], f->lsda_encoding = (uint8_t)n[12], f->lsda_symbol = n[13];
    f->relaxed = (uint8_t)n[14], f->end = n[15], f->pairs_at = n[16], f->pairs = n[17];
}

/* The numbers of a struct, as include/dekvoz.h orders them. */
static void push_numbers(int key, size_t i) {
    const unwind_function *f = &given.functions[i];
    const unwind_row *r = &given.rows[i];
    if (key == FUNCTIONS)
        put(key, 18, (uint64_t[]){f->symbol, f->length, f->rows_at, f->rows, f->landings_at, f->landings, f->simple, f->signal,
            f->personality, f->encoding, f->routine, f->lsda, f->lsda_encoding, f->lsda_symbol, f->relaxed, f->end, f->pairs_at,
            f->pairs});
    else put(key, 4, (uint64_t[]){r->offset, r->kind, r->reg, (uint32_t)r->value});
}

/* Structs of the lists, at times damaged or random, and the lists then as the structs mean them. */
static void make_structs(void) {
    for (int key = FUNCTIONS; key <= ROWS; key++) {
        size_t n = records(key);
        int random = chance(2);
        uint8_t *at = GIVEN[key];
        if (random) n = below(6);
        for (size_t i = 0; i < n * SIZE[key]; i++) at[i] = (uint8_t)any();
        for (size_t i = 0; i < n && !random; i++) fill(key, i);
        if (n && chance(3)) n -= chance(60) ? 1 : below(n + 1);
        while (n && chance(6)) {
            uint8_t byte = (uint8_t)(chance(50) ? below(10) : any());
            at[below(n * SIZE[key])] = byte;
        }
        lists[key].count = 0;
        for (size_t i = 0; i < n; i++) push_numbers(key, i);
    }
}

static uint64_t call_pack(int key, const void *at, size_t n, uint64_t *numbers, size_t room) {
    return key == FUNCTIONS ? unwind_pack_functions(at, n, numbers, room) : unwind_pack_rows(at, n, numbers, room);
}

/* The structs packed into a list that they fill, or that is one short, a little larger, or of any smaller size. */
static void pack(int key) {
    size_t n = lists[key].count;
    unsigned how = (unsigned)below(8);
    size_t room = how < 3 ? n : how < 4 && n ? n - 1 : how < 7 ? n + below(20) : below(n + 1);
    const void *at = hand(0, GIVEN[key], records(key) * SIZE[key]);
    uint64_t *numbers = lend(1, 8 * room);
    calls++;
    uint64_t number = call_pack(key, at, records(key), numbers, room);
    check_around(0, 2);
    if (number != (room < n ? 54 : 0)) wrong("a pack that fits is refused, or one that doesn't is not");
    if (number ? !untouched(1, 0) : !untouched(1, 8 * n)) wrong("a pack stored past its numbers, or a refused one stored");
    if (!number && n && memcmp(numbers, lists[key].at, 8 * n)) wrong("other numbers are packed");
    add(slots[1].at, number ? 0 : 8 * n);
    tally(PACKS + key - FUNCTIONS, number, 0);
}

/* ---- the writers */

static const size_t WIDTH[4] = {8, 1, 8, 1};
static struct {
    unwind_written w;
    size_t elements[4];
    uint8_t *results[4];
} kept;

static const uint64_t *hand_list(int slot_at, int key) { return hand(slot_at, lists[key].at, 8 * lists[key].count); }

/* Whether the writers are called by structs, and how much of the list that is all zero they are lent for the numbers. */
static int by_structs;
static uint64_t zeros[MOST];
static size_t lent_zeros;

static unwind_written call_seh(void *const b[4], const size_t room[4]) {
    const uint64_t *functions = hand_list(0, FUNCTIONS), *codes = hand_list(1, CODES);
    return unwind_seh(functions, lists[FUNCTIONS].count, codes, lists[CODES].count,
        b[0], room[0], b[1], room[1], b[2], room[2], b[3], room[3]);
}

static unwind_written call_arm64(void *const b[4], const size_t room[4]) {
    const uint64_t *functions = hand_list(0, FUNCTIONS), *epilogues = hand_list(1, EPILOGUES), *codes = hand_list(2, CODES);
    return unwind_arm64(functions, lists[FUNCTIONS].count, epilogues, lists[EPILOGUES].count, codes, lists[CODES].count,
        b[0], room[0], b[1], room[1], b[2], room[2], b[3], room[3]);
}

static unwind_written call_table(void *const b[4], const size_t room[4]) {
    const uint64_t *at[5];
    for (int i = 0; i < 5; i++) at[i] = hand_list(i, i);
    if (entry == DEBUG_FRAME)
        return unwind_relaxed_debug_frame(at[0], lists[0].count, format, at[1], lists[1].count, at[2], lists[2].count,
            at[3], lists[3].count, at[4], lists[4].count, b[0], room[0], b[1], room[1], b[2], room[2]);
    return unwind_relaxed_table(at[0], lists[0].count, format, at[1], lists[1].count, at[2], lists[2].count,
        at[3], lists[3].count, at[4], lists[4].count, b[0], room[0], b[1], room[1], b[2], room[2], b[3], room[3]);
}

static unwind_written call_structs(void *const b[4], const size_t room[4]) {
    const uint64_t *machine = hand_list(0, MACHINE);
    const uint64_t *landings = hand_list(LANDINGS, LANDINGS), *pairs = hand_list(PAIRS, PAIRS);
    const void *at[3];
    uint64_t *numbers = hand(SPARE, zeros, 8 * lent_zeros);
    for (int i = FUNCTIONS; i <= ROWS; i++) at[i] = hand(i, GIVEN[i], records(i) * SIZE[i]);
    if (entry == DEBUG_FRAME)
        return unwind_relaxed_debug_frame_of(machine, lists[0].count, format, at[1], records(1), at[2], records(2), landings,
            lists[3].count, pairs, lists[4].count, numbers, lent_zeros, b[0], room[0], b[1], room[1], b[2], room[2]);
    return unwind_relaxed_table_of(machine, lists[0].count, format, at[1], records(1), at[2], records(2), landings, lists[3].count,
        pairs, lists[4].count, numbers, lent_zeros, b[0], room[0], b[1], room[1], b[2], room[2], b[3], room[3]);
}

static void check_answer(const unwind_written *w, const size_t room[4]) {
    uint64_t used[4] = {w->places, w->bytes, 5 * w->relocations, w->sites};
    int free_of_position = w->number < 20 || w->number > 50;
    if (w->position && (free_of_position || w->position >= records(FUNCTIONS))) wrong("a position without a function");
    for (int i = 0; i < 4; i++) {
        if (w->number && used[i]) wrong("a refusal with counts");
        if (used[i] > room[i]) wrong("more results than room");
        if (!untouched(PLACES + i, used[i] * WIDTH[i]))
            wrong(w->number ? "a refusal changed a lent buffer" : "a lent buffer changed past the results");
        add(slots[PLACES + i].at, used[i] * WIDTH[i]);
    }
}

static unwind_written written(const size_t room[4]) {
    void *b[4];
    unwind_written w;
    for (int i = 0; i < 4; i++) b[i] = lend(PLACES + i, room[i] * WIDTH[i]);
    for (int i = 0; i < PLACES; i++) place(i, 0);
    place(SPARE, 0);
    calls++;
    w = entry == SEH ? call_seh(b, room) : entry == ARM64 ? call_arm64(b, room) : by_structs ? call_structs(b, room) : call_table(b, room);
    check_around(0, SLOTS);
    check_answer(&w, room);
    add(&w, sizeof w);
    tally(by_structs ? OF_STRUCTS + entry : entry, w.number, !w.number && !w.places);
    return w;
}

/* The records that the functions' ranges reach, as far as they lie in the list. */
static size_t reached(int key, size_t j) {
    size_t all = 0;
    for (size_t k = 0; k < records(FUNCTIONS); k++) {
        uint64_t n = lists[FUNCTIONS].at[stride(FUNCTIONS) * k + j];
        all += n < records(key) ? n : records(key);
    }
    return all;
}

/* A record of ARM64 has a header of at most 8 bytes, a word an epilogue, and to 4 bytes a code with an end of each run. */
static void ample_arm64(size_t room[4]) {
    size_t n = records(FUNCTIONS), epilogues = reached(EPILOGUES, 5), most = 0;
    for (size_t i = 0; i < records(EPILOGUES); i++) {
        uint64_t codes = lists[EPILOGUES].at[3 * i + 2];
        if (codes > most && codes < 1024) most = codes;
    }
    room[0] = n + below(4);
    room[1] = 8 * n + below(4);
    room[2] = 10 * n + below(9);
    room[3] = 12 * n + 4 * reached(CODES, 3) + epilogues * (4 * most + 5) + below(4);
}

/* Room for every result of the case, but not past the slots. */
static void ample(size_t room[4]) {
    if (entry == ARM64) {
        ample_arm64(room);
        for (int i = 0; i < 4; i++)
            if (room[i] * WIDTH[i] > ROOM / 8) room[i] = 4096;
        return;
    }
    size_t n = records(FUNCTIONS), codes = entry == SEH ? reached(CODES, 4) : 0;
    size_t rows = entry == SEH ? 0 : reached(ROWS, 3), landings = entry == SEH ? 0 : reached(LANDINGS, 5);
    room[0] = n + below(4);
    room[1] = 160 * n + 14 * rows + below(4);
    room[2] = 5 * (8 * n + 2 * rows) + below(9);
    room[3] = 16 * n + 32 * landings + 8 * rows + 6 * codes + below(4);
    for (int i = 0; i < 4; i++)
        if (room[i] * WIDTH[i] > ROOM / 8) room[i] = 4096;
}

static void keep(const unwind_written *w) {
    size_t elements[4] = {w->places, w->bytes, 5 * w->relocations, w->sites};
    kept.w = *w;
    memcpy(kept.elements, elements, sizeof elements);
    for (int i = 0; i < 4; i++) {
        kept.results[i] = realloc(kept.results[i], elements[i] * WIDTH[i] + 1);
        if (kept.results[i] == NULL) wrong("no memory");
        memcpy(kept.results[i], slots[PLACES + i].at, elements[i] * WIDTH[i]);
    }
}

/* The kept list again, each buffer full, one short, a little larger, or of any smaller size. */
static void write_again(void) {
    size_t room[4];
    uint64_t want = 0;
    for (int i = 0; i < 4; i++) {
        size_t n = kept.elements[i];
        unsigned how = (unsigned)below(8);
        room[i] = how < 4 ? n : how < 5 && n ? n - 1 : how < 7 ? n + below(6) : below(n + 1);
        size_t held = i == 2 ? room[i] - room[i] % 5 : room[i];
        if (want == 0 && held < n) want = 51 + (uint64_t)i;
    }
    unwind_written w = written(room);
    if (w.number != want) wrong("another answer in smaller buffers");
    for (int i = 0; i < 4 && !want; i++)
        if (memcmp(kept.results[i], slots[PLACES + i].at, kept.elements[i] * WIDTH[i])) wrong("other results in smaller buffers");
}

/* How much is lent for the numbers: as many as there are, a few more, or too few; at times one of them is not zero. The answer
 * is the place of that one, or MOST. */
static size_t lend_numbers(int *ready) {
    size_t n = lists[FUNCTIONS].count + lists[ROWS].count;
    uint64_t how = below(10);
    lent_zeros = how < 5 || (how < 7 && !n) ? n : how < 6 ? n - 1 : how < 7 ? below(n) : n + below(5);
    size_t at = how == 9 && lent_zeros ? below(lent_zeros) : MOST;
    *ready = lent_zeros >= n && (at == MOST || at >= n);
    return at;
}

/* The structs by numbers, and by structs into buffers of the same size; then, where they were accepted, into smaller ones. */
static void write_structs(void) {
    size_t room[4];
    int ready;
    ample(room);
    size_t small = below(20), few = below(9);
    if (small < 4) room[small] = few;
    unwind_written w = written(room);
    keep(&w);
    by_structs = 1;
    size_t at = lend_numbers(&ready);
    if (at < MOST) zeros[at] = chance(50) ? 1 : 1ull << below(64);
    unwind_written x = written(room);
    if (at < MOST) zeros[at] = 0;
    int first = w.number == 11 || w.number == 12 || w.number == 78 || (!w.number && !w.places);
    if (!ready && !first && (x.number != 54 || x.position)) wrong("an answer without a list for the numbers");
    if ((ready || first) && memcmp(&w, &x, sizeof w)) wrong("another answer to structs");
    for (int i = 0; i < 4 && ready; i++)
        if (memcmp(kept.results[i], slots[PLACES + i].at, kept.elements[i] * WIDTH[i])) wrong("other results of structs");
    if (ready && w.number == 0 && w.places) write_again();
    by_structs = 0;
}

/* ---- the row check */

static int row_check_in(const uint64_t *functions, size_t n, uint64_t k) {
    const uint64_t *at = hand(0, functions, 8 * n), *rows = hand_list(1, ROWS);
    calls++;
    uint64_t yes = unwind_row_check(at, n, rows, lists[ROWS].count, k);
    check_around(0, 2);
    if (yes && k >= n / 18) wrong("the row check says yes of no function");
    add(&yes, sizeof yes);
    tally(ROW_CHECK, yes, 0);
    return yes == 1;
}

static int row_check(uint64_t k) { return row_check_in(lists[FUNCTIONS].at, lists[FUNCTIONS].count, k); }

/* The rows of some function, or any that stand together, as structs and as numbers. */
static void check_structs(void) {
    size_t functions = records(FUNCTIONS);
    const uint64_t *some = lists[FUNCTIONS].at + 18 * below(functions ? functions : 1);
    uint64_t all = records(ROWS), from = below(all + 1), n = below(all - from + 1), simple = chance(90) ? below(2) : PICK(ODD);
    if (functions && chance(70) && some[2] <= all && some[3] <= all - some[2]) from = some[2], n = some[3];
    uint64_t f[18] = {16, 9, from, n, 0, 0, simple};
    int want = row_check_in(f, 18, 0);
    const unwind_row *rows = hand(0, given.rows + from, n * sizeof *rows);
    calls++;
    uint64_t yes = unwind_row_check_of(simple, rows, n);
    check_around(0, 1);
    if (yes != (uint64_t)want) wrong("another row check of structs");
    add(&yes, sizeof yes);
    tally(ROW_CHECK_OF, yes, 0);
}

/* ---- the reader */

enum { LONGEST = 1 << 13, MOST_NUMBERS = 1 << 11, POOL = 64 };

typedef struct {
    uint8_t bytes[LONGEST];
    uint64_t numbers[MOST_NUMBERS + 1];
    size_t n, m;
    uint64_t kind, word, functions;
} section;
static section pool[POOL], damaged;
static size_t pooled;

static void check_reading(const unwind_reading *r) {
    uint64_t all = r->frame | r->frame_register | r->frame_offset | r->rule | r->rule_value | r->signing | r->shortest;
    if (r->number ? all != 0 : r->frame > 1 || r->rule > 4 || r->signing > 1 || r->shortest > 1) wrong("a reading with a field that has no meaning");
    if (!r->frame && (r->frame_register || r->frame_offset)) wrong("a frame address without a rule");
    if (r->frame_register > 65535 || (r->rule != 2 && r->rule_value > (r->rule == 4 ? 65535 : 0))) wrong("a rule that cannot be");
}

static uint64_t ask(const section *s, uint64_t kind, uint64_t width, uint64_t k, uint64_t reg, uint64_t p) {
    const uint8_t *bytes = hand(0, s->bytes, s->n);
    const uint64_t *numbers = hand(1, s->numbers, 8 * s->m);
    calls++;
    unwind_reading r = unwind_read(bytes, s->n, numbers, s->m, kind, width, k, (uint16_t)reg, p);
    check_around(0, 2);
    check_reading(&r);
    add(&r, sizeof r);
    tally(READ, r.number, 0);
    return r.number;
}

/* The section that was kept, for the reader; none where it is too long. */
static section *pool_kept(void) {
    section *s = &pool[pooled % POOL];
    if (kept.elements[1] > LONGEST || kept.elements[2] > MOST_NUMBERS) return NULL;
    s->n = kept.elements[1];
    s->m = kept.elements[2];
    memcpy(s->bytes, kept.results[1], s->n);
    memcpy(s->numbers, kept.results[2], 8 * s->m);
    s->kind = entry == DEBUG_FRAME;
    s->word = lists[MACHINE].at[0];
    s->functions = records(FUNCTIONS);
    pooled++;
    return s;
}

/* What was written is read: the read-back theorem, and 62 and 65 where there is nothing to read. */
static void read_back(const section *s) {
    uint64_t k = below(s->functions + chance(10)), p = below(3) ? below(64) : PICK(LENGTHS);
    const uint64_t *f = lists[FUNCTIONS].at + 18 * k;
    int inside = k < s->functions;
    if (inside && f[14]) return;
    if (inside && f[1] && chance(70)) p = f[1] < 64 || chance(50) ? below(f[1]) : below(64);
    int yes = inside && row_check(k);
    uint64_t number = ask(s, s->kind, s->word, k, PICK(REGISTERS), p);
    uint64_t want = !inside ? 62 : p >= f[1] ? 65 : 0;
    if (want || yes ? number != want : number && (number < 67 || number > 69)) wrong("what was written is not read back");
}

static void damage_relocations(section *s) {
    uint64_t how = below(5), *n = &s->numbers[below(s->m + 1)];
    if (how == 0 || s->m == 0) {
        for (int j = 0; j < 5 && s->m < MOST_NUMBERS; j++) s->numbers[s->m++] = chance(50) ? below(40) : any();
    } else if (how == 1) s->m -= 1 + below(s->m);
    else if (how == 2) *n = PICK(ODD);
    else *n += chance(50) ? 4 : UINT64_MAX - 3;
}

/* Bytes are taken out at a place and others put in, those of another section or any; as many, often, so that the lengths tile. */
static void splice(section *s) {
    const section *from = &pool[below(pooled < POOL ? pooled : POOL)];
    size_t at = below(s->n + 1), out = below(s->n - at + 1), in = chance(50) ? below(9) : below(from->n + 1);
    if (chance(60)) out = in < s->n - at ? in : s->n - at;
    if (s->n - out + in > LONGEST) return;
    memmove(s->bytes + at + in, s->bytes + at + out, s->n - at - out);
    for (size_t i = 0; i < in; i++) s->bytes[at + i] = in <= from->n ? from->bytes[from->n - in + i] : (uint8_t)any();
    s->n = s->n - out + in;
}

/* Where some entry starts, found by the lengths as far as they go. */
static size_t some_entry(const section *s) {
    size_t at = 0;
    while (at + 4 <= s->n && chance(70)) {
        uint32_t n;
        memcpy(&n, s->bytes + at, 4);
        if (n > s->n - at - 4 || at + 4 + n >= s->n) break;
        at += 4 + n;
    }
    return at;
}

/* An entry's length changed a little, or to one at the limits. */
static void change_length(section *s) {
    static const uint32_t limits[] = {0, 3, 4, UINT32_MAX, UINT32_MAX - 3, 1u << 31};
    size_t at = some_entry(s);
    uint32_t n;
    if (at + 4 > s->n) return;
    memcpy(&n, s->bytes + at, 4);
    n = chance(30) ? PICK(limits) : n + (uint32_t)below(9) - 4;
    memcpy(s->bytes + at, &n, 4);
}

/* A byte of an entry's, past its length and often past its fixed fields. */
static uint8_t *some_byte(section *s) {
    size_t at = some_entry(s) + (chance(70) ? 16 : 4), n = s->n - 1;
    at += below(24);
    return &s->bytes[at < n ? at : below(s->n)];
}

static void damage_section(section *s) {
    static const uint8_t operations[] = {0x00, 0x01, 0x02, 0x03, 0x04, 0x05, 0x06, 0x07, 0x08, 0x09, 0x0a, 0x0b, 0x0c, 0x0d, 0x0e,
        0x0f, 0x10, 0x11, 0x12, 0x13, 0x14, 0x16, 0x2d, 0x2e, 0x3f, 0x40, 0x7f, 0x80, 0xbf, 0xc0, 0xff};
    uint64_t how = below(100);
    uint8_t *byte = s->n ? some_byte(s) : s->bytes;
    if (how < 10) damage_relocations(s);
    else if (how < 14 || s->n == 0) splice(s);
    else if (how < 17) change_length(s);
    else if (how < 20) s->n -= chance(50) ? 1 : below(s->n + 1);
    else if (how < 55) *byte ^= (uint8_t)(1 << below(8));
    else if (how < 65) *byte = (uint8_t)any();
    else *byte = PICK(operations);
}

/* A section of the pool, damaged, or random bytes; a question about it. */
static void read_damaged(void) {
    const section *from = &pool[below(pooled < POOL ? pooled : POOL)];
    damaged.n = from->n;
    damaged.m = from->m;
    memcpy(damaged.bytes, from->bytes, from->n);
    memcpy(damaged.numbers, from->numbers, 8 * from->m);
    if (chance(3)) {
        damaged.n = below(65);
        for (size_t i = 0; i < damaged.n; i++) damaged.bytes[i] = chance(50) ? 0 : (uint8_t)any();
    }
    do damage_section(&damaged);
    while (chance(40));
    uint64_t kind = chance(97) ? from->kind : PICK(ODD), width = chance(97) ? from->word : PICK(ODD);
    uint64_t k = chance(90) ? below(from->functions) : PICK(ODD), p = chance(80) ? below(64) : chance(50) ? PICK(LENGTHS) : any();
    ask(&damaged, kind, width, k, chance(90) ? PICK(REGISTERS) : any(), p);
}

/* ---- the reader of ARM64 unwind data */

enum { MOST_INFO = 1 << 13, MOST_READ = 1 << 12 };

/* The entry's word with a record at a place of the info, into lists of these sizes. */
static unwind_arm64_reading ask_arm64(uint64_t entry_word, const uint8_t *bytes, size_t n, uint64_t at, size_t es, size_t cs) {
    const uint8_t *info = hand(0, bytes, n);
    uint64_t *epilogues = lend(PLACES, 8 * es), *codes = lend(PLACES + 1, 8 * cs);
    calls++;
    unwind_arm64_reading r = unwind_read_arm64(entry_word, info, n, at, epilogues, es, codes, cs);
    check_around(0, 1);
    check_around(PLACES, PLACES + 2);
    if (r.number && (r.length | r.prologue | r.epilogues | r.codes)) wrong("a refusal with counts");
    if (3 * r.epilogues > es || 3 * r.codes > cs || r.prologue > r.codes) wrong("more results than room");
    if (!untouched(PLACES, 24 * r.epilogues) || !untouched(PLACES + 1, 24 * r.codes)) wrong("a lent list changed past the results");
    add(&r, sizeof r);
    tally(READ_ARM64, r.number, 0);
    return r;
}

/* What was written is read: the length, the starts, and as many codes as were given. Then it is damaged, and read. */
static void read_arm64(void) {
    size_t k = below(records(FUNCTIONS)), n = kept.elements[3];
    const uint64_t *f = lists[FUNCTIONS].at + 6 * k;
    uint64_t marker;
    uint32_t entry_word;
    memcpy(&marker, kept.results[0] + 8 * k, 8);
    memcpy(&entry_word, kept.results[1] + 8 * k + 4, 4);
    if (n > MOST_INFO || f[3] + f[5] > MOST_READ) return;
    uint64_t at = marker == UINT64_MAX ? 0 : marker, held = f[3];
    for (uint64_t i = 0; i < f[5]; i++) held += lists[EPILOGUES].at[3 * (f[4] + i) + 2];
    unwind_arm64_reading r = ask_arm64(entry_word, kept.results[3], n, at, 3 * f[5], 3 * held);
    if (r.number || r.length != f[1] || r.prologue != f[3] || r.epilogues != f[5] || r.codes != held) wrong("what was written is not read back");
    for (uint64_t i = 0; i < f[5]; i++) {
        const uint64_t *given_one = lists[EPILOGUES].at + 3 * (f[4] + i), *found = (const uint64_t *)(const void *)slots[PLACES].at + 3 * i;
        if (found[0] != given_one[0] || found[2] != given_one[2]) wrong("an epilogue is not read back");
    }
    static uint8_t bytes[MOST_INFO];
    memcpy(bytes, kept.results[3], n);
    for (int i = 0; i < 3; i++) {
        if (n) bytes[(at + below(24)) % n] = (uint8_t)any();
        uint32_t other = chance(70) ? entry_word : (uint32_t)any();
        ask_arm64(chance(95) ? other : any(), bytes, chance(80) ? n : below(n + 1), chance(90) ? at : PICK(ODD), below(3 * f[5] + 9), below(3 * held + 60));
    }
}

/* ---- all of it */

static void turn(void) {
    size_t room[4];
    make_case();
    ample(room);
    unwind_written w = written(room);
    if (w.number == 0 && w.places) {
        keep(&w);
        write_again();
        write_again();
        if (entry == ELF || entry == DEBUG_FRAME) {
            const section *s = pool_kept();
            for (int i = 0; s && i < 3; i++) read_back(s);
        }
        if (entry == ARM64) read_arm64();
    } else if (entry != SEH && entry != ARM64) row_check(chance(90) ? below(records(FUNCTIONS) + 1) : PICK(ODD));
    for (int i = 0; pooled && i < 4; i++) read_damaged();
    if (entry == SEH || entry == ARM64) return;
    make_structs();
    for (int key = FUNCTIONS; key <= ROWS; key++) pack(key);
    check_structs();
    write_structs();
}

static void print_counts(void) {
    for (int e = 0; e < ENTRIES; e++) {
        uint64_t all = 0;
        for (int n = 0; n < KNOWN; n++) all += counts[e][n];
        printf("%s: %" PRIu64 " calls:", ENTRY[e], all);
        int check = e == ROW_CHECK || e == ROW_CHECK_OF;
        const char *first = e == READ || e == READ_ARM64 ? "answered" : check ? "no" : "accepted", *between = "";
        for (int n = 0; n < KNOWN; n++) {
            if (!counts[e][n]) continue;
            if (n == 0) printf("%s %s", between, first);
            else if (n == EMPTY) printf("%s empty", between);
            else if (check) printf("%s yes", between);
            else printf("%s refused %d", between, n);
            printf(" %" PRIu64, counts[e][n]);
            between = ",";
        }
        printf("\n");
    }
    printf("fuzz: %" PRIu64 " calls by seed %" PRIu64 ", nothing wrong; sum %016" PRIx64 "\n", calls, seed, sum);
}

int main(int n, char **words) {
    wanted = n > 1 ? strtoull(words[1], NULL, 10) : 20000;
    seed = state = n > 2 ? strtoull(words[2], NULL, 10) : 1;
    signal(SIGSEGV, stopped);
    signal(SIGBUS, stopped);
    signal(SIGILL, stopped);
    signal(SIGFPE, stopped);
    signal(SIGALRM, stopped);
    open_slots();
    while (calls < wanted) {
        /* A call that does not end is stopped. */
        alarm(60);
        turn();
    }
    print_counts();
    return 0;
}

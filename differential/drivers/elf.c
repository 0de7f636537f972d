/* Reads ELF files, and prints what the exports say of them.
 *
 * A line of the input: PATH, then how many bytes of the file are kept (- for all), then OFFSET:XOR for each byte that is changed. The
 * answers of a file end with a line of a dot.
 *
 *     elf list PATH     lists the sections of one file, for time
 */
#include <fcntl.h>
#include <inttypes.h>
#include <stdio.h>
#include <stdlib.h>
#include <string.h>
#include <sys/mman.h>
#include <sys/stat.h>
#include <unistd.h>

#include "../../include/dekvoz.h"

enum { SYMTAB = 2, RELA = 4, NOTE_SECTION = 7, REL = 9, DYNSYM = 11, NOTE_SEGMENT = 4, FUNC = 2, RELOCATABLE = 1 };

static const uint8_t *file;
static size_t size;

static void say(const char *key, const uint64_t *numbers, size_t bytes) {
    printf("%s", key);
    for (size_t i = 0; i < bytes / sizeof *numbers; i++) printf(" %" PRIu64, numbers[i]);
    printf("\n");
}

#define SAY(key, answer) say(key, (const uint64_t *)&(answer), sizeof(answer))

static void notes(uint64_t place, uint64_t length, uint64_t align) {
    uint64_t end = place + length;
    for (;;) {
        unwind_elf_note_read n = unwind_elf_note(file, size, place, end, align);
        SAY("note", n);
        if (n.number) return;
        unwind_elf_note_read same = unwind_elf_note_named(file, size, place, end, align, file + n.name, n.name_length, n.kind);
        if (memcmp(&n, &same, sizeof n)) printf("note %" PRIu64 " is not the first of its name and kind\n", place);
        place = n.next;
    }
}

/* The function at a symbol's first and last byte and behind it. */
static void functions(uint64_t table, const unwind_elf_symbol_read *s, uint64_t kind) {
    uint64_t section = kind == RELOCATABLE ? s->section : 0, places[] = {s->value, s->value + s->size - 1, s->value + s->size};
    for (int i = 0; i < 3; i++) {
        unwind_elf_symbol_read f = unwind_elf_symbol_at(file, size, table, section, places[i]);
        printf("at %" PRIu64 " %" PRIu64 " %" PRIu64 "\n", f.number, f.at, f.index);
    }
}

/* Some two hundred entries of a table, and one past the last; of the functions some eight. */
static void entries(const unwind_elf_section_read *t, uint64_t kind) {
    uint64_t count = t->entry_size ? t->length / t->entry_size : 0, step = count / 200 + 1, asked = 0;
    for (uint64_t i = 0; i <= count; i = i < count && i + step > count ? count : i + step) {
        if (t->kind == RELA || t->kind == REL) {
            unwind_elf_relocation_read r = unwind_elf_relocation(file, size, t->index, i);
            SAY("relocation", r);
            if (r.number) return;
            continue;
        }
        unwind_elf_symbol_read s = unwind_elf_symbol(file, size, t->index, i);
        SAY("symbol", s);
        if (s.number && s.number != 104) return;
        if (s.number == 0 && s.kind == FUNC && asked++ % 25 == 0) functions(t->index, &s, kind);
    }
}

static void sections(uint64_t kind) {
    unwind_elf_sections_read t = unwind_elf_sections(file, size);
    SAY("sections", t);
    uint64_t count = t.count < 200000 ? t.count : 200000;
    for (uint64_t i = 0; i <= count; i++) {
        unwind_elf_section_read s = unwind_elf_section(file, size, i);
        SAY("section", s);
        if (s.number) continue;
        if (count < 300) {
            unwind_elf_section_read named = unwind_elf_section_named(file, size, file + s.name, s.name_length);
            printf("named %" PRIu64 " %" PRIu64 " %" PRIu64 "\n", named.number, named.at, named.index);
        }
        if (s.kind == NOTE_SECTION) notes(s.place, s.length, s.align);
        if (s.kind == SYMTAB || s.kind == DYNSYM || s.kind == RELA || s.kind == REL) entries(&s, kind);
    }
}

static void segments(void) {
    unwind_elf_segments_read t = unwind_elf_segments(file, size);
    SAY("segments", t);
    for (uint64_t i = 0; i <= t.count && i <= 70000; i++) {
        unwind_elf_segment_read s = unwind_elf_segment(file, size, i);
        SAY("segment", s);
        if (s.number == 0 && s.kind == NOTE_SEGMENT && s.length) notes(s.place, s.length, s.align);
    }
}

static void all(void) {
    unwind_elf_header_read h = unwind_elf_header(file, size);
    SAY("header", h);
    sections(h.kind);
    segments();
    printf(".\n");
}

static uint8_t *open_file(const char *path, size_t *whole) {
    struct stat s;
    int fd = open(path, O_RDONLY);
    if (fd < 0 || fstat(fd, &s)) exit(3);
    *whole = (size_t)s.st_size;
    uint8_t *bytes = *whole ? mmap(NULL, *whole, PROT_READ | PROT_WRITE, MAP_PRIVATE, fd, 0) : NULL;
    if (bytes == MAP_FAILED) exit(3);
    close(fd);
    return bytes;
}

/* So many bytes in front of a page that cannot be read, and their pages. */
static uint8_t *guarded(size_t n, uint8_t **pages, size_t *all) {
    size_t page = (size_t)sysconf(_SC_PAGESIZE), held = (n + page - 1) / page * page;
    *all = held + page;
    *pages = mmap(NULL, *all, PROT_READ | PROT_WRITE, MAP_PRIVATE | MAP_ANONYMOUS, -1, 0);
    if (*pages == MAP_FAILED || mprotect(*pages + held, page, PROT_NONE)) exit(3);
    return *pages + held - n;
}

static void list(const char *path) {
    uint8_t *bytes = open_file(path, &size);
    file = bytes;
    unwind_elf_sections_read t = unwind_elf_sections(file, size);
    for (uint64_t i = 0; i < t.count; i++) {
        unwind_elf_section_read s = unwind_elf_section(file, size, i);
        printf("[%2" PRIu64 "] %-20.*s %" PRIu64 " %016" PRIx64 " %06" PRIx64 " %06" PRIx64 "\n", i, (int)s.name_length, file + s.name, s.kind,
            s.address, s.place, s.size);
    }
}

int main(int argc, char **argv) {
    if (argc == 3 && strcmp(argv[1], "list") == 0) {
        list(argv[2]);
        return 0;
    }
    char *line = NULL;
    size_t room = 0;
    while (getline(&line, &room, stdin) != -1) {
        size_t whole, held = 0;
        uint8_t *pages = NULL;
        char *path = strtok(line, "\t\n"), *kept = strtok(NULL, "\t\n");
        if (path == NULL) continue;
        uint8_t *bytes = open_file(path, &whole);
        size = kept && *kept != '-' ? strtoull(kept, NULL, 10) : whole;
        uint8_t *copy = kept && *kept != '-' ? guarded(size, &pages, &held) : bytes;
        if (pages && size) memcpy(copy, bytes, size);
        for (char *edit; kept && (edit = strtok(NULL, "\t\n")) != NULL;) {
            char *mask = strchr(edit, ':');
            copy[strtoull(edit, NULL, 10)] ^= (uint8_t)strtoul(mask + 1, NULL, 10);
        }
        file = copy;
        all();
        if (pages) munmap(pages, held);
        if (whole) munmap(bytes, whole);
    }
    free(line);
    return 0;
}

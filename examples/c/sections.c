/* An ELF file's sections, its build id, and the function at an address.
 *
 *     bindings/archive
 *     gcc -O2 -Wall -Wextra -Werror -o target/sections examples/c/sections.c target/lib/libdekvoz.a
 *     target/sections FILE [ADDRESS]
 */
#include <inttypes.h>
#include <stdio.h>
#include <stdlib.h>
#include <string.h>

#include "../../include/dekvoz.h"

enum { SYMTAB = 2, DYNSYM = 11, NT_GNU_BUILD_ID = 3 };

static uint8_t *file;
static size_t size;

static int refused(const char *what, uint64_t number, uint64_t at) {
    fprintf(stderr, "%s: refused by %" PRIu64 " at byte %" PRIu64 " of the file\n", what, number, at);
    return 1;
}

static int read_file(const char *path) {
    FILE *in = fopen(path, "rb");
    if (in == NULL || fseek(in, 0, SEEK_END)) return 1;
    long end = ftell(in);
    file = end > 0 ? (uint8_t *)malloc((size_t)end) : NULL;
    rewind(in);
    if (file) size = fread(file, 1, (size_t)end, in);
    fclose(in);
    return 0;
}

static int sections(uint64_t *symbols) {
    unwind_elf_sections_read table = unwind_elf_sections(file, size);
    if (table.number) return refused("sections", table.number, table.at);
    for (uint64_t i = 0; i < table.count; i++) {
        unwind_elf_section_read s = unwind_elf_section(file, size, i);
        if (s.number) return refused("a section", s.number, s.at);
        printf("%3" PRIu64 " %-20.*s %8" PRIx64 " %8" PRIx64 "%s\n", i, (int)s.name_length, (const char *)file + s.name, s.address,
            s.size, s.compressed ? " compressed" : "");
        if (s.kind == SYMTAB || (s.kind == DYNSYM && *symbols == 0)) *symbols = i;
    }
    return 0;
}

static void build_id(void) {
    static const char name[] = ".note.gnu.build-id";
    unwind_elf_section_read s = unwind_elf_section_named(file, size, (const uint8_t *)name, strlen(name));
    if (s.number) return;
    unwind_elf_note_read n = unwind_elf_note_named(file, size, s.place, s.place + s.length, s.align, (const uint8_t *)"GNU", 3, NT_GNU_BUILD_ID);
    printf("build id ");
    for (uint64_t i = 0; i < n.text_length; i++) printf("%02x", file[n.text + i]);
    printf("\n");
}

int main(int argc, char **argv) {
    uint64_t symbols = 0;
    if (argc < 2 || read_file(argv[1])) return 2;
    if (sections(&symbols)) return 1;
    build_id();
    if (argc > 2) {
        uint64_t address = strtoull(argv[2], NULL, 0);
        unwind_elf_symbol_read f = unwind_elf_symbol_at(file, size, symbols, 0, address);
        if (f.number) return refused("the function", f.number, f.at);
        printf("%.*s+%" PRIu64 "\n", (int)f.name_length, (const char *)file + f.name, address - f.value);
    }
    free(file);
    return 0;
}

/* A call of a writer of DWARF or COFF, to be made by numbers and by structs. */
#include <stddef.h>
#include <stdint.h>

typedef struct {
    int debug;
    const uint64_t *machine;
    size_t machine_n;
    uint64_t format;
    /* Functions, rows, landings, pairs, as numbers. */
    const uint64_t *at[4];
    size_t n[4];
    /* Of places, bytes, relocations and sites. */
    size_t room[4];
} structs_case;

extern uint64_t structs_compared, structs_passed_over;

/* What the entries over structs say that those over numbers do not, or NULL. */
const char *structs_differ(const structs_case *c);

/* Unwind tables: the writers of ELF's eh_frame and debug_frame and of Windows unwind data for x64 and for ARM64, the row check, the
 * reader of the DWARF sections, the walk over a recorded fault, the reader of call sites, the readers of Windows unwind data, and the
 * reader of ELF files.
 *
 * Every function takes every input: a refusal comes back as the number of the question that was answered by no (of an ELF file: 101 to
 * 109, below), and every lent buffer is then as it was; unwind_walk_found alone then stores the frames that it found. An accepted call
 * leaves what lies past its results as it was. No input is changed.
 *
 * A call of a writer of DWARF takes about 300 KB of stack.
 *
 * What the caller owes, and no contract can say: each pointer is valid for its count of elements and aligned while the call
 * lasts, and no lent buffer overlaps another or an input. An empty slice may come as a null pointer with the count 0. */
#ifndef DEKVOZ_H
#define DEKVOZ_H

#include <stddef.h>
#include <stdint.h>

#ifdef __cplusplus
extern "C" {
#endif

/* The lists are slices of 64-bit numbers; an incomplete last record of a list is no record.
 *
 *   machine      70: word (2, 4 or 8), pushed bytes, stack pointer, return address, frame pointer (65,536: none), 0, then what
 *                    each of DWARF 0 to 63 maps to (below 128 an integer register, below 255 vector register n - 128, 255
 *                    none). Of more than 70 numbers the first 70 count
 *   functions    18: symbol, length, rows_at, rows, landings_at, landings, simple, signal, personality, its encoding,
 *                    its symbol, lsda, its encoding, its symbol, relaxed, end symbol, pairs_at, pairs. Marks are 0 or 1; of
 *                    an absent option (personality, lsda, relaxed) the numbers behind its mark are not looked at
 *   rows          4: offset, kind, register, operand: an offset (32-bit two's complement), or the other register of InRegister
 *                    (0 to 65,535). Kinds: 0 DefCfa, 1 DefCfaOffset, 2 DefCfaRegister, 3 Offset, 4 Restore, 5 Undefined,
 *                    6 RememberState, 7 RestoreState, 8 NegateRaState, 9 SameValue, 10 InRegister
 *   landings      3: start, length, pad
 *   pairs         4: first place, second place, first symbol, second symbol
 *   functions of direct codes   5: symbol, length, prologue end, codes_at, codes
 *   codes         5: offset, kind (0 Push, 1 Alloc, 2 Frame, 3 Save), register, vector mark, value (64-bit two's complement)
 *   functions of ARM64   6: symbol, length, prologue_at, prologue, epilogues_at, epilogues
 *   epilogues of ARM64   3: start, codes_at, codes
 *   codes of ARM64       3: kind, register, offset; unwind_arm64_code has the kinds
 *   relocations   5: place, symbol, kind, size, addend. Kinds: 0 Data, 1 Address, 2 Sum plus, 3 Sum minus, 4 Image,
 *                    5 to 12 Set6, Sub6, Set8, Sub8, Set16, Sub16, Set32, Sub32
 *
 * An operand that a row's or a code's kind does not have is 0. Symbols of the caller are 16 to 2^32 - 1; in relocations 0 is
 * the personality reference, 1 the table of call sites, 2 .debug_frame, and 2^32 + s the marker of s.
 * Formats: 0 ELF, 1 COFF, 2 Mach-O (read, and not written any more), 3 Wasm, 4 Plan 9.
 *
 * The questions, by the number of a no:
 *   11 machine, format, kind or word   12 x64, walk: word is 8   13 counts, ranges, symbols, and numbers that their fields hold
 *   21 length fits its field   22 encodings   23 no row goes back or steps above 2^32 - 1   24 offsets are multiples of word
 *   25 a pair's places differ
 *   31 frame pointer set after the frame is taken   32 frame not counted from a scratch register   33 group readable
 *   34 registers below 16   35 offsets to 255   36 allocation positive, a multiple of 8   37 below 2^32   38 save not below the
 *   frame   39 below 2^32   40 slots to 255   41 frame offset 0 to 240, a multiple of 16
 *   51 places or markers fit   52 bytes   53 relocations   54 call sites or Windows info; structs: the list for numbers; readers of
 *   Windows unwind data: the lists for codes and epilogues; index: the list for places; walk: the list for
 *   frames; the rules along a record: the list for lines
 *   61 lengths tile   62 record k   63 its header   64 fields of both   65 p below the length   66 operations
 *   67 a state to restore, no Restore in a header   68 at most 16 states stored   69 a frame address rule to change
 *   71 a table of call sites: place inside, head ff ff 01, its length readable and to the end   72 its entries: complete, readable,
 *   start plus length below 2^64
 *   73 a recorded fault: 16 to 65,536 bytes, and its trailer matches   74 stack words inside the record, address sums inside 64 bits
 *   75 needed registers are there, and each frame has an address rule
 *   76 x64 header: version 1, no flags, all four bytes and all slots there   77 x64 codes: complete, operations that unwind_seh writes
 *   ARM64: 76 a record: version 0, no part past the end   77 the flag and the packed word are defined; codes: complete, each run ended,
 *   of the kinds below; an epilogue at the end is not longer than the function
 *   78 eh_frame of a format that is written: not Mach-O
 *   79 relocations of the writers' kinds and sizes, with their partners and addresses, fields inside, values that fit
 *   80 the distance of a Set and Sub pair fits
 *   ARM64, written: 81 the length is whole instructions, at most 2^18 - 1   82 each epilogue starts at an instruction below the length
 *   83 every register and offset is one that its code can name, and every count fits its field
 *   84 each record's length lies inside its entry, and the reader answers at every offset below it */

/* Some of these numbers by name; parameters and fields are 64-bit numbers nevertheless. */
enum unwind_format { UNWIND_ELF = 0, UNWIND_COFF = 1, UNWIND_MACH_O = 2, UNWIND_WASM = 3, UNWIND_PLAN_9 = 4 };
enum unwind_kind { UNWIND_EH_FRAME = 0, UNWIND_DEBUG_FRAME = 1 };
enum unwind_rule { UNWIND_UNSTATED = 0, UNWIND_UNDEFINED = 1, UNWIND_SAVED = 2, UNWIND_SAME_VALUE = 3, UNWIND_IN_REGISTER = 4 };
enum unwind_ending { UNWIND_RETURN_UNDEFINED = 1, UNWIND_HELD_BY_NONE = 2, UNWIND_TOO_MANY = 3 };
enum unwind_row_kind {
    UNWIND_ROW_DEF_CFA = 0, UNWIND_ROW_DEF_CFA_OFFSET = 1, UNWIND_ROW_DEF_CFA_REGISTER = 2, UNWIND_ROW_OFFSET = 3,
    UNWIND_ROW_RESTORE = 4, UNWIND_ROW_UNDEFINED = 5, UNWIND_ROW_REMEMBER_STATE = 6, UNWIND_ROW_RESTORE_STATE = 7,
    UNWIND_ROW_NEGATE_RA_STATE = 8, UNWIND_ROW_SAME_VALUE = 9, UNWIND_ROW_IN_REGISTER = 10, UNWIND_ROW_NOP = 16, UNWIND_ROW_STEP = 17
};
/* What an unwind code of ARM64 stands for: an instruction of a prologue, or in an epilogue the one that undoes it. */
enum unwind_arm64_code {
    UNWIND_ARM64_ALLOC = 0,      /* sub sp, sp, offset */
    UNWIND_ARM64_R19R20X = 1,    /* stp x19, x20, [sp, -offset]! */
    UNWIND_ARM64_FPLR = 2,       /* stp x29, lr, [sp, offset] */
    UNWIND_ARM64_FPLRX = 3,      /* stp x29, lr, [sp, -offset]! */
    UNWIND_ARM64_REGP = 4,       /* stp register, the next, [sp, offset] */
    UNWIND_ARM64_REGPX = 5,      /* stp register, the next, [sp, -offset]! */
    UNWIND_ARM64_REG = 6,        /* str register, [sp, offset] */
    UNWIND_ARM64_REGX = 7,       /* str register, [sp, -offset]! */
    UNWIND_ARM64_LRPAIR = 8,     /* stp register, lr, [sp, offset] */
    UNWIND_ARM64_FREGP = 9,      /* stp d, the next d, [sp, offset] */
    UNWIND_ARM64_FREGPX = 10,    /* stp d, the next d, [sp, -offset]! */
    UNWIND_ARM64_FREG = 11,      /* str d, [sp, offset] */
    UNWIND_ARM64_FREGX = 12,     /* str d, [sp, -offset]! */
    UNWIND_ARM64_SET_FP = 13,    /* mov x29, sp */
    UNWIND_ARM64_ADD_FP = 14,    /* add x29, sp, offset */
    UNWIND_ARM64_NOP = 15,       /* an instruction that the unwinder passes over */
    UNWIND_ARM64_SAVE_NEXT = 16, /* the pair two registers on from the pair before, 16 bytes up */
    UNWIND_ARM64_PAC_SIGN_LR = 17 /* pacibsp */
};
enum unwind_question {
    UNWIND_QUESTION_INTERFACE = 11, UNWIND_QUESTION_X64_WORD = 12, UNWIND_QUESTION_LISTS = 13, UNWIND_QUESTION_LENGTH = 21,
    UNWIND_QUESTION_ENCODINGS = 22, UNWIND_QUESTION_ORDER = 23, UNWIND_QUESTION_MULTIPLES = 24, UNWIND_QUESTION_PAIRS = 25,
    UNWIND_QUESTION_FRAME_FIRST = 31, UNWIND_QUESTION_SCRATCH = 32, UNWIND_QUESTION_GROUP = 33,
    UNWIND_QUESTION_REGISTERS = 34, UNWIND_QUESTION_CODE_OFFSET = 35, UNWIND_QUESTION_ALLOCATION = 36,
    UNWIND_QUESTION_ALLOCATION_SIZE = 37, UNWIND_QUESTION_SAVE_BELOW = 38, UNWIND_QUESTION_SAVE_SIZE = 39,
    UNWIND_QUESTION_SLOTS = 40, UNWIND_QUESTION_FRAME_OFFSET = 41, UNWIND_QUESTION_PLACES_ROOM = 51,
    UNWIND_QUESTION_BYTES_ROOM = 52, UNWIND_QUESTION_RELOCATIONS_ROOM = 53, UNWIND_QUESTION_OTHER_ROOM = 54,
    UNWIND_QUESTION_TILING = 61, UNWIND_QUESTION_RECORD = 62, UNWIND_QUESTION_HEADER = 63, UNWIND_QUESTION_FIELDS = 64,
    UNWIND_QUESTION_OFFSET = 65, UNWIND_QUESTION_OPERATIONS = 66, UNWIND_QUESTION_STATES = 67,
    UNWIND_QUESTION_STATES_ROOM = 68, UNWIND_QUESTION_FRAME_RULE = 69, UNWIND_QUESTION_CALL_SITE_TABLE = 71,
    UNWIND_QUESTION_CALL_SITES = 72, UNWIND_QUESTION_RECORDED = 73, UNWIND_QUESTION_STACK = 74,
    UNWIND_QUESTION_REACHED = 75, UNWIND_QUESTION_X64_HEADER = 76, UNWIND_QUESTION_X64_CODES = 77,
    UNWIND_QUESTION_MACH_O = 78, UNWIND_QUESTION_RELOCATIONS = 79, UNWIND_QUESTION_DISTANCE = 80, UNWIND_QUESTION_ARM64_LENGTH = 81,
    UNWIND_QUESTION_ARM64_EPILOGUES = 82, UNWIND_QUESTION_ARM64_VALUES = 83, UNWIND_QUESTION_EVERY_OFFSET = 84
};

/* What is wrong where a question is answered by no, in words: for a message. NULL where no question has that number, so of 0 and of the
 * numbers of ELF files (101 to 109), too. */
static inline const char *unwind_question_words(uint64_t question) {
    switch (question) {
    case 11: return "the machine, format, section kind or word is none that is known";
    case 12: return "x64 unwind data and the walk ask for words of 8 bytes";
    case 13: return "there are more functions or records than allowed, a range outside its list, or a number that its field does not hold";
    case 21: return "the function's length does not fit its field";
    case 22: return "an encoding of personality or LSDA is none that can be written";
    case 23: return "a row goes back, or steps above 2^32 - 1";
    case 24: return "an offset is no multiple of the word";
    case 25: return "the two places of a pair are the same";
    case 31: return "the frame pointer is set before the frame is taken";
    case 32: return "the frame is counted from a scratch register";
    case 33: return "a group of rows cannot be read as prologue codes";
    case 34: return "a register is none of the machine's below 16";
    case 35: return "a code's offset, or the prologue's end, is above 255";
    case 36: return "an allocation is not positive, or no multiple of 8";
    case 37: return "an allocation is 2^32 or more";
    case 38: return "a register is saved below the frame";
    case 39: return "a register is saved at 2^32 or above";
    case 40: return "there are more than 255 slots";
    case 41: return "the frame's offset is above 240, or no multiple of 16";
    case 51: return "the header places or markers do not fit their buffer";
    case 52: return "the bytes do not fit their buffer";
    case 53: return "the relocations do not fit their buffer";
    case 54: return "the call sites, the x64 or ARM64 info, codes, numbers, places, frames or lines do not fit their buffer, or the numbers' is not zero so far";
    case 61: return "no entry fits what is left of the section";
    case 62: return "there is no such record";
    case 63: return "the record names no header (CIE) that starts earlier in the section";
    case 64: return "a field of header or record is cut off, or not one that these tables have";
    case 65: return "the offset is not below the function's length";
    case 66: return "an operation is cut off, or not one that these tables use";
    case 67: return "a state is restored that was not stored, or a register in a header";
    case 68: return "more than 16 states are stored";
    case 69: return "the frame address (CFA) rule is changed where there is none";
    case 71: return "no table of call sites with the head ff ff 01 stands there, or it is cut off";
    case 72: return "an entry of the table of call sites is cut off, or its end is above 2^64 - 1";
    case 73: return "the file is no recorded fault of 16 to 65,536 bytes with a trailer that matches";
    case 74: return "a stack word lies outside the record, or an address sum outside 64 bits";
    case 75: return "a register that is needed is lost or absent, or a frame has no address (CFA) rule";
    case 76: return "no x64 record of version 1 without flags, or ARM64 record of version 0, stands there, or it is cut off";
    case 77: return "an x64 or ARM64 code is cut off, or not one that these tables use; or an ARM64 entry's word is not defined";
    case 78: return "eh_frame of Mach-O is not written any more";
    case 79: return "a relocation is of no kind or size that is written, lacks its partner or address, or its field or value does not fit";
    case 80: return "the distance of a Set and Sub pair does not fit its field";
    case 81: return "the length of an ARM64 function is not whole instructions, or more than 262143 of them";
    case 82: return "an ARM64 epilogue starts off an instruction, or not below the function's length";
    case 83: return "a register or offset of an ARM64 code is none that it can name, or a count is too large for its field";
    case 84: return "a record's length is cut off, or it cannot be read at some offset below its length";
    default: return NULL;
    }
}

/* The ready x86-64 (System V psABI) at the front of a lent list of 70 numbers or more: 0, or 54 where there are fewer, and the list
 * is then as it was. */
uint64_t unwind_machine_x86_64(uint64_t *machine, size_t machine_n);
/* The same of AArch64, ARM of 32 bits, and RISC-V of 64 and 32 bits: their psABIs' numbers of stack pointer, return address and
 * frame pointer, and the integer registers 0 to 31 (ARM: to 15) by DWARF's numbers. */
uint64_t unwind_machine_aarch64(uint64_t *machine, size_t machine_n);
uint64_t unwind_machine_arm(uint64_t *machine, size_t machine_n);
uint64_t unwind_machine_riscv64(uint64_t *machine, size_t machine_n);
uint64_t unwind_machine_riscv32(uint64_t *machine, size_t machine_n);

/* What a writer answers. `number` is 0 where the call was accepted, and where the result is empty: of an empty list, Wasm,
 * Plan 9, and debug_frame in any format but ELF. Else it is the question's, and `position` is the function's, from 0 (0 for 11
 * to 13 and from 51 on). The counts are 0 on a refusal; relocations are counted in fives. */
typedef struct {
    uint64_t number, position, places, bytes, relocations, sites;
} unwind_written;

/* eh_frame of ELF, x64 unwind data of COFF. `places` takes the header places, in COFF the markers; `sites` the call
 * sites, in COFF the x64 info. */
unwind_written unwind_relaxed_table(
    const uint64_t *machine, size_t machine_n, uint64_t format,
    const uint64_t *functions, size_t functions_n, const uint64_t *rows, size_t rows_n,
    const uint64_t *landings, size_t landings_n, const uint64_t *pairs, size_t pairs_n,
    uint64_t *places, size_t places_n, uint8_t *bytes, size_t bytes_n,
    uint64_t *relocations, size_t relocations_n, uint8_t *sites, size_t sites_n);

/* debug_frame. Landings and personalities are looked at by question 13 alone. */
unwind_written unwind_relaxed_debug_frame(
    const uint64_t *machine, size_t machine_n, uint64_t format,
    const uint64_t *functions, size_t functions_n, const uint64_t *rows, size_t rows_n,
    const uint64_t *landings, size_t landings_n, const uint64_t *pairs, size_t pairs_n,
    uint64_t *places, size_t places_n, uint8_t *bytes, size_t bytes_n,
    uint64_t *relocations, size_t relocations_n);

/* x64 unwind data of direct codes. */
unwind_written unwind_seh(
    const uint64_t *functions, size_t functions_n, const uint64_t *codes, size_t codes_n,
    uint64_t *markers, size_t markers_n, uint8_t *bytes, size_t bytes_n,
    uint64_t *relocations, size_t relocations_n, uint8_t *info, size_t info_n);

/* Windows unwind data of ARM64. A function's prologue are the codes from prologue_at on, in the order of its instructions; so are an
 * epilogue's, without the ret. `markers` takes one number a function, the place of its record in `info`, and 2^64 - 1 where the entry is
 * packed; `bytes` the entries of .pdata, 8 bytes each: a blank for the function's start, and the packed word or a blank for the
 * record's place, with Image relocations to the symbol and to its marker; `info` the records (.xdata), which `sites` counts. An entry is
 * packed where a packed word means the same instructions, one by one. 13, then function by function 81 to 83, with the position 0; then
 * 51 to 54. */
unwind_written unwind_arm64(
    const uint64_t *functions, size_t functions_n, const uint64_t *epilogues, size_t epilogues_n,
    const uint64_t *codes, size_t codes_n, uint64_t *markers, size_t markers_n, uint8_t *bytes, size_t bytes_n,
    uint64_t *relocations, size_t relocations_n, uint8_t *info, size_t info_n);

/* 1 where the rows of function k pass the row check, else 0; also 0 for k past the list. */
uint64_t unwind_row_check(const uint64_t *functions, size_t functions_n, const uint64_t *rows, size_t rows_n, uint64_t k);

/* What the reader answers: `number` is 0, or the question's. frame: 0 none, 1 register plus offset. rule: 0 unstated,
 * 1 undefined, 2 saved at the frame address plus rule_value, 3 same value, 4 in the register rule_value. Offsets are 64-bit two's
 * complement. shortest: 1 where every LEB number that was read for the answer is spelled in as few bytes as can be: those among the
 * fields of the header and of the record, and those of their operations up to the step that passes p. A field without meaning is 0. */
typedef struct {
    uint64_t number, frame, frame_register, frame_offset, rule, rule_value, signing, shortest;
} unwind_reading;

/* The rules of record k at offset p of its function, for one register. kind: 0 eh_frame, 1 debug_frame. */
unwind_reading unwind_read(
    const uint8_t *section, size_t section_n, const uint64_t *relocations, size_t relocations_n,
    uint64_t kind, uint64_t word, uint64_t k, uint16_t reg, uint64_t p);

/* What the reader of call sites answers: `number` is 0, or the question's (71, then 72). found: 1 where an entry covers the offset, else
 * 0. A pad of 0 is no handler. shortest: 1 where the table's length and every number of its entries are spelled in as few bytes as can
 * be. All are 0 on a refusal, and all but shortest where no entry covers the offset. */
typedef struct {
    uint64_t number, found, start, length, pad, shortest;
} unwind_site;

/* The first site, in table order, of the table at a place of the call sites that covers a code offset: its start is at most the offset, and
 * the offset is below its start plus its length. All three count from the function's start. Every entry is read before the answer. A
 * function's place is the addend of its record's relocation to symbol 1. */
unwind_site unwind_call_site(const uint8_t *sites, size_t sites_n, uint64_t place, uint64_t offset);

/* ---- the reader by places: one pass over a section for several questions */

/* Where the operations of a record and of its header are (from, and up to), the function's length, the bytes of a record's pointer to
 * call sites, the header's signal mark, the word, and whether the LEB numbers among the fields of both are spelled shortest (1 or 0).
 * `number` is 0, or the question's; all else is 0 then. */
typedef struct {
    uint64_t number, header, header_end, record, record_end, length, pointer, signal, word, shortest;
} unwind_located;

/* Record k: 11, 61 to 64. */
unwind_located unwind_locate(
    const uint8_t *section, size_t section_n, const uint64_t *relocations, size_t relocations_n,
    uint64_t kind, uint64_t word, uint64_t k);

/* The rules at p from what unwind_locate or unwind_locate_at answered: unwind_read's answer. A non-zero number in it is the answer.
 * Other numbers are taken too; those that do not lie in the section are 64. */
unwind_reading unwind_rules_at(
    const uint8_t *section, size_t section_n, unwind_located located, uint16_t reg, uint64_t p);

/* How many lines there are, and the question (66 to 69) by which the reader refuses from the offset `from` on; 0 and 0 where it refuses
 * nowhere. `number` is 0, or the question's; all else is 0 then. */
typedef struct {
    uint64_t number, lines, ending, from;
} unwind_listed;

/* The rules at every location of a record, in one run over its operations: a line from offset 0 on, and one from each location on behind a
 * step that is not 0. Seven numbers a line, at the front of a lent list, whose rest is as it was: the offset, and the six of unwind_reading
 * behind its number. unwind_rules_at answers the numbers of the last line at or before its offset, and from `from` on `ending`. Lines at and
 * past the function's end are stored too. A non-zero number in `located` is the answer; then 64 where its places do not lie in the section,
 * then 54 where the list has no room for seven numbers for each byte of the record's operations and seven more. */
unwind_listed unwind_rules_along(
    const uint8_t *section, size_t section_n, unwind_located located, uint16_t reg, uint64_t *lines, size_t lines_n);

/* How many records there are. */
typedef struct {
    uint64_t number, records;
} unwind_indexed;

/* The place of each record and of its header, two numbers each, at the front of a lent list, whose rest is as it was: 11, 61, then 54
 * where they do not fit. A record without a header (63) has 2^64 - 1 as its header's place. */
unwind_indexed unwind_index(
    const uint8_t *section, size_t section_n, const uint64_t *relocations, size_t relocations_n,
    uint64_t kind, uint64_t word, uint64_t *places, size_t places_n);

/* Where the operations of the record at one place and of the header at another are, with no pass over the section: 11, 63 where the
 * header's place is not below the record's, 64. By the two numbers of the index this is unwind_locate's answer. */
unwind_located unwind_locate_at(
    const uint8_t *section, size_t section_n, uint64_t kind, uint64_t word, uint64_t record, uint64_t header);

/* Where a record's function starts, and its length. */
typedef struct {
    uint64_t number, address, length;
} unwind_placed;

/* The function of the record at a place, by the record's own fields: in eh_frame relative to the field, whose address is the section's
 * (`address`, of its first byte) and the place, modulo 2^(8 word); in debug_frame as it stands. 11; 64 where no record with these fields
 * stands there. */
unwind_placed unwind_function_at(
    const uint8_t *section, size_t section_n, uint64_t kind, uint64_t word, uint64_t address, uint64_t record);

/* A record by its number and its place. */
typedef struct {
    uint64_t number, k, place;
} unwind_holder;

/* The first record whose function holds pc: it starts at most there, and pc less the start is below the length. 11, 61; 62 where none
 * does. */
unwind_holder unwind_record_of(
    const uint8_t *section, size_t section_n, uint64_t kind, uint64_t word, uint64_t address, uint64_t pc);

/* A record by its number and its place, and the place of its header. On a refusal all but `number` is 0. */
typedef struct {
    uint64_t number, k, record, header;
} unwind_entries;

/* The record that unwind_record_of answers, and its header: 11, 61; 62 where no record holds pc; 63 where it has no header. By these
 * two places unwind_locate_at goes on without a pass over the section. */
unwind_entries unwind_entries_of(
    const uint8_t *section, size_t section_n, const uint64_t *relocations, size_t relocations_n,
    uint64_t kind, uint64_t word, uint64_t address, uint64_t pc);

/* The rules of all registers at a place: the rule of the frame address, the signing mark and `shortest` as in unwind_reading, and for how
 * many registers two numbers are stored. On a refusal all but `number` is 0. */
typedef struct {
    uint64_t number, frame, frame_register, frame_offset, signing, shortest, registers;
} unwind_all_rules;

/* The rules at p of registers 0, 1, .., from what unwind_locate or unwind_locate_at answered: two numbers a register, `rule` and
 * `rule_value` as unwind_rules_at answers them, at the front of a lent list, for as many registers as it has room for (65,536 at most).
 * A refusal is that of unwind_rules_at, and the list is then as it was. */
unwind_all_rules unwind_all_rules_at(
    const uint8_t *section, size_t section_n, unwind_located located, uint64_t p, uint64_t *rules, size_t rules_n);

/* What the walk answers: `number` is 0, or the question's. frames: how many there are, at most 64. ending: 1 the rules of the last frame
 * leave the return address undefined, 2 no function holds the address, 3 a 65th frame would follow. All are 0 on a refusal. */
typedef struct {
    uint64_t number, frames, ending;
} unwind_chain;

/* The chain of callers of a recorded fault. `record` is the file: the stack's bytes, registers of 8 bytes each from DWARF number 0 on,
 * and a trailer of 16 bytes: the distance from the trailer to the first register (8 bytes), the count of registers, at most 128 (4), and
 * the stack's length (4). `stack` is the address of the first of the stack's bytes. `functions` are two numbers each, for record k of
 * the section the start address and the length of its function; the first in the list that holds an address is taken. kind: 0 eh_frame,
 * 1 debug_frame. Stores two numbers a frame at the front of `frames`: the function's position in the list, and the pc or return address.
 * A caller is looked up, and its rules are read, one byte before its return address, but exactly there where the frame just left has
 * the signal mark. Registers 0 to 127 are followed. Where the return address is signed, its low 48 bits are taken.
 * 73, then 11 and 12 for the machine; frame by frame 11 for the kind, 61 to 69, 74 and 75; 54 last. */
unwind_chain unwind_walk(
    const uint64_t *machine, size_t machine_n, const uint8_t *record, size_t record_n,
    const uint8_t *section, size_t section_n, const uint64_t *relocations, size_t relocations_n,
    uint64_t kind, uint64_t pc, uint64_t stack, const uint64_t *functions, size_t functions_n,
    uint64_t *frames, size_t frames_n);

/* As unwind_walk, and where a frame is refused, the frames that were found up to it, that one too: `number` is the refusal's, `frames`
 * counts those that stand at the front of the lent list (0 where it has no room for all of them), and `ending` is 0. */
unwind_chain unwind_walk_found(
    const uint64_t *machine, size_t machine_n, const uint8_t *record, size_t record_n,
    const uint8_t *section, size_t section_n, const uint64_t *relocations, size_t relocations_n,
    uint64_t kind, uint64_t pc, uint64_t stack, const uint64_t *functions, size_t functions_n,
    uint64_t *frames, size_t frames_n);

/* What the check of a section answers: `number` is 0, or 11 for the word, then 61, then 84 with the first record that does not pass,
 * counted from 0. record is 0 otherwise. */
typedef struct {
    uint64_t number, record;
} unwind_checked;

/* Whether an eh_frame section, without relocations, tiles and unwind_read answers for every register at every offset below the
 * length of each record. A record passes only if its length lies inside its entry. */
unwind_checked unwind_check_section(const uint8_t *section, size_t section_n, uint64_t word);

/* What the reader of x64 records answers: `number` is 0, or the question's (76, 77, then 54). end: the prologue's. frame: 1 where a
 * code sets the frame register, else 0. frame_register and frame_offset are the header's, always. codes: how many. All are 0 on a
 * refusal. */
typedef struct {
    uint64_t number, end, frame, frame_register, frame_offset, codes;
} unwind_x64_reading;

/* The record at a place of the x64 info: its codes in prologue order, five numbers each as unwind_seh takes them. A pushed vector
 * register reads as the integer one of its number. */
unwind_x64_reading unwind_read_x64(
    const uint8_t *info, size_t info_n, uint64_t place, uint64_t *codes, size_t codes_n);

/* What the reader of ARM64 unwind data answers: `number` is 0, or the question's (76, 77, then 54). length: the function's, in bytes.
 * prologue: how many codes the prologue has; epilogues: how many there are; codes: all of them, the prologue's and the epilogues'. All
 * are 0 on a refusal. */
typedef struct {
    uint64_t number, length, prologue, epilogues, codes;
} unwind_arm64_reading;

/* What the second word of an ARM64 entry says: packed, by itself; else the record at a place of the info. epilogues: three numbers each,
 * the start in bytes from the function's, which code is its first, and how many it has. codes: three numbers each, kind
 * (unwind_arm64_code), register (x19 is 19, d8 is 8) and offset or size in bytes, in the order of the instructions: the prologue's, then
 * each epilogue's own. An operand that a code's kind does not have is 0. */
unwind_arm64_reading unwind_read_arm64(
    uint64_t word, const uint8_t *info, size_t info_n, uint64_t place,
    uint64_t *epilogues, size_t epilogues_n, uint64_t *codes, size_t codes_n);

/* ---- a section taken apart. Kinds and words are unwind_read's; a place and a position are counts of bytes from the section's start. */

/* What stands at a position. `number` is 0 for an entry: `header` 1 for a header and 0 for a record, where it stands, the value of its
 * length field, and where the next one stands. 11: a kind above 1; 61: no entry fits the rest of the section; 62: the section ends
 * here, or before. Then place and next are `at`, and the others 0. */
typedef struct {
    uint64_t number, header, place, length, next;
} unwind_entry;

unwind_entry unwind_next_entry(const uint8_t *section, size_t section_n, uint64_t kind, uint64_t at);

/* The header (CIE) at a place. `number` is 0; 11; 61 where no entry stands there; 63 where it is a record; 64 with the `field` at
 * fault: 1 version, 2 augmentation string, 3 code alignment factor, 4 data alignment factor, 5 return address register,
 * 6 augmentation data. personality, lsda, signal: 1 where the string promises it. pointer: the bytes of a record's pointer to call
 * sites. Its operations stand from `operations` up to `end`. All are 0 on a refusal but number and field. */
typedef struct {
    uint64_t number, field, personality, lsda, signal, return_register, pointer, operations, end;
} unwind_header_fields;

unwind_header_fields unwind_read_header(
    const uint8_t *section, size_t section_n, uint64_t kind, uint64_t word, uint64_t place);

/* The record (FDE) at a place, with its header's pointer size. `number` is 0; 11; 61 where no entry stands there; 62 where it is a
 * header; 64 with the `field` at fault: 7 the function's place, 8 its length, 9 augmentation data. header: the value of the second
 * field; function and length: as they stand. call_sites: where the pointer to call sites stands, 0 where pointer is 0 and in
 * debug_frame. Its operations stand from `operations` up to `end`. All are 0 on a refusal but number and field. */
typedef struct {
    uint64_t number, field, header, function, length, call_sites, operations, end;
} unwind_record_fields;

unwind_record_fields unwind_read_record(
    const uint8_t *section, size_t section_n, uint64_t kind, uint64_t word, uint64_t pointer, uint64_t place);

/* One operation of those from `at` to `end`. `number` is 0; 11: word; 62 where at is end; 66 where none can be read, or where `end`
 * lies before `at` or behind the section. kind, reg and value: a row's, its value 64-bit two's complement and unfactored; 16: padding;
 * 17: a step, whose value is how far. next: where the next one stands. opcode: the first byte as it stands, also of one that cannot be
 * read. On a refusal next is `at`, and what is not named here is 0. */
typedef struct {
    uint64_t number, kind, reg, value, next, opcode;
} unwind_operation;

unwind_operation unwind_read_operation(
    const uint8_t *section, size_t section_n, uint64_t at, uint64_t end, uint64_t word);

/* Puts a section in place: `bytes` with its relocations applied, in list order, at the front of `out`. `addresses` are two
 * numbers each, a symbol and its address; of a symbol that is listed twice the first counts. `section` is the address of the
 * first byte of `bytes`. Answers 0, or 52 where `out` is shorter than `bytes`, then 79, then 80. */
uint64_t unwind_apply(
    const uint8_t *bytes, size_t bytes_n, const uint64_t *relocations, size_t relocations_n,
    const uint64_t *addresses, size_t addresses_n, uint64_t section, uint64_t image, uint8_t *out, size_t out_n);

/* ---- functions and rows as structs
 *
 * Each field is the number of the same name above; a number that the field cannot hold does not occur, and a mark above 1 or a
 * kind above 10 is question 13. Landings and pairs, all 64-bit numbers, are the lists above. */
typedef struct {
    uint64_t offset;
    uint8_t kind;
    uint16_t reg;
    int32_t value;
} unwind_row;

typedef struct {
    uint64_t symbol, length, rows_at, rows, landings_at, landings;
    uint8_t simple, signal, personality, encoding;
    uint64_t routine;
    uint8_t lsda, lsda_encoding;
    uint64_t lsda_symbol;
    uint8_t relaxed;
    uint64_t end, pairs_at, pairs;
} unwind_function;

/* The numbers of structs at the front of a lent list: 0, or 54 where they do not fit, and the list is then as it was. */
uint64_t unwind_pack_functions(const unwind_function *functions, size_t functions_n, uint64_t *numbers, size_t numbers_n);
uint64_t unwind_pack_rows(const unwind_row *rows, size_t rows_n, uint64_t *numbers, size_t numbers_n);

/* The row check of one function whose rows are these, with its simple mark. */
uint64_t unwind_row_check_of(uint64_t simple, const unwind_row *rows, size_t rows_n);

/* The writers of DWARF and COFF over structs. `numbers` is room for their numbers: 18 a function and 4 a row. It comes in at
 * least so long and zero so far, else the answer is 54, asked behind the empty result, 11 and 12; it goes back as it came,
 * whatever the answer is. */
unwind_written unwind_relaxed_table_of(
    const uint64_t *machine, size_t machine_n, uint64_t format,
    const unwind_function *functions, size_t functions_n, const unwind_row *rows, size_t rows_n,
    const uint64_t *landings, size_t landings_n, const uint64_t *pairs, size_t pairs_n, uint64_t *numbers, size_t numbers_n,
    uint64_t *places, size_t places_n, uint8_t *bytes, size_t bytes_n,
    uint64_t *relocations, size_t relocations_n, uint8_t *sites, size_t sites_n);

unwind_written unwind_relaxed_debug_frame_of(
    const uint64_t *machine, size_t machine_n, uint64_t format,
    const unwind_function *functions, size_t functions_n, const unwind_row *rows, size_t rows_n,
    const uint64_t *landings, size_t landings_n, const uint64_t *pairs, size_t pairs_n, uint64_t *numbers, size_t numbers_n,
    uint64_t *places, size_t places_n, uint8_t *bytes, size_t bytes_n,
    uint64_t *relocations, size_t relocations_n);

/* ELF files (System V gABI), little-endian, of 32 or 64 bits, over a file's bytes as they are lent.
 *
 * Each answer begins with a number, 0 or why not, and `at`, the place in the file of what is at fault; all else is then 0:
 *   101 no ELF file                       102 a class, a byte order or a version that is not known
 *   103 the header, a table, a section    104 a name does not lie in its strings
 *       or a note does not lie in the     105 an entry size other than the class's
 *       file                              106 a table in a section that is compressed
 *   107 there is no such entry            108 a section of another kind than is asked for
 *   109 an alignment of notes that is neither 4 nor 8
 * In each, `index` is the one that was asked for or found, and places are those of the file. */
typedef struct {
    uint64_t number, at, class_bits, kind, machine, flags, entry;
} unwind_elf_header_read;

/* The header: 32 or 64, e_type (1 relocatable, 2 executable, 3 shared object, 4 core file), e_machine, e_flags, e_entry. */
unwind_elf_header_read unwind_elf_header(const uint8_t *file, size_t file_n);

/* Where the section table stands, how many sections it has, and the index of the one with their names; counts and indexes that are
 * too large for the header come from section 0. A file without a section table has 0 sections. */
typedef struct {
    uint64_t number, at, place, count, names;
} unwind_elf_sections_read;

unwind_elf_sections_read unwind_elf_sections(const uint8_t *file, size_t file_n);

/* A section. name: where its name stands in the file, with name_length bytes and a 0 behind them; both are 0 where sections have no
 * names. length: how many bytes it has at its place; 0 for SHT_NULL and SHT_NOBITS. compressed: 1 where SHF_COMPRESSED is set or the
 * name begins with .zdebug. Name and bytes lie in the file. */
typedef struct {
    uint64_t number, at, index, name, name_length, kind, flags, address, place, size, length, link, info, align, entry_size, compressed;
} unwind_elf_section_read;

unwind_elf_section_read unwind_elf_section(const uint8_t *file, size_t file_n, uint64_t index);

/* The first section of a name. A section whose name cannot be read is passed over. */
unwind_elf_section_read unwind_elf_section_named(const uint8_t *file, size_t file_n, const uint8_t *name, size_t name_n);

/* Where the table of segments stands, and how many it has. */
typedef struct {
    uint64_t number, at, place, count;
} unwind_elf_segments_read;

unwind_elf_segments_read unwind_elf_segments(const uint8_t *file, size_t file_n);

/* A segment. length: how many of its bytes the file has at its place, which are fewer than its size where a core file was cut off. */
typedef struct {
    uint64_t number, at, index, kind, flags, place, address, physical, size, memory, align, length;
} unwind_elf_segment_read;

unwind_elf_segment_read unwind_elf_segment(const uint8_t *file, size_t file_n, uint64_t index);

/* The note at a place of a section or a segment that ends at `end` and has an alignment (of 8, or of 4 or less): its kind, its name up
 * to a 0, its text, and where the next one stands; 107 where no byte is left. */
typedef struct {
    uint64_t number, at, kind, name, name_length, text, text_length, next;
} unwind_elf_note_read;

unwind_elf_note_read unwind_elf_note(const uint8_t *file, size_t file_n, uint64_t place, uint64_t end, uint64_t align);

/* The first note of a name, without its 0, and a kind from a place on. */
unwind_elf_note_read unwind_elf_note_named(
    const uint8_t *file, size_t file_n, uint64_t place, uint64_t end, uint64_t align, const uint8_t *name, size_t name_n, uint64_t kind);

/* A symbol. kind: STT_ (1 object, 2 function); binding: STB_ (0 local, 1 global, 2 weak); visibility: STV_; section: the index of its
 * section (0 undefined, 0xfff1 absolute, 0xfff2 common, 0xffff where the index stands in a section of kind 18). */
typedef struct {
    uint64_t number, at, index, name, name_length, value, size, kind, binding, visibility, section;
} unwind_elf_symbol_read;

/* The symbol at an index of a section of kind 2 or 11; 107 past the last one. */
unwind_elf_symbol_read unwind_elf_symbol(const uint8_t *file, size_t file_n, uint64_t section, uint64_t index);

/* The function symbol of the table in a section that covers an address, of those whose section is the one given, unless that is 0: one
 * with a size before one without, which covers up to its section's end; then the one that begins last, then the shortest, then the
 * first. On ARM the Thumb mark of a value does not count. In a relocatable file addresses are those in the given section. */
unwind_elf_symbol_read unwind_elf_symbol_at(const uint8_t *file, size_t file_n, uint64_t table, uint64_t section, uint64_t address);

/* A relocation. symbol: its index in the table that the section's link names. addend: 64-bit two's complement, and has_addend 1, where
 * the entry has one; else both are 0. */
typedef struct {
    uint64_t number, at, index, place, symbol, kind, addend, has_addend;
} unwind_elf_relocation_read;

/* The relocation at an index of a section of kind 4 or 9; 107 past the last one. */
unwind_elf_relocation_read unwind_elf_relocation(const uint8_t *file, size_t file_n, uint64_t section, uint64_t index);

#ifdef __cplusplus
}
#endif

#endif

//! include/dekvoz.h, as it stands there.

use crate::structs::{Function, RowAt};

/// What a writer answers.
#[repr(C)]
pub(crate) struct Written {
    pub number: u64,
    pub position: u64,
    pub places: u64,
    pub bytes: u64,
    pub relocations: u64,
    pub sites: u64,
}

/// What the reader answers.
#[repr(C)]
pub(crate) struct Reading {
    pub number: u64,
    pub frame: u64,
    pub frame_register: u64,
    pub frame_offset: u64,
    pub rule: u64,
    pub rule_value: u64,
    pub signing: u64,
    pub shortest: u64,
}

/// What the reader of call sites answers.
#[repr(C)]
pub(crate) struct Site {
    pub number: u64,
    pub found: u64,
    pub start: u64,
    pub length: u64,
    pub pad: u64,
    pub shortest: u64,
}

/// Where the operations of a record and of its header are.
#[derive(Clone, Copy, Debug, PartialEq, Eq)]
#[repr(C)]
pub(crate) struct Located {
    pub number: u64,
    pub header: u64,
    pub header_end: u64,
    pub record: u64,
    pub record_end: u64,
    pub length: u64,
    pub pointer: u64,
    pub signal: u64,
    pub word: u64,
    pub shortest: u64,
}

/// How many lines there are, and what ended them.
#[repr(C)]
pub(crate) struct Listed {
    pub number: u64,
    pub lines: u64,
    pub ending: u64,
    pub from: u64,
}

/// How many records there are.
#[repr(C)]
pub(crate) struct Indexed {
    pub number: u64,
    pub records: u64,
}

/// Where a record's function starts, and its length.
#[repr(C)]
pub(crate) struct Placed {
    pub number: u64,
    pub address: u64,
    pub length: u64,
}

/// A record by its number and its place.
#[repr(C)]
pub(crate) struct Holder {
    pub number: u64,
    pub k: u64,
    pub place: u64,
}

/// A record by its number and its place, and the place of its header.
#[repr(C)]
pub(crate) struct Entries {
    pub number: u64,
    pub k: u64,
    pub record: u64,
    pub header: u64,
}

/// What all registers' rules have in common, and how many registers there are.
#[repr(C)]
pub(crate) struct AllRules {
    pub number: u64,
    pub frame: u64,
    pub frame_register: u64,
    pub frame_offset: u64,
    pub signing: u64,
    pub shortest: u64,
    pub registers: u64,
}

/// What the walk over a recorded fault answers.
#[repr(C)]
pub(crate) struct Chain {
    pub number: u64,
    pub frames: u64,
    pub ending: u64,
}

/// What the reader of x64 records answers.
#[repr(C)]
pub(crate) struct X64Reading {
    pub number: u64,
    pub end: u64,
    pub frame: u64,
    pub frame_register: u64,
    pub frame_offset: u64,
    pub codes: u64,
}

/// What the reader of ARM64 unwind data answers.
#[repr(C)]
pub(crate) struct Arm64Reading {
    pub number: u64,
    pub length: u64,
    pub prologue: u64,
    pub epilogues: u64,
    pub codes: u64,
}

/// What stands at a position.
#[repr(C)]
pub(crate) struct Entry {
    pub number: u64,
    pub header: u64,
    pub place: u64,
    pub length: u64,
    pub next: u64,
}

/// The fields of a header.
#[repr(C)]
pub(crate) struct HeaderFields {
    pub number: u64,
    pub field: u64,
    pub personality: u64,
    pub lsda: u64,
    pub signal: u64,
    pub return_register: u64,
    pub pointer: u64,
    pub operations: u64,
    pub end: u64,
}

/// The fields of a record.
#[repr(C)]
pub(crate) struct RecordFields {
    pub number: u64,
    pub field: u64,
    pub header: u64,
    pub function: u64,
    pub length: u64,
    pub call_sites: u64,
    pub operations: u64,
    pub end: u64,
}

/// One operation.
#[repr(C)]
pub(crate) struct Operation {
    pub number: u64,
    pub kind: u64,
    pub reg: u64,
    pub value: u64,
    pub next: u64,
    pub opcode: u64,
}

/// What the check of a section answers.
#[repr(C)]
pub(crate) struct Checked {
    pub number: u64,
    pub record: u64,
}

/// An ELF file's header.
#[repr(C)]
pub(crate) struct ElfHeader {
    pub number: u64,
    pub at: u64,
    pub class_bits: u64,
    pub kind: u64,
    pub machine: u64,
    pub flags: u64,
    pub entry: u64,
}

/// An ELF file's section table.
#[repr(C)]
pub(crate) struct ElfSections {
    pub number: u64,
    pub at: u64,
    pub place: u64,
    pub count: u64,
    pub names: u64,
}

/// A section.
#[repr(C)]
pub(crate) struct ElfSection {
    pub number: u64,
    pub at: u64,
    pub index: u64,
    pub name: u64,
    pub name_length: u64,
    pub kind: u64,
    pub flags: u64,
    pub address: u64,
    pub place: u64,
    pub size: u64,
    pub length: u64,
    pub link: u64,
    pub info: u64,
    pub align: u64,
    pub entry_size: u64,
    pub compressed: u64,
}

/// An ELF file's table of segments.
#[repr(C)]
pub(crate) struct ElfSegments {
    pub number: u64,
    pub at: u64,
    pub place: u64,
    pub count: u64,
}

/// A segment.
#[repr(C)]
pub(crate) struct ElfSegment {
    pub number: u64,
    pub at: u64,
    pub index: u64,
    pub kind: u64,
    pub flags: u64,
    pub place: u64,
    pub address: u64,
    pub physical: u64,
    pub size: u64,
    pub memory: u64,
    pub align: u64,
    pub length: u64,
}

/// A note.
#[repr(C)]
pub(crate) struct ElfNote {
    pub number: u64,
    pub at: u64,
    pub kind: u64,
    pub name: u64,
    pub name_length: u64,
    pub text: u64,
    pub text_length: u64,
    pub next: u64,
}

/// A symbol.
#[repr(C)]
pub(crate) struct ElfSymbol {
    pub number: u64,
    pub at: u64,
    pub index: u64,
    pub name: u64,
    pub name_length: u64,
    pub value: u64,
    pub size: u64,
    pub kind: u64,
    pub binding: u64,
    pub visibility: u64,
    pub section: u64,
}

/// A relocation.
#[repr(C)]
pub(crate) struct ElfRelocation {
    pub number: u64,
    pub at: u64,
    pub index: u64,
    pub place: u64,
    pub symbol: u64,
    pub kind: u64,
    pub addend: u64,
    pub has_addend: u64,
}

extern "C" {
    pub(crate) fn unwind_elf_header(file: *const u8, file_n: usize) -> ElfHeader;

    pub(crate) fn unwind_elf_sections(file: *const u8, file_n: usize) -> ElfSections;

    pub(crate) fn unwind_elf_section(file: *const u8, file_n: usize, index: u64) -> ElfSection;

    pub(crate) fn unwind_elf_section_named(file: *const u8, file_n: usize, name: *const u8, name_n: usize) -> ElfSection;

    pub(crate) fn unwind_elf_segments(file: *const u8, file_n: usize) -> ElfSegments;

    pub(crate) fn unwind_elf_segment(file: *const u8, file_n: usize, index: u64) -> ElfSegment;

    pub(crate) fn unwind_elf_note(file: *const u8, file_n: usize, place: u64, end: u64, align: u64) -> ElfNote;

    pub(crate) fn unwind_elf_note_named(
        file: *const u8,
        file_n: usize,
        place: u64,
        end: u64,
        align: u64,
        name: *const u8,
        name_n: usize,
        kind: u64,
    ) -> ElfNote;

    pub(crate) fn unwind_elf_symbol(file: *const u8, file_n: usize, section: u64, index: u64) -> ElfSymbol;

    pub(crate) fn unwind_elf_symbol_at(file: *const u8, file_n: usize, table: u64, section: u64, address: u64) -> ElfSymbol;

    pub(crate) fn unwind_elf_relocation(file: *const u8, file_n: usize, section: u64, index: u64) -> ElfRelocation;

    pub(crate) fn unwind_next_entry(section: *const u8, section_n: usize, kind: u64, at: u64) -> Entry;

    pub(crate) fn unwind_read_header(section: *const u8, section_n: usize, kind: u64, word: u64, place: u64) -> HeaderFields;

    pub(crate) fn unwind_read_record(
        section: *const u8,
        section_n: usize,
        kind: u64,
        word: u64,
        pointer: u64,
        place: u64,
    ) -> RecordFields;

    pub(crate) fn unwind_read_operation(section: *const u8, section_n: usize, at: u64, end: u64, word: u64) -> Operation;

    pub(crate) fn unwind_check_section(section: *const u8, section_n: usize, word: u64) -> Checked;

    pub(crate) fn unwind_machine_x86_64(machine: *mut u64, machine_n: usize) -> u64;

    pub(crate) fn unwind_machine_aarch64(machine: *mut u64, machine_n: usize) -> u64;

    pub(crate) fn unwind_machine_arm(machine: *mut u64, machine_n: usize) -> u64;

    pub(crate) fn unwind_machine_riscv64(machine: *mut u64, machine_n: usize) -> u64;

    pub(crate) fn unwind_machine_riscv32(machine: *mut u64, machine_n: usize) -> u64;

    pub(crate) fn unwind_call_site(sites: *const u8, sites_n: usize, place: u64, offset: u64) -> Site;

    pub(crate) fn unwind_read_x64(info: *const u8, info_n: usize, place: u64, codes: *mut u64, codes_n: usize) -> X64Reading;

    pub(crate) fn unwind_read_arm64(
        word: u64,
        info: *const u8,
        info_n: usize,
        place: u64,
        epilogues: *mut u64,
        epilogues_n: usize,
        codes: *mut u64,
        codes_n: usize,
    ) -> Arm64Reading;

    pub(crate) fn unwind_arm64(
        functions: *const u64,
        functions_n: usize,
        epilogues: *const u64,
        epilogues_n: usize,
        codes: *const u64,
        codes_n: usize,
        markers: *mut u64,
        markers_n: usize,
        bytes: *mut u8,
        bytes_n: usize,
        relocations: *mut u64,
        relocations_n: usize,
        info: *mut u8,
        info_n: usize,
    ) -> Written;

    pub(crate) fn unwind_relaxed_table(
        machine: *const u64,
        machine_n: usize,
        format: u64,
        functions: *const u64,
        functions_n: usize,
        rows: *const u64,
        rows_n: usize,
        landings: *const u64,
        landings_n: usize,
        pairs: *const u64,
        pairs_n: usize,
        places: *mut u64,
        places_n: usize,
        bytes: *mut u8,
        bytes_n: usize,
        relocations: *mut u64,
        relocations_n: usize,
        sites: *mut u8,
        sites_n: usize,
    ) -> Written;

    pub(crate) fn unwind_relaxed_debug_frame(
        machine: *const u64,
        machine_n: usize,
        format: u64,
        functions: *const u64,
        functions_n: usize,
        rows: *const u64,
        rows_n: usize,
        landings: *const u64,
        landings_n: usize,
        pairs: *const u64,
        pairs_n: usize,
        places: *mut u64,
        places_n: usize,
        bytes: *mut u8,
        bytes_n: usize,
        relocations: *mut u64,
        relocations_n: usize,
    ) -> Written;

    pub(crate) fn unwind_seh(
        functions: *const u64,
        functions_n: usize,
        codes: *const u64,
        codes_n: usize,
        markers: *mut u64,
        markers_n: usize,
        bytes: *mut u8,
        bytes_n: usize,
        relocations: *mut u64,
        relocations_n: usize,
        info: *mut u8,
        info_n: usize,
    ) -> Written;

    pub(crate) fn unwind_row_check(functions: *const u64, functions_n: usize, rows: *const u64, rows_n: usize, k: u64) -> u64;

    pub(crate) fn unwind_read(
        section: *const u8,
        section_n: usize,
        relocations: *const u64,
        relocations_n: usize,
        kind: u64,
        word: u64,
        k: u64,
        reg: u16,
        p: u64,
    ) -> Reading;

    pub(crate) fn unwind_locate(
        section: *const u8,
        section_n: usize,
        relocations: *const u64,
        relocations_n: usize,
        kind: u64,
        word: u64,
        k: u64,
    ) -> Located;

    pub(crate) fn unwind_rules_at(section: *const u8, section_n: usize, located: Located, reg: u16, p: u64) -> Reading;

    pub(crate) fn unwind_rules_along(
        section: *const u8,
        section_n: usize,
        located: Located,
        reg: u16,
        lines: *mut u64,
        lines_n: usize,
    ) -> Listed;

    pub(crate) fn unwind_index(
        section: *const u8,
        section_n: usize,
        relocations: *const u64,
        relocations_n: usize,
        kind: u64,
        word: u64,
        places: *mut u64,
        places_n: usize,
    ) -> Indexed;

    pub(crate) fn unwind_locate_at(
        section: *const u8,
        section_n: usize,
        kind: u64,
        word: u64,
        record: u64,
        header: u64,
    ) -> Located;

    pub(crate) fn unwind_function_at(
        section: *const u8,
        section_n: usize,
        kind: u64,
        word: u64,
        address: u64,
        record: u64,
    ) -> Placed;

    pub(crate) fn unwind_record_of(section: *const u8, section_n: usize, kind: u64, word: u64, address: u64, pc: u64)
        -> Holder;

    pub(crate) fn unwind_entries_of(
        section: *const u8,
        section_n: usize,
        relocations: *const u64,
        relocations_n: usize,
        kind: u64,
        word: u64,
        address: u64,
        pc: u64,
    ) -> Entries;

    pub(crate) fn unwind_all_rules_at(
        section: *const u8,
        section_n: usize,
        located: Located,
        p: u64,
        rules: *mut u64,
        rules_n: usize,
    ) -> AllRules;

    pub(crate) fn unwind_walk(
        machine: *const u64,
        machine_n: usize,
        record: *const u8,
        record_n: usize,
        section: *const u8,
        section_n: usize,
        relocations: *const u64,
        relocations_n: usize,
        kind: u64,
        pc: u64,
        stack: u64,
        functions: *const u64,
        functions_n: usize,
        frames: *mut u64,
        frames_n: usize,
    ) -> Chain;

    pub(crate) fn unwind_walk_found(
        machine: *const u64,
        machine_n: usize,
        record: *const u8,
        record_n: usize,
        section: *const u8,
        section_n: usize,
        relocations: *const u64,
        relocations_n: usize,
        kind: u64,
        pc: u64,
        stack: u64,
        functions: *const u64,
        functions_n: usize,
        frames: *mut u64,
        frames_n: usize,
    ) -> Chain;

    pub(crate) fn unwind_pack_functions(
        functions: *const Function,
        functions_n: usize,
        numbers: *mut u64,
        numbers_n: usize,
    ) -> u64;

    pub(crate) fn unwind_pack_rows(rows: *const RowAt, rows_n: usize, numbers: *mut u64, numbers_n: usize) -> u64;

    pub(crate) fn unwind_row_check_of(simple: u64, rows: *const RowAt, rows_n: usize) -> u64;

    pub(crate) fn unwind_relaxed_table_of(
        machine: *const u64,
        machine_n: usize,
        format: u64,
        functions: *const Function,
        functions_n: usize,
        rows: *const RowAt,
        rows_n: usize,
        landings: *const u64,
        landings_n: usize,
        pairs: *const u64,
        pairs_n: usize,
        numbers: *mut u64,
        numbers_n: usize,
        places: *mut u64,
        places_n: usize,
        bytes: *mut u8,
        bytes_n: usize,
        relocations: *mut u64,
        relocations_n: usize,
        sites: *mut u8,
        sites_n: usize,
    ) -> Written;

    pub(crate) fn unwind_relaxed_debug_frame_of(
        machine: *const u64,
        machine_n: usize,
        format: u64,
        functions: *const Function,
        functions_n: usize,
        rows: *const RowAt,
        rows_n: usize,
        landings: *const u64,
        landings_n: usize,
        pairs: *const u64,
        pairs_n: usize,
        numbers: *mut u64,
        numbers_n: usize,
        places: *mut u64,
        places_n: usize,
        bytes: *mut u8,
        bytes_n: usize,
        relocations: *mut u64,
        relocations_n: usize,
    ) -> Written;

    pub(crate) fn unwind_apply(
        bytes: *const u8,
        bytes_n: usize,
        relocations: *const u64,
        relocations_n: usize,
        addresses: *const u64,
        addresses_n: usize,
        section: u64,
        image: u64,
        out: *mut u8,
        out_n: usize,
    ) -> u64;
}

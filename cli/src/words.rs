//! The library's numbers in words.

use dekvoz::parts::{Fault, Field};
use dekvoz::{Question, Refusal};

use crate::dump::Untold;

/// An operation's name by its first byte (DWARF 5, section 7.24; LSB 5.0, section 10.5; GNU and AArch64 extensions).
pub fn operation(opcode: u8) -> &'static str {
    match opcode {
        0x00 => "DW_CFA_nop",
        0x01 => "DW_CFA_set_loc",
        0x02 => "DW_CFA_advance_loc1",
        0x03 => "DW_CFA_advance_loc2",
        0x04 => "DW_CFA_advance_loc4",
        0x05 => "DW_CFA_offset_extended",
        0x06 => "DW_CFA_restore_extended",
        0x07 => "DW_CFA_undefined",
        0x08 => "DW_CFA_same_value",
        0x09 => "DW_CFA_register",
        0x0a => "DW_CFA_remember_state",
        0x0b => "DW_CFA_restore_state",
        0x0c => "DW_CFA_def_cfa",
        0x0d => "DW_CFA_def_cfa_register",
        0x0e => "DW_CFA_def_cfa_offset",
        0x0f => "DW_CFA_def_cfa_expression",
        0x10 => "DW_CFA_expression",
        0x11 => "DW_CFA_offset_extended_sf",
        0x12 => "DW_CFA_def_cfa_sf",
        0x13 => "DW_CFA_def_cfa_offset_sf",
        0x14 => "DW_CFA_val_offset",
        0x15 => "DW_CFA_val_offset_sf",
        0x16 => "DW_CFA_val_expression",
        0x1d => "DW_CFA_MIPS_advance_loc8",
        0x2d => "DW_CFA_AARCH64_negate_ra_state",
        0x2e => "DW_CFA_GNU_args_size",
        0x2f => "DW_CFA_GNU_negative_offset_extended",
        0x40..=0x7f => "DW_CFA_advance_loc",
        0x80..=0xbf => "DW_CFA_offset",
        0xc0..=0xff => "DW_CFA_restore",
        _ => "no operation of DWARF",
    }
}

/// The field at fault, where the fields of a header or a record are refused by 64.
fn field(field: Field) -> &'static str {
    match field {
        Field::Version => "the header's version is not 1",
        Field::AugmentationString => "the header's augmentation string is not one of these tables",
        Field::CodeAlignmentFactor => "the header's code alignment factor is not 1",
        Field::DataAlignmentFactor => "the header's data alignment factor is not minus the word",
        Field::ReturnAddressRegister => "the header's return address register is cut off, or above 65535",
        Field::HeaderAugmentationData => {
            "the header's augmentation data is cut off, or has an encoding that these tables do not have"
        }
        Field::Function => "the record's field for the function's place is cut off",
        Field::Length => "the record's field for the function's length is cut off",
        Field::RecordAugmentationData => "the record's augmentation data is cut off",
    }
}

/// What is wrong, for a refusal.
pub fn cause(refusal: Refusal) -> &'static str {
    refusal.asked().map_or("a question was answered by no", Question::words)
}

/// A refusal with its number.
pub fn refused(refusal: Refusal) -> String {
    format!("refused with {}: {}", refusal.number, cause(refusal))
}

/// What is wrong with a header or a record.
pub fn fault_cause(fault: Fault) -> &'static str {
    fault.field.map_or(cause(fault.refusal), field)
}

/// Why an entry is not told, and the question's number, or 0 where none was asked.
pub fn untold_cause(untold: Untold) -> (u64, &'static str) {
    match untold {
        Untold::Refused(fault) => (fault.refusal.number, fault_cause(fault)),
        Untold::Relocations => (0, "it is not linked, and relocations of its fields or operations could not be applied"),
    }
}

/// The same with its number.
pub fn untold(untold: Untold) -> String {
    match untold_cause(untold) {
        (0, words) => format!("not read: {words}"),
        (number, words) => format!("refused with {number}: {words}"),
    }
}

//! The questions that every answer goes through, by name.

use core::fmt;

use crate::Refusal;

/// A question that was answered by no.
///
/// ```
/// use dekvoz::{read, Question, Section, Word};
///
/// let refusal = read(&[], &[], Section::Eh, Word::Eight, 0, 16, 0).unwrap_err();
/// assert_eq!(refusal.asked(), Some(Question::Record));
/// assert_eq!(Question::Record.words(), "there is no such record");
/// ```
#[derive(Clone, Copy, Debug, PartialEq, Eq, PartialOrd, Ord, Hash)]
#[non_exhaustive]
pub enum Question {
    /// 11: the machine, format, section kind or word is none that is known.
    Interface,
    /// 12: x64 unwind data and the walk ask for words of 8 bytes.
    X64Word,
    /// 13: there are more functions or records than allowed, a range outside its list, or a number that its field does not hold.
    Lists,
    /// 21: the function's length does not fit its field.
    Length,
    /// 22: an encoding of personality or LSDA is none that can be written.
    Encodings,
    /// 23: a row goes back, or steps above 2^32 - 1.
    Order,
    /// 24: an offset is no multiple of the word.
    Multiples,
    /// 25: the two places of a pair are the same.
    Pairs,
    /// 31: the frame pointer is set before the frame is taken.
    FrameFirst,
    /// 32: the frame is counted from a scratch register.
    Scratch,
    /// 33: a group of rows cannot be read as prologue codes.
    Group,
    /// 34: a register is none of the machine's below 16.
    Registers,
    /// 35: a code's offset, or the prologue's end, is above 255.
    CodeOffset,
    /// 36: an allocation is not positive, or no multiple of 8.
    Allocation,
    /// 37: an allocation is 2^32 or more.
    AllocationSize,
    /// 38: a register is saved below the frame.
    SaveBelow,
    /// 39: a register is saved at 2^32 or above.
    SaveSize,
    /// 40: there are more than 255 slots.
    Slots,
    /// 41: the frame's offset is above 240, or no multiple of 16.
    FrameOffset,
    /// 51: the header places or markers do not fit their buffer.
    PlacesRoom,
    /// 52: the bytes do not fit their buffer.
    BytesRoom,
    /// 53: the relocations do not fit their buffer.
    RelocationsRoom,
    /// 54: the call sites, the x64 or ARM64 info, codes, numbers, places, frames or lines do not fit their buffer, or the numbers' is not zero so far.
    OtherRoom,
    /// 61: no entry fits what is left of the section.
    Tiling,
    /// 62: there is no such record.
    Record,
    /// 63: the record names no header (CIE) that starts earlier in the section.
    Header,
    /// 64: a field of header or record is cut off, or not one that these tables have.
    Fields,
    /// 65: the offset is not below the function's length.
    Offset,
    /// 66: an operation is cut off, or not one that these tables use.
    Operations,
    /// 67: a state is restored that was not stored, or a register in a header.
    States,
    /// 68: more than 16 states are stored.
    StatesRoom,
    /// 69: the frame address (CFA) rule is changed where there is none.
    FrameRule,
    /// 71: no table of call sites with the head ff ff 01 stands there, or it is cut off.
    CallSiteTable,
    /// 72: an entry of the table of call sites is cut off, or its end is above 2^64 - 1.
    CallSites,
    /// 73: the file is no recorded fault of 16 to 65,536 bytes with a trailer that matches.
    Recorded,
    /// 74: a stack word lies outside the record, or an address sum outside 64 bits.
    Stack,
    /// 75: a register that is needed is lost or absent, or a frame has no address (CFA) rule.
    Reached,
    /// 76: no x64 record of version 1 without flags, or ARM64 record of version 0, stands there, or it is cut off.
    X64Header,
    /// 77: an x64 or ARM64 code is cut off, or not one that these tables use; or an ARM64 entry's word is not defined.
    X64Codes,
    /// 78: eh_frame of Mach-O is not written any more.
    MachO,
    /// 79: a relocation is of no kind or size that is written, lacks its partner or address, or its field or value does not fit.
    Relocations,
    /// 80: the distance of a Set and Sub pair does not fit its field.
    Distance,
    /// 81: the length of an ARM64 function is not whole instructions, or more than 2^18 - 1 of them.
    Arm64Length,
    /// 82: an ARM64 epilogue starts off an instruction, or not below the function's length.
    Arm64Epilogues,
    /// 83: a register or offset of an ARM64 code is none that it can name, or a count is too large for its field.
    Arm64Values,
    /// 84: a record's length is cut off, or it cannot be read at some offset below its length.
    EveryOffset,
}

impl Question {
    /// The question of a number.
    ///
    /// ```
    /// use dekvoz::Question;
    ///
    /// assert_eq!(Question::of(66), Some(Question::Operations));
    /// assert_eq!(Question::of(70), None);
    /// ```
    #[must_use]
    pub const fn of(number: u64) -> Option<Question> {
        Some(match number {
            11 => Question::Interface,
            12 => Question::X64Word,
            13 => Question::Lists,
            21 => Question::Length,
            22 => Question::Encodings,
            23 => Question::Order,
            24 => Question::Multiples,
            25 => Question::Pairs,
            31 => Question::FrameFirst,
            32 => Question::Scratch,
            33 => Question::Group,
            34 => Question::Registers,
            35 => Question::CodeOffset,
            36 => Question::Allocation,
            37 => Question::AllocationSize,
            38 => Question::SaveBelow,
            39 => Question::SaveSize,
            40 => Question::Slots,
            41 => Question::FrameOffset,
            51 => Question::PlacesRoom,
            52 => Question::BytesRoom,
            53 => Question::RelocationsRoom,
            54 => Question::OtherRoom,
            61 => Question::Tiling,
            62 => Question::Record,
            63 => Question::Header,
            64 => Question::Fields,
            65 => Question::Offset,
            66 => Question::Operations,
            67 => Question::States,
            68 => Question::StatesRoom,
            69 => Question::FrameRule,
            71 => Question::CallSiteTable,
            72 => Question::CallSites,
            73 => Question::Recorded,
            74 => Question::Stack,
            75 => Question::Reached,
            76 => Question::X64Header,
            77 => Question::X64Codes,
            78 => Question::MachO,
            79 => Question::Relocations,
            80 => Question::Distance,
            81 => Question::Arm64Length,
            82 => Question::Arm64Epilogues,
            83 => Question::Arm64Values,
            84 => Question::EveryOffset,
            _ => return None,
        })
    }

    /// Its number (include/dekvoz.h).
    ///
    /// ```
    /// assert_eq!(dekvoz::Question::Fields.number(), 64);
    /// ```
    #[must_use]
    pub const fn number(self) -> u64 {
        match self {
            Question::Interface => 11,
            Question::X64Word => 12,
            Question::Lists => 13,
            Question::Length => 21,
            Question::Encodings => 22,
            Question::Order => 23,
            Question::Multiples => 24,
            Question::Pairs => 25,
            Question::FrameFirst => 31,
            Question::Scratch => 32,
            Question::Group => 33,
            Question::Registers => 34,
            Question::CodeOffset => 35,
            Question::Allocation => 36,
            Question::AllocationSize => 37,
            Question::SaveBelow => 38,
            Question::SaveSize => 39,
            Question::Slots => 40,
            Question::FrameOffset => 41,
            Question::PlacesRoom => 51,
            Question::BytesRoom => 52,
            Question::RelocationsRoom => 53,
            Question::OtherRoom => 54,
            Question::Tiling => 61,
            Question::Record => 62,
            Question::Header => 63,
            Question::Fields => 64,
            Question::Offset => 65,
            Question::Operations => 66,
            Question::States => 67,
            Question::StatesRoom => 68,
            Question::FrameRule => 69,
            Question::CallSiteTable => 71,
            Question::CallSites => 72,
            Question::Recorded => 73,
            Question::Stack => 74,
            Question::Reached => 75,
            Question::X64Header => 76,
            Question::X64Codes => 77,
            Question::MachO => 78,
            Question::Relocations => 79,
            Question::Distance => 80,
            Question::Arm64Length => 81,
            Question::Arm64Epilogues => 82,
            Question::Arm64Values => 83,
            Question::EveryOffset => 84,
        }
    }

    /// What is wrong, in words.
    ///
    /// ```
    /// assert_eq!(dekvoz::Question::StatesRoom.words(), "more than 16 states are stored");
    /// ```
    #[must_use]
    pub const fn words(self) -> &'static str {
        match self {
            Question::Interface => "the machine, format, section kind or word is none that is known",
            Question::X64Word => "x64 unwind data and the walk ask for words of 8 bytes",
            Question::Lists => {
                "there are more functions or records than allowed, a range outside its list, or a number that its field does not hold"
            }
            Question::Length => "the function's length does not fit its field",
            Question::Encodings => "an encoding of personality or LSDA is none that can be written",
            Question::Order => "a row goes back, or steps above 2^32 - 1",
            Question::Multiples => "an offset is no multiple of the word",
            Question::Pairs => "the two places of a pair are the same",
            Question::FrameFirst => "the frame pointer is set before the frame is taken",
            Question::Scratch => "the frame is counted from a scratch register",
            Question::Group => "a group of rows cannot be read as prologue codes",
            Question::Registers => "a register is none of the machine's below 16",
            Question::CodeOffset => "a code's offset, or the prologue's end, is above 255",
            Question::Allocation => "an allocation is not positive, or no multiple of 8",
            Question::AllocationSize => "an allocation is 2^32 or more",
            Question::SaveBelow => "a register is saved below the frame",
            Question::SaveSize => "a register is saved at 2^32 or above",
            Question::Slots => "there are more than 255 slots",
            Question::FrameOffset => "the frame's offset is above 240, or no multiple of 16",
            Question::PlacesRoom => "the header places or markers do not fit their buffer",
            Question::BytesRoom => "the bytes do not fit their buffer",
            Question::RelocationsRoom => "the relocations do not fit their buffer",
            Question::OtherRoom => {
                "the call sites, the x64 or ARM64 info, codes, numbers, places, frames or lines do not fit their buffer, or the numbers' is not zero so far"
            }
            Question::Tiling => "no entry fits what is left of the section",
            Question::Record => "there is no such record",
            Question::Header => "the record names no header (CIE) that starts earlier in the section",
            Question::Fields => "a field of header or record is cut off, or not one that these tables have",
            Question::Offset => "the offset is not below the function's length",
            Question::Operations => "an operation is cut off, or not one that these tables use",
            Question::States => "a state is restored that was not stored, or a register in a header",
            Question::StatesRoom => "more than 16 states are stored",
            Question::FrameRule => "the frame address (CFA) rule is changed where there is none",
            Question::CallSiteTable => "no table of call sites with the head ff ff 01 stands there, or it is cut off",
            Question::CallSites => "an entry of the table of call sites is cut off, or its end is above 2^64 - 1",
            Question::Recorded => "the file is no recorded fault of 16 to 65,536 bytes with a trailer that matches",
            Question::Stack => "a stack word lies outside the record, or an address sum outside 64 bits",
            Question::Reached => "a register that is needed is lost or absent, or a frame has no address (CFA) rule",
            Question::X64Header => {
                "no x64 record of version 1 without flags, or ARM64 record of version 0, stands there, or it is cut off"
            }
            Question::X64Codes => {
                "an x64 or ARM64 code is cut off, or not one that these tables use; or an ARM64 entry's word is not defined"
            }
            Question::MachO => "eh_frame of Mach-O is not written any more",
            Question::Relocations => {
                "a relocation is of no kind or size that is written, lacks its partner or address, or its field or value does not fit"
            }
            Question::Distance => "the distance of a Set and Sub pair does not fit its field",
            Question::Arm64Length => "the length of an ARM64 function is not whole instructions, or more than 262143 of them",
            Question::Arm64Epilogues => "an ARM64 epilogue starts off an instruction, or not below the function's length",
            Question::Arm64Values => {
                "a register or offset of an ARM64 code is none that it can name, or a count is too large for its field"
            }
            Question::EveryOffset => "a record's length is cut off, or it cannot be read at some offset below its length",
        }
    }
}

impl fmt::Display for Question {
    fn fmt(&self, f: &mut fmt::Formatter<'_>) -> fmt::Result {
        f.write_str(self.words())
    }
}

impl Refusal {
    /// The question that was answered by no.
    ///
    /// ```
    /// use dekvoz::{Question, Refusal};
    ///
    /// assert_eq!(Refusal { number: 62, position: 0 }.asked(), Some(Question::Record));
    /// ```
    #[must_use]
    pub const fn asked(&self) -> Option<Question> {
        Question::of(self.number)
    }
}

//! What is handed in and what comes out.

use alloc::vec::Vec;

/// The width of a machine's pointers, in bytes.
#[derive(Clone, Copy, Debug, PartialEq, Eq, Hash)]
pub enum Word {
    /// 2 bytes.
    Two,
    /// 4 bytes.
    Four,
    /// 8 bytes.
    Eight,
}

impl Word {
    /// How many bytes.
    #[must_use]
    pub const fn bytes(self) -> u64 {
        match self {
            Word::Two => 2,
            Word::Four => 4,
            Word::Eight => 8,
        }
    }
}

/// What a DWARF register number is on the machine; x64 unwind data asks for it.
#[derive(Clone, Copy, Debug, PartialEq, Eq, Hash)]
pub enum MachineRegister {
    /// None of the machine's.
    None,
    /// An integer register, 0 to 127. A larger number is no machine's (question 11).
    Integer(u8),
    /// A vector register, 0 to 126. A larger number is no machine's (question 11).
    Vector(u8),
}

impl MachineRegister {
    /// The number in the machine's list; 256 is refused by question 11.
    const fn number(self) -> u64 {
        match self {
            MachineRegister::None => 255,
            MachineRegister::Integer(n) if n < 128 => n as u64,
            MachineRegister::Vector(n) if n < 127 => n as u64 | 128,
            _ => 256,
        }
    }
}

/// A machine: pointer width, what a call pushes, and its registers by their DWARF numbers.
#[derive(Clone, Copy, Debug, PartialEq, Eq)]
pub struct Machine {
    /// The width of its pointers.
    pub word: Word,
    /// The bytes that a call pushes: 0, or a multiple of the word below 2^31.
    pub pushed: u64,
    /// The stack pointer's DWARF number.
    pub stack_pointer: u16,
    /// The return address's DWARF number.
    pub return_address: u16,
    /// The frame pointer's DWARF number, if there is one.
    pub frame_pointer: Option<u16>,
    /// What DWARF numbers 0 to 63 are on the machine; from 64 on there is none.
    pub registers: [MachineRegister; 64],
}

/// DWARF 0 to 63 on x86-64: 16 integer registers, the return address, which is none, and 16 vector registers.
// Computed by the compiler, which refuses a place outside the list.
#[allow(clippy::indexing_slicing, clippy::arithmetic_side_effects)]
const X86_64_REGISTERS: [MachineRegister; 64] = {
    let mut registers = [MachineRegister::None; 64];
    let integers = [0, 2, 1, 3, 6, 7, 5, 4, 8, 9, 10, 11, 12, 13, 14, 15];
    let mut n = 0;
    while n < 16 {
        registers[n] = MachineRegister::Integer(integers[n]);
        registers[n + 17] = MachineRegister::Vector(n as u8);
        n += 1;
    }
    registers
};

impl Machine {
    /// x86-64: word 8, a call pushes 8 bytes, stack pointer 7, return address 16, frame pointer 6 (System V psABI).
    pub const X86_64: Machine = Machine {
        word: Word::Eight,
        pushed: 8,
        stack_pointer: 7,
        return_address: 16,
        frame_pointer: Some(6),
        registers: X86_64_REGISTERS,
    };

    /// The machine as a list of numbers.
    #[must_use]
    pub fn numbers(&self) -> [u64; 70] {
        let frame = self.frame_pointer.map_or(65_536, u64::from);
        let front = [self.word.bytes(), self.pushed, u64::from(self.stack_pointer), u64::from(self.return_address), frame, 0];
        let mut list = [0; 70];
        let numbers = front.into_iter().chain(self.registers.into_iter().map(MachineRegister::number));
        for (slot, number) in list.iter_mut().zip(numbers) {
            *slot = number;
        }
        list
    }
}

/// The object format that a table is for.
#[derive(Clone, Copy, Debug, PartialEq, Eq, Hash)]
pub enum Format {
    /// eh_frame with call sites, and debug_frame.
    Elf,
    /// Windows x64 unwind data.
    Coff,
    /// Not written any more: a list that is not empty is refused by 78. Its sections are read as eh_frame.
    MachO,
    /// No table.
    Wasm,
    /// No table.
    Plan9,
}

impl Format {
    /// The format's number.
    #[must_use]
    pub const fn number(self) -> u64 {
        match self {
            Format::Elf => 0,
            Format::Coff => 1,
            Format::MachO => 2,
            Format::Wasm => 3,
            Format::Plan9 => 4,
        }
    }
}

/// Which of the two DWARF sections.
#[derive(Clone, Copy, Debug, PartialEq, Eq, Hash)]
pub enum Section {
    /// eh_frame.
    Eh,
    /// debug_frame.
    Debug,
}

impl Section {
    /// The section kind's number.
    #[must_use]
    pub const fn number(self) -> u64 {
        match self {
            Section::Eh => 0,
            Section::Debug => 1,
        }
    }
}

/// What a row states from its offset on. Registers are DWARF numbers.
#[derive(Clone, Copy, Debug, PartialEq, Eq, Hash)]
pub enum Op {
    /// The frame address is this register plus this offset.
    DefCfa(u16, i32),
    /// The frame address's offset is this.
    DefCfaOffset(i32),
    /// The frame address's register is this.
    DefCfaRegister(u16),
    /// The register is saved at the frame address plus this offset.
    Offset(u16, i32),
    /// The register's rule is the one after the leading rows.
    Restore(u16),
    /// The register's value is gone.
    Undefined(u16),
    /// The frame address rule and all registers' rules are stored.
    RememberState,
    /// The rules stored last are brought back.
    RestoreState,
    /// The return address is signed, or no longer signed.
    NegateRaState,
    /// The register has the caller's value.
    SameValue(u16),
    /// The second register holds the caller's value of the first.
    InRegister(u16, u16),
}

/// A row: an offset in its function, and what holds from there on.
#[derive(Clone, Copy, Debug, PartialEq, Eq, Hash)]
pub struct Row {
    /// The offset in the function's code, in bytes.
    pub offset: u64,
    /// What the row states.
    pub op: Op,
}

impl Row {
    /// A row.
    #[must_use]
    pub const fn new(offset: u64, op: Op) -> Row {
        Row { offset, op }
    }

    /// The row as a record of its list.
    pub(crate) fn numbers(&self) -> [u64; 4] {
        // An offset's number is its 32-bit two's complement.
        let (kind, register, operand) = match self.op {
            Op::DefCfa(register, offset) => (0, register, offset),
            Op::DefCfaOffset(offset) => (1, 0, offset),
            Op::DefCfaRegister(register) => (2, register, 0),
            Op::Offset(register, offset) => (3, register, offset),
            Op::Restore(register) => (4, register, 0),
            Op::Undefined(register) => (5, register, 0),
            Op::RememberState => (6, 0, 0),
            Op::RestoreState => (7, 0, 0),
            Op::NegateRaState => (8, 0, 0),
            Op::SameValue(register) => (9, register, 0),
            Op::InRegister(register, other) => (10, register, i32::from(other)),
        };
        [self.offset, kind, u64::from(register), u64::from(operand as u32)]
    }
}

/// A landing: where a call in a range of the function goes when it unwinds.
#[derive(Clone, Copy, Debug, PartialEq, Eq, Hash)]
pub struct Landing {
    /// Where the range starts.
    pub start: u64,
    /// How long it is.
    pub length: u64,
    /// The place of the landing pad.
    pub pad: u64,
}

/// An encoded pointer to a symbol.
#[derive(Clone, Copy, Debug, PartialEq, Eq, Hash)]
pub struct Pointer {
    /// The pointer encoding's byte (`DW_EH_PE_..`).
    pub encoding: u8,
    /// The symbol, 16 to 2^32 - 1.
    pub symbol: u32,
}

impl Pointer {
    pub(crate) const fn numbers(self) -> [u64; 3] {
        [1, self.encoding as u64, self.symbol as u64]
    }
}

/// A function's named personality.
#[derive(Clone, Copy, Debug, PartialEq, Eq, Hash)]
pub struct Personality {
    /// The personality routine.
    pub pointer: Pointer,
    /// Its table, if there is one.
    pub lsda: Option<Pointer>,
}

/// Two places of a function between which the linker may take bytes out.
#[derive(Clone, Copy, Debug, PartialEq, Eq, Hash)]
pub struct Pair {
    /// The offset of the first place.
    pub first: u64,
    /// The offset of the second.
    pub second: u64,
    /// The first place's symbol, 16 to 2^32 - 1.
    pub first_symbol: u32,
    /// The second place's symbol, 16 to 2^32 - 1.
    pub second_symbol: u32,
}

/// The labels of a function whose code the linker may shorten.
#[derive(Clone, Copy, Debug, PartialEq, Eq)]
pub struct Relaxed<'a> {
    /// The symbol of the function's end, 16 to 2^32 - 1.
    pub end: u32,
    /// The pairs of places.
    pub pairs: &'a [Pair],
}

/// A function, as the table writers take it.
#[derive(Clone, Copy, Debug, Default, PartialEq, Eq)]
pub struct Function<'a> {
    /// Its symbol, 16 to 2^32 - 1.
    pub symbol: u32,
    /// The length of its code in bytes.
    pub length: u64,
    /// Its rows, in the order of their offsets.
    pub rows: &'a [Row],
    /// Its landings.
    pub landings: &'a [Landing],
    /// Whether the rules that hold at every function's start are left out.
    pub simple: bool,
    /// Whether it is entered by a signal or trap, not by a call.
    pub signal: bool,
    /// Its personality, if it has one.
    pub personality: Option<Personality>,
    /// Its relaxing labels, if it has any.
    pub relaxed: Option<Relaxed<'a>>,
}

impl<'a> Function<'a> {
    /// A plain function; the other fields are none, empty or false.
    #[must_use]
    pub const fn new(symbol: u32, length: u64, rows: &'a [Row]) -> Function<'a> {
        Function { symbol, length, rows, landings: &[], simple: false, signal: false, personality: None, relaxed: None }
    }
}

/// What an x64 prologue does at an offset. Registers are machine numbers, 0 to 15.
#[derive(Clone, Copy, Debug, PartialEq, Eq, Hash)]
pub enum CodeOp {
    /// The register is pushed.
    Push(u16),
    /// So many bytes of stack are taken: a positive multiple of 8.
    Alloc(i64),
    /// The register is the frame pointer, this offset above the stack pointer: 0 to 240, a multiple of 16.
    Frame(u16, i64),
    /// The integer register is saved at this offset.
    Save(u16, i64),
    /// The vector register is saved at this offset.
    SaveVector(u16, i64),
}

/// A code of an x64 prologue.
#[derive(Clone, Copy, Debug, PartialEq, Eq, Hash)]
pub struct Code {
    /// The offset behind the instruction, to 255.
    pub offset: u64,
    /// What the instruction does.
    pub op: CodeOp,
}

impl Code {
    /// A code.
    #[must_use]
    pub const fn new(offset: u64, op: CodeOp) -> Code {
        Code { offset, op }
    }

    /// The code of a record of its list, as the x64 reader stores it: registers to 15, and values below 2^63.
    pub(crate) fn of(numbers: &[u64; 5]) -> Code {
        let [offset, kind, register, vector, value] = *numbers;
        let (register, value) = (register as u16, value as i64);
        let op = match (kind, vector) {
            (0, _) => CodeOp::Push(register),
            (1, _) => CodeOp::Alloc(value),
            (2, _) => CodeOp::Frame(register, value),
            (_, 0) => CodeOp::Save(register, value),
            _ => CodeOp::SaveVector(register, value),
        };
        Code { offset, op }
    }

    /// The code as a record of its list.
    pub(crate) fn numbers(&self) -> [u64; 5] {
        // A value's number is its 64-bit two's complement.
        let (kind, register, vector, value) = match self.op {
            CodeOp::Push(register) => (0, register, 0, 0),
            CodeOp::Alloc(value) => (1, 0, 0, value),
            CodeOp::Frame(register, value) => (2, register, 0, value),
            CodeOp::Save(register, value) => (3, register, 0, value),
            CodeOp::SaveVector(register, value) => (3, register, 1, value),
        };
        [self.offset, kind, u64::from(register), vector, value as u64]
    }
}

/// A function of direct codes, as [`seh`](crate::seh) takes it.
#[derive(Clone, Copy, Debug, Default, PartialEq, Eq)]
pub struct Prologue<'a> {
    /// The function's symbol, 16 to 2^32 - 1.
    pub symbol: u32,
    /// The length of its code in bytes, below 2^32.
    pub length: u64,
    /// Where its prologue ends, to 255.
    pub end: u64,
    /// The codes, in the order of the instructions.
    pub codes: &'a [Code],
}

/// A call site, read: its start, its length and its pad count from the function's start.
#[derive(Clone, Copy, Debug, PartialEq, Eq, Hash)]
pub struct Site {
    /// Where the calls start.
    pub start: u64,
    /// How long they are.
    pub length: u64,
    /// Where the handler is; 0 is none.
    pub pad: u64,
    /// Whether every number of its table is spelled in as few bytes as can be.
    pub shortest: bool,
}

/// An x64 record, read.
#[derive(Clone, Debug, PartialEq, Eq)]
pub struct X64Record {
    /// Where the prologue ends.
    pub end: u8,
    /// The header's frame register and its offset. They are meant where a code is [`CodeOp::Frame`], and 0 in most records without one.
    pub frame: (u8, u8),
    /// The codes, in the order of the instructions.
    pub codes: Vec<Code>,
}

/// The kind of a relocation.
#[derive(Clone, Copy, Debug, PartialEq, Eq, Hash)]
pub enum Kind {
    /// The distance from the place to the symbol, 4 bytes.
    Data,
    /// The symbol's address.
    Address,
    /// The symbol's address is added.
    SumPlus,
    /// The symbol's address is taken away.
    SumMinus,
    /// The distance from the image's start, 4 bytes.
    Image,
    /// The low 6 bits of a byte are set.
    Set6,
    /// From the low 6 bits of a byte is subtracted.
    Sub6,
    /// A byte is set.
    Set8,
    /// From a byte is subtracted.
    Sub8,
    /// 2 bytes are set.
    Set16,
    /// From 2 bytes is subtracted.
    Sub16,
    /// 4 bytes are set.
    Set32,
    /// From 4 bytes is subtracted.
    Sub32,
}

impl Kind {
    /// The kind of a number.
    #[must_use]
    pub const fn of(number: u64) -> Option<Kind> {
        Some(match number {
            0 => Kind::Data,
            1 => Kind::Address,
            2 => Kind::SumPlus,
            3 => Kind::SumMinus,
            4 => Kind::Image,
            5 => Kind::Set6,
            6 => Kind::Sub6,
            7 => Kind::Set8,
            8 => Kind::Sub8,
            9 => Kind::Set16,
            10 => Kind::Sub16,
            11 => Kind::Set32,
            12 => Kind::Sub32,
            _ => return None,
        })
    }
}

/// What a relocation's symbol is.
#[derive(Clone, Copy, Debug, PartialEq, Eq, Hash)]
pub enum Target {
    /// The reference to the personality routine of landings.
    Personality,
    /// The section of call sites.
    ExceptTable,
    /// The section .debug_frame itself.
    DebugFrame,
    /// A symbol of the caller's.
    Symbol(u32),
    /// The `$unwind$` marker of a function's symbol.
    Marker(u32),
}

impl Target {
    /// What a number stands for.
    #[must_use]
    pub const fn of(number: u64) -> Option<Target> {
        let low = number as u32;
        match (number >> 32, low) {
            (0, 0) => Some(Target::Personality),
            (0, 1) => Some(Target::ExceptTable),
            (0, 2) => Some(Target::DebugFrame),
            (0, 16..) => Some(Target::Symbol(low)),
            (1, 16..) => Some(Target::Marker(low)),
            _ => None,
        }
    }
}

/// A relocation: five numbers, as they stand in its list. [`Relocation::kind`] and [`Relocation::target`] say what two of them mean.
#[derive(Clone, Copy, Debug, Default, PartialEq, Eq, Hash)]
#[repr(C)]
pub struct Relocation {
    /// Where in the section the field stands.
    pub place: u64,
    /// The symbol's number.
    pub symbol: u64,
    /// The kind's number.
    pub kind: u64,
    /// The field's size in bytes.
    pub size: u64,
    /// What is added.
    pub addend: u64,
}

// Five numbers without a gap: slices of relocations are lent as slices of numbers.
const _: () = assert!(size_of::<Relocation>() == 5 * size_of::<u64>() && align_of::<Relocation>() == align_of::<u64>());

impl Relocation {
    /// The kind; always one in what a writer wrote.
    #[must_use]
    pub const fn kind(&self) -> Option<Kind> {
        Kind::of(self.kind)
    }

    /// What the symbol is; always one in what a writer wrote.
    #[must_use]
    pub const fn target(&self) -> Option<Target> {
        Target::of(self.symbol)
    }

    /// Relocations as the list of numbers that they are.
    #[must_use]
    pub fn numbers(relocations: &[Relocation]) -> &[u64] {
        // SAFETY: a relocation is five u64 without a gap and aligned as one, so five times as many numbers stand there, initialised
        // and borrowed as long as the relocations. Five times the count does not overflow: the relocations take 40 bytes each.
        unsafe { core::slice::from_raw_parts(relocations.as_ptr().cast(), relocations.len().wrapping_mul(5)) }
    }

    /// The same, to be written through.
    pub fn numbers_mut(relocations: &mut [Relocation]) -> &mut [u64] {
        // SAFETY: as in `numbers`; every number is one that a field may hold, and the borrow is unique.
        unsafe { core::slice::from_raw_parts_mut(relocations.as_mut_ptr().cast(), relocations.len().wrapping_mul(5)) }
    }
}

/// Where the frame address is.
#[derive(Clone, Copy, Debug, PartialEq, Eq, Hash)]
pub enum Frame {
    /// No rule.
    Unset,
    /// This register plus this offset.
    Register {
        /// The register's DWARF number.
        register: u16,
        /// The offset.
        offset: i64,
    },
}

/// Where a register's value in the caller is.
#[derive(Clone, Copy, Debug, PartialEq, Eq, Hash)]
pub enum Rule {
    /// No row states a rule.
    Unstated,
    /// The value is gone.
    Undefined,
    /// At the frame address plus this offset.
    Saved(i64),
    /// In the register itself.
    SameValue,
    /// In this other register.
    InRegister(u16),
}

/// What the reader answers: the rules at an offset of a function, for one register.
#[derive(Clone, Copy, Debug, PartialEq, Eq, Hash)]
pub struct Rules {
    /// The frame address rule.
    pub frame: Frame,
    /// The register's rule.
    pub rule: Rule,
    /// Whether the return address is signed there.
    pub signing: bool,
    /// Whether every LEB number that was read for the answer, of the fields and of the operations, is spelled in as few bytes as can be.
    pub shortest: bool,
}

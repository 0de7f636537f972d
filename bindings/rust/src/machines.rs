//! Ready machines beside x86-64.

use crate::{Machine, MachineRegister, Word};

/// DWARF numbers below `count` are the integer registers of their numbers.
// Computed by the compiler, which refuses a place outside the list.
#[allow(clippy::indexing_slicing, clippy::arithmetic_side_effects)]
const fn integers(count: usize) -> [MachineRegister; 64] {
    let mut registers = [MachineRegister::None; 64];
    let mut n = 0;
    while n < count {
        registers[n] = MachineRegister::Integer(n as u8);
        n += 1;
    }
    registers
}

impl Machine {
    /// AArch64: word 8, a call pushes nothing, stack pointer 31, return address 30, frame pointer 29 (DWARF for the Arm 64-bit
    /// Architecture, section 4.1).
    ///
    /// ```
    /// use dekvoz::{read, relaxed_table, Builder, Format, Machine, Rule, Section};
    ///
    /// // stp x29, x30, [sp, #-16]!; ..
    /// let function = Builder::new(16, 32).at(4).def_cfa_offset(16).offset(29, -16).offset(30, -8).done();
    /// let table = relaxed_table(&Machine::AARCH64, Format::Elf, &[function.function()])?;
    /// let rules = read(&table.bytes, &table.relocations, Section::Eh, Machine::AARCH64.word, 0, 30, 8)?;
    /// assert_eq!(rules.rule, Rule::Saved(-8));
    /// # Ok::<(), dekvoz::Refusal>(())
    /// ```
    pub const AARCH64: Machine = Machine {
        word: Word::Eight,
        pushed: 0,
        stack_pointer: 31,
        return_address: 30,
        frame_pointer: Some(29),
        registers: integers(32),
    };

    /// RISC-V of 64 bits: word 8, a call pushes nothing, stack pointer 2, return address 1, frame pointer 8 (RISC-V DWARF Specification,
    /// table 1).
    pub const RISCV64: Machine = Machine {
        word: Word::Eight,
        pushed: 0,
        stack_pointer: 2,
        return_address: 1,
        frame_pointer: Some(8),
        registers: integers(32),
    };

    /// RISC-V of 32 bits: as the one of 64, with word 4.
    pub const RISCV32: Machine = Machine { word: Word::Four, ..Machine::RISCV64 };

    /// ARM of 32 bits: word 4, a call pushes nothing, stack pointer 13, return address 14, frame pointer 11 (DWARF for the Arm
    /// Architecture, section 4.1).
    pub const ARM: Machine = Machine {
        word: Word::Four,
        pushed: 0,
        stack_pointer: 13,
        return_address: 14,
        frame_pointer: Some(11),
        registers: integers(16),
    };
}

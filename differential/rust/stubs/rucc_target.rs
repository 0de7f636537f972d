//! The machine, in a shape of this repository.

#[derive(Debug, Clone, Copy, PartialEq, Eq)]
pub enum ObjectFormat {
    Elf,
    Coff,
    MachO,
    Wasm,
    Plan9,
}

#[derive(Debug, Clone, Copy, PartialEq, Eq)]
pub enum Class {
    Int,
    Sse,
}

/// A machine register. A machine has the stack and frame pointer by their DWARF numbers, so a
/// register carries that number itself, and a machine without a frame pointer carries none.
#[derive(Debug, Clone, Copy)]
pub struct Reg {
    pub number: u8,
    pub dwarf: Option<u16>,
}

impl Reg {
    pub fn number(self) -> u8 {
        self.number
    }
}

#[derive(Debug, Clone)]
pub struct CallRegs {
    pub word: u32,
    pub return_address: u32,
    pub dwarf_return_address: u16,
    pub int_class: Class,
    pub sse_class: Class,
    pub stack_pointer: Reg,
    pub frame_pointer: Reg,
    /// What each DWARF number maps to, as the machine list numbers it: 0 to 127 an integer
    /// register, 128 to 254 a vector register, 255 none.
    pub map: Vec<u8>,
}

impl CallRegs {
    pub fn dwarf(&self, _class: Class, reg: Reg) -> Option<u16> {
        reg.dwarf
    }

    pub fn machine(&self, class: Class, dwarf: u16) -> Option<Reg> {
        let mapped = *self.map.get(usize::from(dwarf))?;
        let number = match (class, mapped) {
            (Class::Int, 0..=127) => mapped,
            (Class::Sse, 128..=254) => mapped - 128,
            _ => return None,
        };
        Some(Reg { number, dwarf: Some(dwarf) })
    }
}

pub mod riscv64 {
    #[derive(Debug, Clone, Copy, PartialEq, Eq)]
    pub enum Fixup {
        Set6,
        Sub6,
        Set8,
        Sub8,
        Set16,
        Sub16,
        Set32,
        Sub32,
    }
}

//! What the source reads of a function and what it writes, as far as it uses them.

use rucc_target::riscv64::Fixup;

/// The name of the section of call sites. The harness prints it as symbol 1.
pub const EXCEPT_TABLE: &str = ".gcc_except_table";

#[derive(Debug, Clone, Default)]
pub struct Extent {
    pub name: String,
    pub len: usize,
    pub landings: Vec<Landing>,
}

#[derive(Debug, Clone)]
pub struct Landing {
    pub start: usize,
    pub len: usize,
    pub pad: usize,
}

#[derive(Debug, Clone)]
pub enum Reference {
    Data,
    Address { bytes: u8 },
    Sum { bytes: u8, minus: bool },
    Image,
    Riscv(Fixup),
}

#[derive(Debug, Clone)]
pub struct Reloc {
    pub at: usize,
    pub symbol: String,
    pub kind: Reference,
    pub addend: i64,
    pub after: u8,
}

#[derive(Debug, Clone)]
pub struct Marker {
    pub name: String,
    pub at: usize,
}

#[derive(Debug, Clone)]
pub struct Chunk {
    pub name: String,
    pub bytes: Vec<u8>,
    pub relocs: Vec<Reloc>,
}

#[derive(Debug, Clone, Default)]
pub struct Unwind {
    pub bytes: Vec<u8>,
    pub relocs: Vec<Reloc>,
    pub except: Vec<u8>,
    pub info: Vec<u8>,
    pub labels: Vec<Marker>,
}

//! The relocations of an unlinked ELF file's frame section, applied to a copy: sections start at 0 there, so that addresses are counted
//! from a function's own section.

use crate::object::Relocated;

/// The machines by e_machine.
const I386: u64 = 3;
const ARM: u64 = 40;
const X86_64: u64 = 62;
const AARCH64: u64 = 183;
const RISC_V: u64 = 243;

/// What a relocation does to its field.
#[derive(Clone, Copy, Debug, PartialEq, Eq)]
enum Kind {
    /// Nothing: what it says is for a linker that moves code.
    Nothing,
    /// The field becomes the value.
    Value,
    /// The field becomes the value less the field's own address.
    Distance,
    /// The value is added, or taken away.
    Add,
    Sub,
    /// The low six bits become the value's, or lose it.
    Set6,
    Sub6,
}

/// A kind and the bytes of its field, by the machine's ABI; none of a kind that is not known here.
fn kind(machine: u64, number: u64) -> Option<(Kind, usize)> {
    Some(match (machine, number) {
        (_, 0) => (Kind::Nothing, 0),
        // x86-64 psABI, table 4.9: R_X86_64_64, PC32, 32, PC64.
        (X86_64, 1) => (Kind::Value, 8),
        (X86_64, 2) => (Kind::Distance, 4),
        (X86_64, 10) => (Kind::Value, 4),
        (X86_64, 24) => (Kind::Distance, 8),
        // i386 psABI, table 4.9: R_386_32, PC32.
        (I386, 1) => (Kind::Value, 4),
        (I386, 2) => (Kind::Distance, 4),
        // ELF for the Arm 64-bit Architecture, section 5.7.4: ABS64, ABS32, PREL64, PREL32.
        (AARCH64, 257) => (Kind::Value, 8),
        (AARCH64, 258) => (Kind::Value, 4),
        (AARCH64, 260) => (Kind::Distance, 8),
        (AARCH64, 261) => (Kind::Distance, 4),
        // ELF for the Arm Architecture, section 5.6.1: ABS32, REL32.
        (ARM, 2) => (Kind::Value, 4),
        (ARM, 3) => (Kind::Distance, 4),
        // RISC-V ELF psABI, "Relocations": 32, 64, ADD, SUB, RELAX, SUB6, SET6, SET, 32_PCREL.
        (RISC_V, 1) => (Kind::Value, 4),
        (RISC_V, 2) => (Kind::Value, 8),
        (RISC_V, 33..=36) => (Kind::Add, 1 << (number - 33)),
        (RISC_V, 37..=40) => (Kind::Sub, 1 << (number - 37)),
        (RISC_V, 51) => (Kind::Nothing, 0),
        (RISC_V, 52) => (Kind::Sub6, 1),
        (RISC_V, 53) => (Kind::Set6, 1),
        (RISC_V, 54..=56) => (Kind::Value, 1 << (number - 54)),
        (RISC_V, 57) => (Kind::Distance, 4),
        _ => return None,
    })
}

/// A section with its relocations applied.
pub struct Moved {
    /// The bytes.
    pub bytes: Vec<u8>,
    /// The places of relocations that could not be applied, in order: of a kind that is not known here, or to a symbol of another file.
    pub left: Vec<u64>,
}

/// Applies relocations, in order.
pub fn applied(bytes: &[u8], machine: u64, relocations: &[Relocated]) -> Moved {
    let mut moved = Moved { bytes: bytes.to_vec(), left: Vec::new() };
    for relocation in relocations {
        if one(&mut moved.bytes, machine, relocation).is_none() {
            moved.left.push(relocation.place);
        }
    }
    moved.left.sort_unstable();
    moved
}

fn one(bytes: &mut [u8], machine: u64, relocation: &Relocated) -> Option<()> {
    let (kind, size) = kind(machine, relocation.kind)?;
    if kind == Kind::Nothing {
        return Some(());
    }
    relocation.section?;
    let at = usize::try_from(relocation.place).ok()?;
    let field = bytes.get_mut(at..at.checked_add(size)?)?;
    let old = field.iter().rev().fold(0u64, |n, byte| n << 8 | u64::from(*byte));
    let value = relocation.value;
    let new = match kind {
        Kind::Nothing | Kind::Value => value,
        Kind::Distance => value.wrapping_sub(relocation.place),
        Kind::Add => old.wrapping_add(value),
        Kind::Sub => old.wrapping_sub(value),
        Kind::Set6 => old & 0xc0 | value & 0x3f,
        Kind::Sub6 => old & 0xc0 | old.wrapping_sub(value) & 0x3f,
    };
    field.iter_mut().zip(new.to_le_bytes()).for_each(|(byte, new)| *byte = new);
    Some(())
}

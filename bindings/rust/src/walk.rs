//! The walk over a recorded fault: the chain of callers, by the rules of a section.
//!
//! ```
//! use dekvoz::walk::{recorded, walk, Ending, Fault, Frame};
//! use dekvoz::{relaxed_table, Builder, Format, FrameSection, Machine, Placed, Section};
//!
//! // main calls leaf, which pushed rbx before it was stopped at offset 8.
//! let leaf = Builder::new(16, 32).at(1).def_cfa_offset(16).offset(3, -16).done();
//! let main = Builder::new(17, 48).undefined(16).done();
//! let machine = Machine::X86_64;
//! let table = relaxed_table(&machine, Format::Elf, &[leaf.function(), main.function()])?;
//! let (kind, word) = (Section::Eh, machine.word);
//! let section = FrameSection { bytes: &table.bytes, relocations: &table.relocations, kind, word, address: 0 };
//!
//! // Two words of the stack at 0x8000, rbx and the return address; of the registers 0 to 7 rsp is needed.
//! let stack: Vec<u8> = [7, 0x2009_u64].iter().flat_map(|word| word.to_le_bytes()).collect();
//! let record = recorded(&stack, &[0, 0, 0, 0, 0, 0, 0, 0x8000]);
//! let fault = Fault { machine: &machine, record: &record, pc: 0x1008, stack: 0x8000 };
//! let functions = [Placed { address: 0x1000, length: 32 }, Placed { address: 0x2000, length: 48 }];
//! let chain = walk(&fault, &section, &functions)?;
//! assert_eq!(chain.frames, [Frame { position: 0, pc: 0x1008 }, Frame { position: 1, pc: 0x2009 }]);
//! assert_eq!(chain.ending, Ending::ReturnUndefined);
//! # Ok::<(), dekvoz::Refusal>(())
//! ```

use alloc::vec::Vec;

use crate::sys;
use crate::{FrameSection, Machine, Placed, Refusal, Relocation};

/// The most frames of a chain.
pub const MOST_FRAMES: usize = 64;

/// What was recorded when a program stopped.
#[derive(Clone, Copy, Debug)]
pub struct Fault<'a> {
    /// The machine, of words of 8 bytes (question 12).
    pub machine: &'a Machine,
    /// The record file; [`recorded`] makes one.
    pub record: &'a [u8],
    /// Where the program was stopped.
    pub pc: u64,
    /// The address of the first of the stack's bytes.
    pub stack: u64,
}

/// A frame of a chain.
#[derive(Clone, Copy, Debug, PartialEq, Eq, Hash)]
pub struct Frame {
    /// The position of its function in the list, which is its record's number.
    pub position: u64,
    /// The pc, or of a caller its return address.
    pub pc: u64,
}

/// Why a chain ends.
#[derive(Clone, Copy, Debug, PartialEq, Eq, Hash)]
pub enum Ending {
    /// The rules of the last frame leave the return address undefined.
    ReturnUndefined,
    /// No function holds the address: the return address of the last frame, or the pc where there is no frame.
    HeldByNone,
    /// A 65th frame would follow.
    TooMany,
}

impl Ending {
    /// Its number (include/dekvoz.h).
    #[must_use]
    pub const fn number(self) -> u64 {
        match self {
            Ending::ReturnUndefined => 1,
            Ending::HeldByNone => 2,
            Ending::TooMany => 3,
        }
    }

    const fn of(number: u64) -> Ending {
        match number {
            1 => Ending::ReturnUndefined,
            2 => Ending::HeldByNone,
            // 3; the library answers no other.
            _ => Ending::TooMany,
        }
    }
}

/// A chain of callers.
#[derive(Clone, Debug, PartialEq, Eq, Hash)]
pub struct Chain {
    /// The frames, from where the program was stopped on.
    pub frames: Vec<Frame>,
    /// Why there are no more.
    pub ending: Ending,
}

/// A record file: the stack's bytes, the values of the registers from DWARF number 0 on, and the trailer. Of more than 128 registers, or
/// more than 65,536 bytes, the walk says 73.
#[must_use]
pub fn recorded(stack: &[u8], registers: &[u64]) -> Vec<u8> {
    let distance = (registers.len() as u64).wrapping_mul(8);
    let (count, length) = (registers.len() as u32, stack.len() as u32);
    let values = registers.iter().flat_map(|value| value.to_le_bytes());
    let trailer = distance.to_le_bytes().into_iter().chain(count.to_le_bytes()).chain(length.to_le_bytes());
    stack.iter().copied().chain(values).chain(trailer).collect()
}

/// The function of each record, by the record's own fields, as [`walk`] takes them. A record that is too short for its fields has the
/// length 0, so that it holds no address.
///
/// # Errors
/// 61.
pub fn functions(section: &FrameSection<'_>) -> Result<Vec<Placed>, Refusal> {
    let placed = |place| section.function(place).unwrap_or(Placed { address: 0, length: 0 });
    Ok(section.records()?.into_iter().map(|record| placed(record.place)).collect())
}

/// The chain of callers of a recorded fault. `functions` are those of the section's records, in order; the first that holds an address is
/// taken. Of the section its bytes, relocations and kind count.
///
/// # Errors
/// The question that was answered by no: 73, 11, 12, then frame by frame 61 to 69, 74 or 75.
pub fn walk(fault: &Fault<'_>, section: &FrameSection<'_>, functions: &[Placed]) -> Result<Chain, Refusal> {
    let list: Vec<[u64; 2]> = functions.iter().map(|placed| [placed.address, placed.length]).collect();
    let mut frames = [[0; 2]; MOST_FRAMES];
    let (count, ending) = walk_lists(fault, section, &list, &mut frames)?;
    Ok(Chain { frames: frames.iter().take(count).map(|&[position, pc]| Frame { position, pc }).collect(), ending })
}

/// The frames that are found, and how the walk ended: where it is refused, those up to the frame at which it is, that one too. Else as
/// [`walk`].
///
/// ```
/// use dekvoz::walk::{recorded, walk_found, Fault, Frame};
/// use dekvoz::{relaxed_table, Builder, Format, FrameSection, Machine, Placed, Section};
///
/// let leaf = Builder::new(16, 32).at(1).def_cfa_offset(16).done();
/// let machine = Machine::X86_64;
/// let table = relaxed_table(&machine, Format::Elf, &[leaf.function()])?;
/// let (kind, word) = (Section::Eh, machine.word);
/// let section = FrameSection { bytes: &table.bytes, relocations: &table.relocations, kind, word, address: 0 };
/// // No word of the stack was recorded, so the caller cannot be told: 74.
/// let record = recorded(&[], &[0, 0, 0, 0, 0, 0, 0, 0x8000]);
/// let fault = Fault { machine: &machine, record: &record, pc: 0x1008, stack: 0x8000 };
/// let (frames, ending) = walk_found(&fault, &section, &[Placed { address: 0x1000, length: 32 }]);
/// assert_eq!(frames, [Frame { position: 0, pc: 0x1008 }]);
/// assert_eq!(ending.map_err(|no| no.number), Err(74));
/// # Ok::<(), dekvoz::Refusal>(())
/// ```
pub fn walk_found(
    fault: &Fault<'_>,
    section: &FrameSection<'_>,
    functions: &[Placed],
) -> (Vec<Frame>, Result<Ending, Refusal>) {
    let list: Vec<[u64; 2]> = functions.iter().map(|placed| [placed.address, placed.length]).collect();
    let mut frames = [[0; 2]; MOST_FRAMES];
    let said = asked(sys::unwind_walk_found, fault, section, &list, &mut frames);
    let found = frames.iter().take(said.frames as usize).map(|&[position, pc]| Frame { position, pc }).collect();
    (found, ended(&said))
}

/// The same into a lent list, of two numbers a frame: how many there are, and why there are no more. Nothing is allocated. A function is
/// its start address and its length.
///
/// # Errors
/// As [`walk`], and 54, last, where the frames are more than the list holds; it is as it was on any refusal.
pub fn walk_lists(
    fault: &Fault<'_>,
    section: &FrameSection<'_>,
    functions: &[[u64; 2]],
    frames: &mut [[u64; 2]],
) -> Result<(usize, Ending), Refusal> {
    let said = asked(sys::unwind_walk, fault, section, functions, frames);
    Ok((said.frames as usize, ended(&said)?))
}

/// Either walk of the library.
type Walk = unsafe extern "C" fn(
    *const u64,
    usize,
    *const u8,
    usize,
    *const u8,
    usize,
    *const u64,
    usize,
    u64,
    u64,
    u64,
    *const u64,
    usize,
    *mut u64,
    usize,
) -> sys::Chain;

fn asked(
    walk: Walk,
    fault: &Fault<'_>,
    section: &FrameSection<'_>,
    functions: &[[u64; 2]],
    frames: &mut [[u64; 2]],
) -> sys::Chain {
    let machine = fault.machine.numbers();
    let relocations = Relocation::numbers(section.relocations);
    let (functions, frames) = (functions.as_flattened(), frames.as_flattened_mut());
    // SAFETY: each pointer and count come from one slice, so they are valid and aligned; `frames` is a unique reference, so it overlaps
    // no other. The function takes every number.
    unsafe {
        walk(
            machine.as_ptr(),
            machine.len(),
            fault.record.as_ptr(),
            fault.record.len(),
            section.bytes.as_ptr(),
            section.bytes.len(),
            relocations.as_ptr(),
            relocations.len(),
            section.kind.number(),
            fault.pc,
            fault.stack,
            functions.as_ptr(),
            functions.len(),
            frames.as_mut_ptr(),
            frames.len(),
        )
    }
}

const fn ended(said: &sys::Chain) -> Result<Ending, Refusal> {
    match said.number {
        0 => Ok(Ending::of(said.ending)),
        number => Err(Refusal { number, position: 0 }),
    }
}

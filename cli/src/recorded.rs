//! The file of a recorded fault: stack bytes, registers of 8 bytes, and a trailer of 16 bytes. The library's walk has accepted it (73).

/// The registers that a walk follows.
pub const FOLLOWED: usize = 128;

/// A record file, taken apart.
pub struct Recorded<'a> {
    /// The stack's bytes.
    pub stack: &'a [u8],
    /// The address of the first of them.
    pub address: u64,
    /// The values of the registers, from DWARF number 0 on.
    pub registers: Vec<u64>,
}

fn number(bytes: &[u8]) -> u64 {
    bytes.iter().rev().fold(0, |n, byte| n << 8 | u64::from(*byte))
}

impl<'a> Recorded<'a> {
    /// The parts of a file whose trailer matches; none of one whose trailer does not.
    pub fn new(file: &'a [u8], address: u64) -> Option<Recorded<'a>> {
        let trailer = file.len().checked_sub(16)?;
        let (count, size) = (number(&file[trailer + 8..trailer + 12]), number(&file[trailer + 12..]));
        let size = usize::try_from(size).ok()?;
        let registers = file.get(size..trailer)?;
        let matches = number(&file[trailer..trailer + 8]) == registers.len() as u64 && 8 * count == registers.len() as u64;
        matches.then(|| Recorded { stack: &file[..size], address, registers: registers.chunks(8).map(number).collect() })
    }

    /// The 8 bytes at an address, where all of them are the stack's.
    pub fn load(&self, address: u64) -> Option<u64> {
        let at = usize::try_from(address.checked_sub(self.address)?).ok()?;
        self.stack.get(at..at.checked_add(8)?).map(number)
    }
}

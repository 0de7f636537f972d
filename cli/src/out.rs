//! Text for standard output, through one buffer. An error is kept until `done` or `full` asks for it.

use std::io::{self, Write};

/// How much is gathered before it is written.
const ROOM: usize = 1 << 16;

/// The output of a command.
pub struct Out {
    buffer: Vec<u8>,
    room: usize,
    failed: Option<io::Error>,
}

impl Out {
    /// An empty buffer.
    pub fn new() -> Out {
        Out { buffer: Vec::with_capacity(ROOM + 4096), room: ROOM, failed: None }
    }

    /// A buffer that only gathers, for `append`.
    pub fn gathering() -> Out {
        Out { buffer: Vec::new(), room: usize::MAX, failed: None }
    }

    /// What another buffer gathered.
    pub fn append(&mut self, other: &Out) {
        self.buffer.extend_from_slice(&other.buffer);
        self.write();
    }

    /// A text.
    pub fn text(&mut self, text: &str) -> &mut Out {
        self.buffer.extend_from_slice(text.as_bytes());
        self
    }

    /// A text in a column of this width, at least one space behind it.
    pub fn cell(&mut self, text: &str, width: usize) -> &mut Out {
        self.text(text);
        self.fill(text.len(), width)
    }

    /// As many spaces as a column lacks behind `used` bytes, at least one.
    fn fill(&mut self, used: usize, width: usize) -> &mut Out {
        let gap = width.saturating_sub(used).max(1);
        let length = self.buffer.len() + gap;
        self.buffer.resize(length, b' ');
        self
    }

    /// What `write` stores, in a column.
    pub fn column(&mut self, width: usize, write: impl FnOnce(&mut Out)) -> &mut Out {
        let before = self.buffer.len();
        write(self);
        let used = self.buffer.len() - before;
        self.fill(used, width)
    }

    /// A number.
    pub fn decimal(&mut self, mut n: u64) -> &mut Out {
        let mut digits = [0; 20];
        let mut at = digits.len();
        loop {
            at -= 1;
            digits[at] = b'0' + (n % 10) as u8;
            n /= 10;
            if n == 0 {
                break;
            }
        }
        self.buffer.extend_from_slice(&digits[at..]);
        self
    }

    /// A number in hexadecimal digits, with zeros in front up to a width.
    pub fn hex(&mut self, n: u64, width: usize) -> &mut Out {
        let needed = (67 - n.leading_zeros() as usize) / 4;
        let count = needed.max(width).clamp(1, 16);
        for digit in (0..count).rev() {
            self.buffer.push(b"0123456789abcdef"[(n >> (4 * digit)) as usize & 15]);
        }
        self
    }

    /// A number with its sign where it is negative.
    pub fn signed(&mut self, z: i64) -> &mut Out {
        if z < 0 {
            self.text("-");
        }
        self.decimal(z.unsigned_abs())
    }

    /// A number with its sign always.
    pub fn offset(&mut self, z: i64) -> &mut Out {
        if z >= 0 {
            self.text("+");
        }
        self.signed(z)
    }

    /// Ends a line; a full buffer is written.
    pub fn line(&mut self) -> &mut Out {
        self.buffer.push(b'\n');
        if self.buffer.len() >= self.room {
            self.write();
        }
        self
    }

    fn write(&mut self) {
        if self.failed.is_none() {
            self.failed = io::stdout().lock().write_all(&self.buffer).err();
        }
        self.buffer.clear();
    }

    /// Whether something could not be written, so that more work is in vain.
    pub fn failed(&self) -> bool {
        self.failed.is_some()
    }

    /// Writes what is left.
    ///
    /// # Errors
    /// The first error of all that was written.
    pub fn done(&mut self) -> io::Result<()> {
        self.write();
        match self.failed.take() {
            Some(error) => Err(error),
            None => io::stdout().lock().flush(),
        }
    }
}

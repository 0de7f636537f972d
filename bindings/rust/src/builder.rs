//! A function built row by row.

use alloc::vec::Vec;

use crate::{Function, Landing, Op, Personality, Row};

/// A function with rows and landings of its own. `at` says from which offset on the rows hold that follow.
///
/// ```
/// use dekvoz::{row_check, Builder};
///
/// // push rbp; mov rbp, rsp; ..; pop rbp; ret
/// let control = Builder::new(17, 61)
///     .at(1).def_cfa_offset(16).offset(6, -16)
///     .at(4).def_cfa_register(6)
///     .at(60).def_cfa(7, 8).restore(6)
///     .done();
/// assert!(row_check(&control.function()));
/// assert_eq!(control.function().rows.len(), 5);
/// ```
///
/// Every row, and what is said of a whole function:
///
/// ```
/// use dekvoz::{Builder, Op, Personality, Pointer};
///
/// let built = Builder::new(18, 99)
///     .simple().signal().personality(Personality { pointer: Pointer { encoding: 0, symbol: 40 }, lsda: None })
///     .def_cfa(7, 8).row(Op::Offset(16, -8))
///     .at(4).remember_state().undefined(3).same_value(4).in_register(5, 6).negate_ra_state()
///     .at(8).restore_state()
///     .landing(5, 4, 80)
///     .done();
/// let function = built.function();
/// assert_eq!((function.rows.len(), function.rows[7].offset), (8, 8));
/// assert!(function.simple && function.signal && function.landings[0].pad == 80);
/// ```
#[derive(Clone, Debug, Default, PartialEq, Eq)]
pub struct Builder {
    symbol: u32,
    length: u64,
    offset: u64,
    rows: Vec<Row>,
    landings: Vec<Landing>,
    simple: bool,
    signal: bool,
    personality: Option<Personality>,
}

/// A function that was built; [`Built::function`] is what the writers take.
#[derive(Clone, Debug, PartialEq, Eq)]
pub struct Built(Builder);

impl Built {
    /// The function, which borrows the rows and landings.
    #[must_use]
    pub fn function(&self) -> Function<'_> {
        let Built(built) = self;
        Function {
            symbol: built.symbol,
            length: built.length,
            rows: &built.rows,
            landings: &built.landings,
            simple: built.simple,
            signal: built.signal,
            personality: built.personality,
            relaxed: None,
        }
    }
}

impl Builder {
    /// A function of a symbol (16 to 2^32 - 1) and the length of its code in bytes, without rows.
    #[must_use]
    pub fn new(symbol: u32, length: u64) -> Builder {
        Builder { symbol, length, ..Builder::default() }
    }

    /// The rows that follow hold from this offset on.
    #[must_use]
    pub fn at(self, offset: u64) -> Builder {
        Builder { offset, ..self }
    }

    /// A row.
    #[must_use]
    pub fn row(mut self, op: Op) -> Builder {
        self.rows.push(Row::new(self.offset, op));
        self
    }

    /// The frame address (CFA) is this register plus this offset.
    #[must_use]
    pub fn def_cfa(self, register: u16, offset: i32) -> Builder {
        self.row(Op::DefCfa(register, offset))
    }

    /// The frame address's offset is this.
    #[must_use]
    pub fn def_cfa_offset(self, offset: i32) -> Builder {
        self.row(Op::DefCfaOffset(offset))
    }

    /// The frame address's register is this.
    #[must_use]
    pub fn def_cfa_register(self, register: u16) -> Builder {
        self.row(Op::DefCfaRegister(register))
    }

    /// The register is saved at the frame address plus this offset.
    #[must_use]
    pub fn offset(self, register: u16, offset: i32) -> Builder {
        self.row(Op::Offset(register, offset))
    }

    /// The register's rule is the one at the function's start.
    #[must_use]
    pub fn restore(self, register: u16) -> Builder {
        self.row(Op::Restore(register))
    }

    /// The register's value is gone.
    #[must_use]
    pub fn undefined(self, register: u16) -> Builder {
        self.row(Op::Undefined(register))
    }

    /// The register has the caller's value.
    #[must_use]
    pub fn same_value(self, register: u16) -> Builder {
        self.row(Op::SameValue(register))
    }

    /// The second register holds the caller's value of the first.
    #[must_use]
    pub fn in_register(self, register: u16, other: u16) -> Builder {
        self.row(Op::InRegister(register, other))
    }

    /// All rules are stored.
    #[must_use]
    pub fn remember_state(self) -> Builder {
        self.row(Op::RememberState)
    }

    /// The rules stored last are brought back.
    #[must_use]
    pub fn restore_state(self) -> Builder {
        self.row(Op::RestoreState)
    }

    /// The return address is signed, or no longer signed.
    #[must_use]
    pub fn negate_ra_state(self) -> Builder {
        self.row(Op::NegateRaState)
    }

    /// A call of this range lands at this offset when it unwinds.
    #[must_use]
    pub fn landing(mut self, start: u64, length: u64, pad: u64) -> Builder {
        self.landings.push(Landing { start, length, pad });
        self
    }

    /// It is entered by a signal or trap: its callers stand exactly at their addresses.
    #[must_use]
    pub fn signal(self) -> Builder {
        Builder { signal: true, ..self }
    }

    /// The rules that hold at every function's start are left out.
    #[must_use]
    pub fn simple(self) -> Builder {
        Builder { simple: true, ..self }
    }

    /// Its personality routine.
    #[must_use]
    pub fn personality(self, personality: Personality) -> Builder {
        Builder { personality: Some(personality), ..self }
    }

    /// The function that was built.
    #[must_use]
    pub fn done(self) -> Built {
        Built(self)
    }
}

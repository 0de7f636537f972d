//! Unwind tables: writers of ELF's eh_frame and debug_frame and of Windows unwind data for x64 and for ARM64 ([`arm64`]), a reader of
//! the DWARF ones, the walk over a recorded fault ([`walk`]), a reader of call sites, and readers of Windows unwind data. Safe wrappers
//! over libdekvoz.a, whose functions are proved to give exactly what their specification says.
//!
//! Every function takes every input. A refusal is a [`Refusal`]: the number of the question that was answered by no, and the
//! function's position. The writers of this page make their own buffers; [`lists`] has the same entries over lists of numbers
//! and buffers that the caller lends, and [`structs`] over lists of structs.
//!
//! ```
//! use dekvoz::{read, relaxed_table, row_check, Format, Function, Machine, Op, Row, Rule, Section, Word};
//!
//! // push rbp; mov rbp, rsp; ..; pop rbp; ret
//! let rows = [
//!     Row::new(1, Op::DefCfaOffset(16)),
//!     Row::new(1, Op::Offset(6, -16)),
//!     Row::new(4, Op::DefCfaRegister(6)),
//!     Row::new(30, Op::DefCfa(7, 8)),
//!     Row::new(30, Op::Restore(6)),
//! ];
//! let function = Function::new(16, 31, &rows);
//! assert!(row_check(&function));
//! let table = relaxed_table(&Machine::X86_64, Format::Elf, &[function])?;
//! // Wherever the function stops, the return address stands below the frame address.
//! for p in 0..31 {
//!     let rules = read(&table.bytes, &table.relocations, Section::Eh, Word::Eight, 0, 16, p)?;
//!     assert_eq!(rules.rule, Rule::Saved(-8));
//! }
//! # Ok::<(), dekvoz::Refusal>(())
//! ```
#![no_std]

extern crate alloc;

pub mod arm64;
mod builder;
mod check;
pub mod elf;
pub mod lists;
mod machines;
pub mod parts;
mod question;
mod reads;
mod refusal;
pub mod structs;
mod sys;
mod types;
pub mod walk;
mod write;

pub use builder::{Builder, Built};
pub use check::{check_section, CheckRefusal};
pub use question::Question;
pub use reads::{AllRules, Along, FrameSection, Holder, Line, Located, Placed, Record};
pub use refusal::Refusal;
pub use types::*;
pub use write::{apply, call_site, call_sites_shortest, read, read_x64, relaxed_debug_frame, relaxed_table, row_check, seh, Table};

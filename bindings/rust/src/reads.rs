//! The reader by places: one pass over a section for several questions of its records.

use alloc::collections::BTreeSet;
use alloc::vec;
use alloc::vec::Vec;
use core::ops::Range;

use crate::lists;
use crate::parts::operations;
use crate::sys;
use crate::{Frame, Refusal, Relocation, Rule, Rules, Section, Word};

/// The place of no header, as the index has it.
const NOWHERE: u64 = u64::MAX;

/// A DWARF section, any bytes, with what is known of it.
///
/// ```
/// use dekvoz::{apply, relaxed_table, Format, FrameSection, Function, Machine, Op, Row, Rule, Section, Word};
///
/// let rows = [Row::new(1, Op::DefCfaOffset(16)), Row::new(1, Op::Offset(6, -16))];
/// let table = relaxed_table(&Machine::X86_64, Format::Elf, &[Function::new(16, 9, &rows), Function::new(17, 5, &[])])?;
/// let bytes = apply(&table.bytes, &table.relocations, &[(16, 0x1000), (17, 0x1010)], 0x2000, 0)?;
/// let section = FrameSection { bytes: &bytes, relocations: &[], kind: Section::Eh, word: Word::Eight, address: 0x2000 };
/// // Which function holds an address, and the rules there.
/// let holder = section.at(0x1003)?;
/// assert_eq!(holder.k, 0);
/// let rules = section.locate(holder.k)?.rules(6, 3)?;
/// assert_eq!(rules.rule, Rule::Saved(-16));
/// // All records, each found again with no pass over the section.
/// let records = section.records()?;
/// assert_eq!(section.function(records[1].place)?.address, 0x1010);
/// assert_eq!(section.locate_at(records[1])?.length(), 5);
/// # Ok::<(), dekvoz::Refusal>(())
/// ```
#[derive(Clone, Copy, Debug)]
pub struct FrameSection<'a> {
    /// Its bytes.
    pub bytes: &'a [u8],
    /// Its relocations, which say where the headers of debug_frame's records are.
    pub relocations: &'a [Relocation],
    /// Which section it is.
    pub kind: Section,
    /// The machine's word.
    pub word: Word,
    /// The address of its first byte.
    pub address: u64,
}

/// The place of a record, and of its header where it has one.
#[derive(Clone, Copy, Debug, PartialEq, Eq, Hash)]
pub struct Record {
    /// Where the record's length stands.
    pub place: u64,
    /// Where the header's length stands.
    pub header: Option<u64>,
}

/// A record's function.
#[derive(Clone, Copy, Debug, PartialEq, Eq, Hash)]
pub struct Placed {
    /// Where it starts.
    pub address: u64,
    /// Its length in bytes.
    pub length: u64,
}

/// The record whose function holds an address.
#[derive(Clone, Copy, Debug, PartialEq, Eq, Hash)]
pub struct Holder {
    /// The record's number, from 0.
    pub k: u64,
    /// Where the record's length stands.
    pub place: u64,
}

/// The rules at an offset, of every register that the operations of a record and its header name.
#[derive(Clone, Debug, PartialEq, Eq, Hash)]
pub struct AllRules {
    /// The frame address rule.
    pub frame: Frame,
    /// Whether the return address is signed there.
    pub signing: bool,
    /// Whether every LEB number that was read for the answer is spelled in as few bytes as can be.
    pub shortest: bool,
    /// The registers by their DWARF numbers, in order. Any other has no rule.
    pub registers: Vec<(u16, Rule)>,
}

/// The rules of one register along a record: what [`Located::rules`] answers at every offset.
///
/// ```
/// use dekvoz::{relaxed_table, Builder, Format, FrameSection, Machine, Rule, Section};
///
/// let function = Builder::new(16, 31).at(1).def_cfa_offset(16).offset(6, -16).at(4).def_cfa_register(6).done();
/// let table = relaxed_table(&Machine::X86_64, Format::Elf, &[function.function()])?;
/// let (kind, word) = (Section::Eh, Machine::X86_64.word);
/// let section = FrameSection { bytes: &table.bytes, relocations: &table.relocations, kind, word, address: 0 };
/// let along = section.locate(0)?.along(6)?;
/// assert_eq!(along.iter().map(|line| line.offset).collect::<Vec<_>>(), [0, 1, 4]);
/// assert_eq!(along.line(1).map(|line| line.rule), Some(Rule::Saved(-16)));
/// assert_eq!(along.ended(), None);
/// # Ok::<(), dekvoz::Refusal>(())
/// ```
#[derive(Clone, Debug, Default)]
pub struct Along {
    /// Seven for each line; what is behind the lines means nothing.
    numbers: Vec<u64>,
    lines: usize,
    ended: Option<(u64, Refusal)>,
}

/// A line of [`Along`].
#[derive(Clone, Copy, Debug, PartialEq, Eq, Hash)]
pub struct Line {
    /// The offset from which its rules hold, up to the next line's.
    pub offset: u64,
    /// The rule of the frame address.
    pub frame: Frame,
    /// The rule of the register.
    pub rule: Rule,
    /// Whether the return address is signed.
    pub signing: bool,
}

impl Along {
    /// How many lines there are: none where the header's operations are refused.
    #[must_use]
    pub const fn len(&self) -> usize {
        self.lines
    }

    /// Whether there is no line.
    #[must_use]
    pub const fn is_empty(&self) -> bool {
        self.lines == 0
    }

    /// A line, from 0 on.
    #[must_use]
    #[inline]
    pub fn line(&self, i: usize) -> Option<Line> {
        if self.lines <= i {
            return None;
        }
        let &[offset, ref rules @ ..] = self.numbers.get(i.saturating_mul(7)..)?.first_chunk::<7>()?;
        let (frame, rule, signing) = lists::rules_of(*rules);
        Some(Line { offset, frame, rule, signing })
    }

    /// All lines, in order.
    pub fn iter(&self) -> impl Iterator<Item = Line> + '_ {
        (0..self.lines).filter_map(|i| self.line(i))
    }

    /// From which offset on the reader refuses, and by which question (66 to 69).
    #[must_use]
    pub const fn ended(&self) -> Option<(u64, Refusal)> {
        self.ended
    }
}

/// A record that was located in its section.
#[derive(Clone, Copy, Debug)]
pub struct Located<'a> {
    bytes: &'a [u8],
    word: Word,
    places: sys::Located,
}

const fn accepted(number: u64) -> Result<(), Refusal> {
    match number {
        0 => Ok(()),
        _ => Err(Refusal { number, position: 0 }),
    }
}

impl<'a> FrameSection<'a> {
    fn located(&self, places: sys::Located) -> Result<Located<'a>, Refusal> {
        accepted(places.number)?;
        Ok(Located { bytes: self.bytes, word: self.word, places })
    }

    /// Record `k`.
    ///
    /// # Errors
    /// The question that was answered by no: 61 to 64.
    ///
    /// ```
    /// use dekvoz::{apply, relaxed_table, Format, FrameSection, Function, Machine, Section, Word};
    ///
    /// let table = relaxed_table(&Machine::X86_64, Format::Elf, &[Function::new(16, 9, &[])])?;
    /// let bytes = apply(&table.bytes, &table.relocations, &[(16, 0x1000)], 0x2000, 0)?;
    /// let section = FrameSection { bytes: &bytes, relocations: &[], kind: Section::Eh, word: Word::Eight, address: 0x2000 };
    /// let located = section.locate(0)?;
    /// assert_eq!((located.length(), located.signal()), (9, false));
    /// assert_eq!(section.locate(1).map_err(|no| no.number).err(), Some(62));
    /// # Ok::<(), dekvoz::Refusal>(())
    /// ```
    pub fn locate(&self, k: u64) -> Result<Located<'a>, Refusal> {
        let numbers = Relocation::numbers(self.relocations);
        // SAFETY: each pointer and count come from one slice, and nothing is lent. The function takes every number.
        let places = unsafe {
            sys::unwind_locate(
                self.bytes.as_ptr(),
                self.bytes.len(),
                numbers.as_ptr(),
                numbers.len(),
                self.kind.number(),
                self.word.bytes(),
                k,
            )
        };
        self.located(places)
    }

    /// Where all records and their headers are, in one pass.
    ///
    /// # Errors
    /// 61.
    ///
    /// ```
    /// use dekvoz::{apply, relaxed_table, Format, FrameSection, Function, Machine, Section, Word};
    ///
    /// let table = relaxed_table(&Machine::X86_64, Format::Elf, &[Function::new(16, 9, &[])])?;
    /// let bytes = apply(&table.bytes, &table.relocations, &[(16, 0x1000)], 0x2000, 0)?;
    /// let section = FrameSection { bytes: &bytes, relocations: &[], kind: Section::Eh, word: Word::Eight, address: 0x2000 };
    /// let records = section.records()?;
    /// assert_eq!(records.len(), 1);
    /// assert_eq!((records[0].place, records[0].header), (24, Some(0)));
    /// # Ok::<(), dekvoz::Refusal>(())
    /// ```
    pub fn records(&self) -> Result<Vec<Record>, Refusal> {
        let numbers = Relocation::numbers(self.relocations);
        // A record has 8 bytes at least, and two numbers here.
        let mut places = vec![[0; 2]; self.bytes.len() / 8];
        let lent = places.as_flattened_mut();
        // SAFETY: each pointer and count come from one slice, so they are valid and aligned; `lent` is of this function alone. The
        // function takes every number.
        let indexed = unsafe {
            sys::unwind_index(
                self.bytes.as_ptr(),
                self.bytes.len(),
                numbers.as_ptr(),
                numbers.len(),
                self.kind.number(),
                self.word.bytes(),
                lent.as_mut_ptr(),
                lent.len(),
            )
        };
        accepted(indexed.number)?;
        let record = |[place, header]: [u64; 2]| Record { place, header: Some(header).filter(|&at| at != NOWHERE) };
        Ok(places.into_iter().take(indexed.records as usize).map(record).collect())
    }

    /// The record at a place with its header, without a pass over the section.
    ///
    /// # Errors
    /// 63 where it has no header in front of it, or 64.
    ///
    /// ```
    /// use dekvoz::{apply, relaxed_table, Format, FrameSection, Function, Machine, Section, Word};
    ///
    /// let table = relaxed_table(&Machine::X86_64, Format::Elf, &[Function::new(16, 9, &[])])?;
    /// let bytes = apply(&table.bytes, &table.relocations, &[(16, 0x1000)], 0x2000, 0)?;
    /// let section = FrameSection { bytes: &bytes, relocations: &[], kind: Section::Eh, word: Word::Eight, address: 0x2000 };
    /// assert_eq!(section.locate_at(section.records()?[0])?.length(), 9);
    /// # Ok::<(), dekvoz::Refusal>(())
    /// ```
    pub fn locate_at(&self, record: Record) -> Result<Located<'a>, Refusal> {
        let header = record.header.unwrap_or(NOWHERE);
        // SAFETY: the pointer and count come from one slice, and nothing is lent. The function takes every number.
        let places = unsafe {
            sys::unwind_locate_at(
                self.bytes.as_ptr(),
                self.bytes.len(),
                self.kind.number(),
                self.word.bytes(),
                record.place,
                header,
            )
        };
        self.located(places)
    }

    /// The function of the record at a place, by the record's own fields.
    ///
    /// # Errors
    /// 64 where no record stands there.
    ///
    /// ```
    /// use dekvoz::{apply, relaxed_table, Format, FrameSection, Function, Machine, Section, Word};
    ///
    /// let table = relaxed_table(&Machine::X86_64, Format::Elf, &[Function::new(16, 9, &[])])?;
    /// let bytes = apply(&table.bytes, &table.relocations, &[(16, 0x1000)], 0x2000, 0)?;
    /// let section = FrameSection { bytes: &bytes, relocations: &[], kind: Section::Eh, word: Word::Eight, address: 0x2000 };
    /// let function = section.function(24)?;
    /// assert_eq!((function.address, function.length), (0x1000, 9));
    /// # Ok::<(), dekvoz::Refusal>(())
    /// ```
    pub fn function(&self, place: u64) -> Result<Placed, Refusal> {
        // SAFETY: the pointer and count come from one slice, and nothing is lent. The function takes every number.
        let r = unsafe {
            sys::unwind_function_at(
                self.bytes.as_ptr(),
                self.bytes.len(),
                self.kind.number(),
                self.word.bytes(),
                self.address,
                place,
            )
        };
        accepted(r.number)?;
        Ok(Placed { address: r.address, length: r.length })
    }

    /// The first record whose function holds an address, by its place and its header's, as [`FrameSection::locate_at`] takes it.
    ///
    /// # Errors
    /// 61; 62 where no record holds it; 63 where that record has no header.
    ///
    /// ```
    /// use dekvoz::{apply, relaxed_table, Format, FrameSection, Function, Machine, Section, Word};
    ///
    /// let table = relaxed_table(&Machine::X86_64, Format::Elf, &[Function::new(16, 9, &[])])?;
    /// let bytes = apply(&table.bytes, &table.relocations, &[(16, 0x1000)], 0x2000, 0)?;
    /// let section = FrameSection { bytes: &bytes, relocations: &[], kind: Section::Eh, word: Word::Eight, address: 0x2000 };
    /// assert_eq!(section.record_at(0x1008)?, section.records()?[0]);
    /// assert_eq!(section.record_at(0x1009).map_err(|no| no.number), Err(62));
    /// # Ok::<(), dekvoz::Refusal>(())
    /// ```
    pub fn record_at(&self, pc: u64) -> Result<Record, Refusal> {
        let numbers = Relocation::numbers(self.relocations);
        // SAFETY: each pointer and count come from one slice, and nothing is lent. The function takes every number.
        let r = unsafe {
            sys::unwind_entries_of(
                self.bytes.as_ptr(),
                self.bytes.len(),
                numbers.as_ptr(),
                numbers.len(),
                self.kind.number(),
                self.word.bytes(),
                self.address,
                pc,
            )
        };
        accepted(r.number)?;
        Ok(Record { place: r.record, header: Some(r.header) })
    }

    /// The first record whose function holds an address.
    ///
    /// # Errors
    /// 61, or 62 where none does.
    ///
    /// ```
    /// use dekvoz::{apply, relaxed_table, Format, FrameSection, Function, Machine, Section, Word};
    ///
    /// let table = relaxed_table(&Machine::X86_64, Format::Elf, &[Function::new(16, 9, &[])])?;
    /// let bytes = apply(&table.bytes, &table.relocations, &[(16, 0x1000)], 0x2000, 0)?;
    /// let section = FrameSection { bytes: &bytes, relocations: &[], kind: Section::Eh, word: Word::Eight, address: 0x2000 };
    /// assert_eq!(section.at(0x1008)?.k, 0);
    /// assert_eq!(section.at(0x1009).map_err(|no| no.number), Err(62));
    /// # Ok::<(), dekvoz::Refusal>(())
    /// ```
    pub fn at(&self, pc: u64) -> Result<Holder, Refusal> {
        // SAFETY: the pointer and count come from one slice, and nothing is lent. The function takes every number.
        let r = unsafe {
            sys::unwind_record_of(
                self.bytes.as_ptr(),
                self.bytes.len(),
                self.kind.number(),
                self.word.bytes(),
                self.address,
                pc,
            )
        };
        accepted(r.number)?;
        Ok(Holder { k: r.k, place: r.place })
    }
}

impl<'a> Located<'a> {
    /// Operations of a header and a record that stand in these ranges of a section, with the length of the function. Any ranges are taken;
    /// those that do not lie in the section are answered by 64.
    ///
    /// ```
    /// use dekvoz::{Frame, Located, Word};
    ///
    /// // A header's DefCfa, and of a record a step of 1 and DefCfaOffset.
    /// let bytes = [0x0c, 7, 8, 0x41, 0x0e, 16];
    /// let located = Located::of(&bytes, 0..3, 3..6, 9, Word::Eight);
    /// assert_eq!(located.rules(0, 0)?.frame, Frame::Register { register: 7, offset: 8 });
    /// assert_eq!(located.rules(0, 1)?.frame, Frame::Register { register: 7, offset: 16 });
    /// # Ok::<(), dekvoz::Refusal>(())
    /// ```
    #[must_use]
    pub const fn of(bytes: &'a [u8], header: Range<u64>, record: Range<u64>, length: u64, word: Word) -> Located<'a> {
        let places = sys::Located {
            number: 0,
            header: header.start,
            header_end: header.end,
            record: record.start,
            record_end: record.end,
            length,
            pointer: 0,
            signal: 0,
            word: word.bytes(),
            shortest: 1,
        };
        Located { bytes, word, places }
    }

    /// The function's length.
    #[must_use]
    pub const fn length(&self) -> u64 {
        self.places.length
    }

    /// Whether the header marks a signal frame.
    #[must_use]
    pub const fn signal(&self) -> bool {
        self.places.signal == 1
    }

    /// Whether the LEB numbers among the fields of the record and of its header are spelled in as few bytes as can be.
    #[must_use]
    pub const fn shortest(&self) -> bool {
        self.places.shortest == 1
    }

    /// Whether the record can be read to the last offset of its function, and a number of it or of its header takes more bytes than it
    /// needs.
    #[must_use]
    pub fn long(&self) -> bool {
        let last = self.places.length.wrapping_sub(1);
        self.rules(0, last).is_ok_and(|rules| !rules.shortest)
    }

    /// The rules at offset `p` of the function, for one register (a DWARF number): what [`crate::read`] answers.
    ///
    /// # Errors
    /// The question that was answered by no: 65 to 69.
    ///
    /// ```
    /// use dekvoz::{apply, relaxed_table, Format, FrameSection, Function, Machine, Rule, Section, Word};
    ///
    /// let table = relaxed_table(&Machine::X86_64, Format::Elf, &[Function::new(16, 9, &[])])?;
    /// let bytes = apply(&table.bytes, &table.relocations, &[(16, 0x1000)], 0x2000, 0)?;
    /// let section = FrameSection { bytes: &bytes, relocations: &[], kind: Section::Eh, word: Word::Eight, address: 0x2000 };
    /// assert_eq!(section.locate(0)?.rules(16, 3)?.rule, Rule::Saved(-8));
    /// assert_eq!(section.locate(0)?.rules(16, 9).map_err(|no| no.number), Err(65));
    /// # Ok::<(), dekvoz::Refusal>(())
    /// ```
    pub fn rules(&self, register: u16, p: u64) -> Result<Rules, Refusal> {
        // SAFETY: the pointer and count come from one slice, and nothing is lent. The function takes every number.
        let r = unsafe { sys::unwind_rules_at(self.bytes.as_ptr(), self.bytes.len(), self.places, register, p) };
        lists::rules(&r)
    }

    /// The rules at every location, for one register, in one run over the operations. Lines at and past the function's end are given too.
    ///
    /// # Errors
    /// 64, for ranges that do not lie in the section. A refused operation ends the lines, and [`Along::ended`] says which question it was.
    ///
    /// ```
    /// use dekvoz::{Located, Word};
    ///
    /// // RestoreState behind the step: nothing is stored.
    /// let located = Located::of(&[0x0c, 7, 8, 0x41, 0x0b], 0..3, 3..5, 9, Word::Eight);
    /// let along = located.along(6)?;
    /// assert_eq!(along.len(), 1);
    /// assert_eq!(along.ended().map(|(from, no)| (from, no.number)), Some((1, 67)));
    /// # Ok::<(), dekvoz::Refusal>(())
    /// ```
    pub fn along(&self, register: u16) -> Result<Along, Refusal> {
        let mut along = Along::default();
        self.along_into(register, &mut along)?;
        Ok(along)
    }

    /// As [`Located::along`], into what holds the lines of another run: for many registers or records in a row.
    ///
    /// # Errors
    /// As [`Located::along`].
    ///
    /// ```
    /// use dekvoz::{Along, Located, Rule, Word};
    ///
    /// let located = Located::of(&[0x0c, 7, 8, 0x86, 2, 0x83, 3], 0..3, 3..7, 9, Word::Eight);
    /// let mut along = Along::default();
    /// for (register, offset) in [(6, -16), (3, -24)] {
    ///     located.along_into(register, &mut along)?;
    ///     assert_eq!(along.line(0).map(|line| line.rule), Some(Rule::Saved(offset)));
    /// }
    /// # Ok::<(), dekvoz::Refusal>(())
    /// ```
    pub fn along_into(&self, register: u16, along: &mut Along) -> Result<(), Refusal> {
        // A byte begins at most one line. Ranges that do not lie in the section are refused before the list is asked for room.
        let bytes = self.places.record_end.saturating_sub(self.places.record).min(self.bytes.len() as u64) as usize;
        let room = bytes.saturating_add(1).saturating_mul(7);
        if along.numbers.len() < room {
            along.numbers.resize(room, 0);
        }
        let numbers = &mut along.numbers;
        // SAFETY: each pointer and count come from one slice, so they are valid and aligned; `numbers` is lent to this call alone. The
        // function takes every number.
        let r = unsafe {
            sys::unwind_rules_along(
                self.bytes.as_ptr(),
                self.bytes.len(),
                self.places,
                register,
                numbers.as_mut_ptr(),
                numbers.len(),
            )
        };
        along.lines = r.lines as usize;
        along.ended = (r.ending != 0).then_some((r.from, Refusal { number: r.ending, position: 0 }));
        accepted(r.number)
    }

    /// The rules at an offset of registers 0 up to `count`, one behind the other.
    ///
    /// # Errors
    /// The question that was answered by no: 65 to 69.
    ///
    /// ```
    /// use dekvoz::{relaxed_table, Builder, Format, FrameSection, Machine, Rule, Section};
    ///
    /// let function = Builder::new(16, 31).at(1).def_cfa_offset(16).offset(6, -16).done();
    /// let table = relaxed_table(&Machine::X86_64, Format::Elf, &[function.function()])?;
    /// let (kind, word) = (Section::Eh, Machine::X86_64.word);
    /// let section = FrameSection { bytes: &table.bytes, relocations: &table.relocations, kind, word, address: 0 };
    /// let rules = section.locate(0)?.registers(1, 17)?;
    /// assert_eq!((rules[5], rules[6], rules[16]), (Rule::Unstated, Rule::Saved(-16), Rule::Saved(-8)));
    /// # Ok::<(), dekvoz::Refusal>(())
    /// ```
    pub fn registers(&self, p: u64, count: u16) -> Result<Vec<Rule>, Refusal> {
        let mut rules = vec![[0; 2]; usize::from(count)];
        let lent = rules.as_flattened_mut();
        // SAFETY: each pointer and count come from one slice, so they are valid and aligned; `lent` is of this function alone. The
        // function takes every number.
        let r = unsafe {
            sys::unwind_all_rules_at(
                self.bytes.as_ptr(),
                self.bytes.len(),
                self.places,
                p,
                lent.as_mut_ptr(),
                lent.len(),
            )
        };
        accepted(r.number)?;
        Ok(rules.into_iter().map(|[rule, value]| lists::rules_of([0, 0, 0, rule, value, 0]).1).collect())
    }

    /// The rules at offset `p` for every register that the operations up to the first unreadable one name.
    ///
    /// # Errors
    /// The question that was answered by no: 65 to 69.
    ///
    /// ```
    /// use dekvoz::{relaxed_table, Builder, Format, FrameSection, Machine, Rule, Section};
    ///
    /// let function = Builder::new(16, 31).at(1).def_cfa_offset(16).offset(6, -16).done();
    /// let table = relaxed_table(&Machine::X86_64, Format::Elf, &[function.function()])?;
    /// let (kind, word) = (Section::Eh, Machine::X86_64.word);
    /// let section = FrameSection { bytes: &table.bytes, relocations: &table.relocations, kind, word, address: 0 };
    /// let rules = section.locate(0)?.all(4)?;
    /// assert_eq!(rules.registers, [(6, Rule::Saved(-16)), (16, Rule::Saved(-8))]);
    /// # Ok::<(), dekvoz::Refusal>(())
    /// ```
    pub fn all(&self, p: u64) -> Result<AllRules, Refusal> {
        let Rules { frame, signing, shortest, .. } = self.rules(0, p)?;
        let mut named = BTreeSet::new();
        for range in [self.places.header..self.places.header_end, self.places.record..self.places.record_end] {
            let found = operations(self.bytes, range, self.word).map_while(Result::ok);
            named.extend(found.filter_map(|found| found.operation.ruled()));
        }
        let mut registers = Vec::new();
        for register in named {
            registers.push((register, self.rules(register, p)?.rule));
        }
        Ok(AllRules { frame, signing, shortest, registers })
    }
}

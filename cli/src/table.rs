//! The rules of an entry by location: which registers it speaks of, where the rules change, and what they are there.

use std::ops::Range;

use dekvoz::parts::{operations, Operation};
use dekvoz::{Along, Frame, Located, Refusal, Rule, Word};

/// A table has at most so many columns of registers.
const COLUMNS: usize = 64;

/// Where the operations of a header and a record stand; of a header alone the record's are none.
#[derive(Clone, Debug)]
pub struct Spans {
    /// The header's.
    pub header: Range<u64>,
    /// The record's.
    pub record: Range<u64>,
}

/// What is listed of an entry.
#[derive(Default)]
pub struct Table {
    /// The registers that its operations and its header's mention, in order.
    pub columns: Vec<u16>,
    /// How many more there are.
    pub left_out: usize,
    /// The offsets at which the rules may change, also behind a refused operation.
    offsets: Vec<u64>,
    /// The rules along the entry, a run for each column. What was lent for the entry before is used again.
    runs: Vec<Along>,
    /// Why there are none.
    refused: Option<Refusal>,
}

impl Table {
    /// Takes in a header's and a record's operations in place of what was here.
    pub fn read(&mut self, bytes: &[u8], spans: &Spans, word: Word) {
        self.columns.clear();
        self.offsets.clear();
        self.offsets.push(0);
        self.walk(bytes, spans.header.clone(), word, false);
        self.walk(bytes, spans.record.clone(), word, true);
        self.left_out = self.columns.len().saturating_sub(COLUMNS);
        self.columns.truncate(COLUMNS);
        // Question 65 is not asked, as rows at and past the function's end are given too.
        let located = Located::of(bytes, spans.header.clone(), spans.record.clone(), u64::MAX, word);
        let columns = self.columns.len().max(1);
        if self.runs.len() < columns {
            self.runs.resize_with(columns, Along::default);
        }
        self.refused = None;
        for (column, run) in self.runs.iter_mut().enumerate().take(columns) {
            let register = self.columns.get(column).copied().unwrap_or(0);
            self.refused = self.refused.or(located.along_into(register, run).err());
        }
    }

    /// Takes in operations; a step of a record begins a line.
    fn walk(&mut self, bytes: &[u8], range: Range<u64>, word: Word, steps: bool) {
        for found in operations(bytes, range, word).map_while(Result::ok) {
            match found.operation {
                Operation::Step(n) if n != 0 && steps => {
                    let offset = self.offsets.last().map_or(0, |before| before.wrapping_add(n));
                    self.offsets.push(offset);
                }
                operation => {
                    let Some(register) = operation.ruled() else { continue };
                    if let Err(place) = self.columns.binary_search(&register) {
                        self.columns.insert(place, register);
                    }
                }
            }
        }
    }

    /// The rows, line by line.
    pub fn rows(&self) -> impl Iterator<Item = Row<'_>> {
        self.offsets.iter().enumerate().filter_map(|(line, &offset)| self.row(line, offset))
    }

    fn row(&self, line: usize, offset: u64) -> Option<Row<'_>> {
        let run = self.runs.first()?;
        if let Some(refusal) = self.refused {
            return Some(Row { offset, said: Err(refusal), table: self, line });
        }
        match run.line(line) {
            Some(found) => {
                let said = Ok((found.frame, found.signing));
                Some(Row { offset: found.offset, said, table: self, line })
            }
            None => run.ended().map(|(_, refusal)| Row { offset, said: Err(refusal), table: self, line }),
        }
    }
}

/// A line of a table.
pub struct Row<'a> {
    /// The offset from which it holds.
    pub offset: u64,
    /// The frame address rule and signing state, or the refusal.
    pub said: Result<(Frame, bool), Refusal>,
    table: &'a Table,
    line: usize,
}

impl Row<'_> {
    /// The rule of each column.
    pub fn rules(&self) -> impl Iterator<Item = Rule> + '_ {
        let runs = self.table.runs.iter().take(self.table.columns.len());
        runs.filter_map(|run| run.line(self.line).map(|line| line.rule))
    }
}

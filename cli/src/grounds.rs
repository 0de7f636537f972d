//! Which operations give the rules at an offset: those of a header and a record, followed one by one as the library reads them.

use std::collections::BTreeMap;
use std::ops::Range;

use dekvoz::parts::{operations, Operation};
use dekvoz::{AllRules, Frame, Rule, Word};

/// An operation where it stands.
#[derive(Clone, Copy, Debug, PartialEq, Eq)]
pub struct Ground {
    /// In the header, not in the record.
    pub header: bool,
    /// Where it stands in the section.
    pub place: u64,
    /// Its first byte.
    pub opcode: u8,
    /// The offset of the function from which on it holds.
    pub offset: u64,
}

/// What gives a rule: an operation, and the one that took it back where a state or a header's rule was restored.
#[derive(Clone, Copy, Debug, PartialEq, Eq)]
pub struct Origin {
    /// The operation that states it.
    pub by: Ground,
    /// The operation that took it back.
    pub back: Option<Ground>,
}

/// The rules at an offset, each with what gives it.
#[derive(Clone, Debug, Default, PartialEq, Eq)]
pub struct Grounds {
    frame: Option<(u16, i64)>,
    /// What gives the register of the frame address, and what its offset.
    pub frame_by: [Option<Origin>; 2],
    rules: BTreeMap<u16, (Rule, Option<Origin>)>,
    signing: bool,
    /// What turned signing on or off last.
    pub signing_by: Option<Origin>,
}

impl Grounds {
    /// Follows a header's operations and a record's up to an offset of the function. The library has read them up to there.
    pub fn at(bytes: &[u8], header: Range<u64>, record: Range<u64>, word: Word, p: u64) -> Grounds {
        let (mut now, mut stored, mut initial, mut offset) = (Grounds::default(), Vec::new(), BTreeMap::new(), 0);
        for (range, in_header) in [(header, true), (record, false)] {
            for found in operations(bytes, range, word).map_while(Result::ok) {
                if let Operation::Step(n) = found.operation {
                    offset += n;
                    if offset > p {
                        break;
                    }
                }
                let ground = Ground { header: in_header, place: found.place, opcode: found.opcode, offset };
                now.perform(found.operation, ground, &mut stored, &initial);
            }
            if in_header {
                initial.clone_from(&now.rules);
            }
        }
        now
    }

    fn perform(
        &mut self,
        operation: Operation,
        ground: Ground,
        stored: &mut Vec<Grounds>,
        initial: &BTreeMap<u16, (Rule, Option<Origin>)>,
    ) {
        let by = Some(Origin { by: ground, back: None });
        // The library refuses registers above 65,535 (66).
        match operation {
            Operation::DefCfa(register, offset) => (self.frame, self.frame_by) = (Some((register as u16, offset)), [by; 2]),
            Operation::DefCfaOffset(offset) => {
                self.frame = self.frame.map(|(register, _)| (register, offset));
                self.frame_by[1] = by;
            }
            Operation::DefCfaRegister(register) => {
                self.frame = self.frame.map(|(_, offset)| (register as u16, offset));
                self.frame_by[0] = by;
            }
            Operation::Offset(register, offset) => self.rule(register, Rule::Saved(offset), by),
            Operation::Undefined(register) => self.rule(register, Rule::Undefined, by),
            Operation::SameValue(register) => self.rule(register, Rule::SameValue, by),
            Operation::InRegister(register, other) => self.rule(register, Rule::InRegister(other as u16), by),
            Operation::Restore(register) => {
                let (rule, origin) = initial.get(&(register as u16)).copied().unwrap_or((Rule::Unstated, None));
                let origin = origin.map_or(by, |origin| Some(Origin { back: Some(ground), ..origin }));
                self.rule(register, rule, origin);
            }
            Operation::RememberState => stored.push(self.clone()),
            Operation::RestoreState => {
                if let Some(state) = stored.pop() {
                    self.take_back(state, ground);
                }
            }
            Operation::NegateRaState => (self.signing, self.signing_by) = (!self.signing, by),
            Operation::Nop | Operation::Step(_) => {}
        }
    }

    fn rule(&mut self, register: u64, rule: Rule, origin: Option<Origin>) {
        self.rules.insert(register as u16, (rule, origin));
    }

    /// A stored state; what is another than before was taken back by `ground`.
    fn take_back(&mut self, state: Grounds, ground: Ground) {
        let old = std::mem::replace(self, state);
        let marked = |origin: &mut Option<Origin>| {
            if let Some(origin) = origin {
                origin.back = Some(ground);
            }
        };
        for (now, old) in self.frame_by.iter_mut().zip(&old.frame_by) {
            if now != old {
                marked(now);
            }
        }
        if self.signing_by != old.signing_by {
            marked(&mut self.signing_by);
        }
        for (register, now) in &mut self.rules {
            if old.rules.get(register) != Some(now) {
                marked(&mut now.1);
            }
        }
    }

    /// What gives a register's rule.
    pub fn of(&self, register: u16) -> Option<Origin> {
        self.rules.get(&register).and_then(|(_, origin)| *origin)
    }

    /// Whether these are the rules that the library answers.
    pub fn agree(&self, said: &AllRules) -> bool {
        let frame = self.frame.map_or(Frame::Unset, |(register, offset)| Frame::Register { register, offset });
        let rule = |register: &u16| self.rules.get(register).map_or(Rule::Unstated, |(rule, _)| *rule);
        let stated = self
            .rules
            .iter()
            .all(|(register, (rule, _))| said.registers.iter().any(|(named, said)| named == register && said == rule));
        frame == said.frame
            && self.signing == said.signing
            && stated
            && said.registers.iter().all(|(register, said)| rule(register) == *said)
    }
}

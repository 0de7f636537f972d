//! The walk replayed frame by frame, for what the library's answer does not hold: the values of registers and the slots that were read.
//! Rules, records and refusals come out of the library, and the whole is compared with its chain.

use std::ops::Range;

use dekvoz::parts::{header, record};
use dekvoz::walk::{Chain, Ending, MOST_FRAMES};
use dekvoz::{AllRules, Frame, FrameSection, Machine, Placed, Record, Refusal, Rule};

use crate::grounds::{Grounds, Origin};
use crate::recorded::{Recorded, FOLLOWED};
use crate::registers::Names;

/// Where an authentication code starts in a signed address.
const ADDRESS_BITS: u64 = (1 << 48) - 1;
const STACK: u64 = 74;
const REACHED: u64 = 75;

/// What a walk stands on.
pub struct Fault<'a> {
    pub machine: &'a Machine,
    pub recorded: &'a Recorded<'a>,
    pub pc: u64,
    pub frame: &'a FrameSection<'a>,
    pub records: &'a [Record],
    pub functions: &'a [Placed],
    pub names: &'a Names,
}

/// A register that a rule is stated for.
pub struct Register {
    pub number: u16,
    pub rule: Rule,
    pub by: Option<Origin>,
    /// The address that was read.
    pub slot: Option<u64>,
    /// Its value in the caller, where it has one.
    pub value: Option<u64>,
}

/// The frame address.
pub struct Cfa {
    pub rule: Frame,
    pub base: u64,
    pub address: u64,
    pub by: [Option<Origin>; 2],
}

/// The return address.
pub struct Back {
    /// What its register holds.
    pub value: u64,
    /// Where the frame returns to.
    pub pc: u64,
    /// Whether it is signed there, and what said so.
    pub signed: bool,
    pub signed_by: Option<Origin>,
    /// Whether a rule is stated for it.
    pub stated: bool,
}

/// A frame.
pub struct Step {
    pub position: u64,
    pub pc: u64,
    /// Where it was looked up.
    pub asked: u64,
    /// What the frame before is, if there is one: a signal frame or not.
    pub behind: Option<bool>,
    pub function: Placed,
    pub signal: bool,
    pub cfa: Option<Cfa>,
    pub registers: Vec<Register>,
    pub back: Option<Back>,
    /// Where the operations of its header and its record stand.
    pub spans: Option<(Range<u64>, Range<u64>)>,
}

/// How the replay ended.
pub enum End {
    /// The return address of the last frame is undefined.
    Undefined,
    /// No function holds this address; none where one byte before 0 was asked for.
    Nobody(u64, Option<u64>),
    /// A 65th frame would follow.
    TooMany,
    /// The last frame was refused, with what was asked of it.
    Refused(Refusal, String),
    /// The operations as they are followed here give other rules than the library answers.
    Other,
}

/// What a chain is worth.
#[derive(Clone, Copy, Debug, PartialEq, Eq)]
pub enum Verdict {
    /// It ended where its rules say that it ends.
    Whole,
    /// No function holds an address, or more frames follow than are followed.
    Open,
    /// A frame was refused.
    Refused,
}

/// The frames and how they ended.
pub struct Replay {
    pub steps: Vec<Step>,
    pub end: End,
}

type Values = Vec<Option<u64>>;

impl Replay {
    /// Replays a walk.
    pub fn new(fault: &Fault<'_>) -> Replay {
        let mut values: Values = fault.recorded.registers.iter().copied().map(Some).collect();
        values.resize(FOLLOWED, None);
        let (mut steps, mut pc, mut behind) = (Vec::new(), fault.pc, None);
        loop {
            let asked = if behind == Some(false) { pc.checked_sub(1) } else { Some(pc) };
            let held = asked.and_then(|asked| Some((asked, holder(fault.functions, asked)?)));
            let Some((asked, (position, function))) = held else { return Replay { steps, end: End::Nobody(pc, asked) } };
            if steps.len() == MOST_FRAMES {
                return Replay { steps, end: End::TooMany };
            }
            let (cfa, registers, back, signal, spans) = (None, Vec::new(), None, false, None);
            let mut step = Step { position, pc, asked, behind, function, signal, cfa, registers, back, spans };
            let left = leave(fault, &mut step, &values);
            behind = Some(step.signal);
            steps.push(step);
            match left {
                Ok((next, after)) => (pc, values) = (next, after),
                Err(end) => return Replay { steps, end },
            }
        }
    }

    /// What the chain is worth.
    pub fn verdict(&self) -> Verdict {
        match self.end {
            End::Undefined => Verdict::Whole,
            End::Nobody(..) | End::TooMany => Verdict::Open,
            End::Refused(..) | End::Other => Verdict::Refused,
        }
    }

    /// Whether this is the library's answer.
    pub fn agrees(&self, said: &Result<Chain, Refusal>) -> bool {
        match (said, &self.end) {
            (Err(said), End::Refused(refusal, _)) => said.number == refusal.number,
            (Ok(chain), end) => {
                let ending = match end {
                    End::Undefined => Ending::ReturnUndefined,
                    End::Nobody(..) => Ending::HeldByNone,
                    End::TooMany => Ending::TooMany,
                    End::Refused(..) | End::Other => return false,
                };
                let frames = chain.frames.iter().map(|frame| (frame.position, frame.pc));
                chain.ending == ending && frames.eq(self.steps.iter().map(|step| (step.position, step.pc)))
            }
            _ => false,
        }
    }
}

/// The first function that holds an address.
fn holder(functions: &[Placed], asked: u64) -> Option<(u64, Placed)> {
    let holds = |placed: &Placed| placed.address <= asked && asked - placed.address < placed.length;
    functions.iter().position(holds).map(|k| (k as u64, functions[k]))
}

fn refused(number: u64, why: String) -> End {
    End::Refused(Refusal { number, position: 0 }, why)
}

/// The rules at a frame's place and what gives them.
fn rules(fault: &Fault<'_>, step: &mut Step) -> Result<(AllRules, Grounds), End> {
    let (frame, p) = (fault.frame, step.asked - step.function.address);
    let asked = format!("the rules at offset {p} of record {}", step.position);
    let no = |refusal: Refusal| End::Refused(refusal, asked.clone());
    let Some(place) = usize::try_from(step.position).ok().and_then(|k| fault.records.get(k)) else {
        return Err(refused(62, asked));
    };
    let located = frame.locate_at(*place).map_err(no)?;
    step.signal = located.signal();
    let first =
        header(frame.bytes, frame.kind, frame.word, place.header.unwrap_or(u64::MAX)).map_err(|fault| no(fault.refusal))?;
    let rest = record(frame.bytes, frame.kind, frame.word, first.pointer, place.place).map_err(|fault| no(fault.refusal))?;
    step.spans = Some((first.operations.clone(), rest.operations.clone()));
    let said = located.all(p).map_err(no)?;
    let grounds = Grounds::at(frame.bytes, first.operations, rest.operations, frame.word, p);
    match grounds.agree(&said) {
        true => Ok((said, grounds)),
        false => Err(End::Other),
    }
}

/// Leaves a frame: the caller's pc and registers.
fn leave(fault: &Fault<'_>, step: &mut Step, before: &Values) -> Result<(u64, Values), End> {
    let (said, grounds) = rules(fault, step)?;
    let ret = fault.machine.return_address;
    let rule_of =
        |register| said.registers.iter().find(|(named, _)| *named == register).map_or(Rule::Unstated, |(_, rule)| *rule);
    if rule_of(ret) == Rule::Undefined {
        step.registers.push(Register { number: ret, rule: Rule::Undefined, by: grounds.of(ret), slot: None, value: None });
        return Err(End::Undefined);
    }
    let cfa = frame_address(said.frame, before, fault.names)?;
    step.cfa = Some(Cfa { by: grounds.frame_by, ..cfa });
    let mut after = before.clone();
    for (number, rule) in said.registers.iter().copied().filter(|(_, rule)| *rule != Rule::Unstated) {
        let (slot, value) = moved(fault, rule, number, step.cfa.as_ref().map_or(0, |cfa| cfa.address), before)?;
        if let Some(kept) = after.get_mut(usize::from(number)) {
            *kept = value;
        }
        step.registers.push(Register { number, rule, by: grounds.of(number), slot, value });
    }
    if let Some(stack) = after.get_mut(usize::from(fault.machine.stack_pointer)) {
        *stack = step.cfa.as_ref().map(|cfa| cfa.address);
    }
    let Some(value) = after.get(usize::from(ret)).copied().flatten() else {
        return Err(refused(REACHED, "the register of the return address".to_string()));
    };
    let pc = if said.signing { value & ADDRESS_BITS } else { value };
    let stated = rule_of(ret) != Rule::Unstated;
    step.back = Some(Back { value, pc, signed: said.signing, signed_by: grounds.signing_by, stated });
    Ok((pc, after))
}

fn frame_address(rule: Frame, before: &Values, names: &Names) -> Result<Cfa, End> {
    let Frame::Register { register, offset } = rule else {
        return Err(refused(REACHED, "a rule for the frame address".to_string()));
    };
    let Some(base) = before.get(usize::from(register)).copied().flatten() else {
        let name = names.text(u64::from(register));
        return Err(refused(REACHED, format!("{name}, which the frame address is counted from")));
    };
    let Some(address) = base.checked_add_signed(offset) else {
        return Err(refused(STACK, format!("the frame address {base:#x}{offset:+}")));
    };
    Ok(Cfa { rule, base, address, by: [None; 2] })
}

/// The slot of a register that is followed, and its value in the caller.
fn moved(fault: &Fault<'_>, rule: Rule, number: u16, cfa: u64, before: &Values) -> Result<(Option<u64>, Option<u64>), End> {
    let held = |register: u16| before.get(usize::from(register)).copied().flatten();
    if usize::from(number) >= FOLLOWED {
        return Ok((None, None));
    }
    match rule {
        Rule::Unstated | Rule::SameValue => Ok((None, held(number))),
        Rule::Undefined => Ok((None, None)),
        Rule::InRegister(other) => Ok((None, held(other))),
        Rule::Saved(offset) => {
            let asked = format!("the word of {} at {cfa:#x}{offset:+}", fault.names.text(u64::from(number)));
            let slot = cfa.checked_add_signed(offset).ok_or_else(|| refused(STACK, asked.clone()))?;
            let value = fault.recorded.load(slot).ok_or_else(|| refused(STACK, asked))?;
            Ok((Some(slot), Some(value)))
        }
    }
}

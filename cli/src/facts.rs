//! The facts that make a frame the caller of another, in words.

use dekvoz::{Frame, Rule};

use crate::grounds::{Ground, Origin};
use crate::recorded::FOLLOWED;
use crate::registers::Names;
use crate::replay::{Back, End, Register, Replay, Step};
use crate::rules::{frame_words, rule_words};
use crate::words;

/// A fact: what it is about, what holds, and the operations that say so.
pub struct Fact {
    pub about: String,
    pub words: String,
    pub by: Vec<Origin>,
    /// The address of the stack word that was read.
    pub slot: Option<u64>,
}

impl Fact {
    fn new(about: &str, words: String) -> Fact {
        Fact { about: about.to_string(), words, by: Vec::new(), slot: None }
    }
}

/// An operation and where it stands.
pub fn ground(ground: Ground) -> String {
    let name = words::operation(ground.opcode);
    match ground.header {
        true => format!("{name} (header, {:#x})", ground.place),
        false => format!("{name} (record, {:#x}, from offset {} on)", ground.place, ground.offset),
    }
}

/// What gives a rule.
pub fn origin(origin: Origin) -> String {
    match origin.back {
        None => ground(origin.by),
        Some(back) => format!("{}, taken back by {}", ground(origin.by), ground(back)),
    }
}

/// How a frame was looked up.
pub fn lookup(step: &Step) -> String {
    match step.behind {
        None => format!("looked up at the pc, {:#x}", step.asked),
        Some(true) => format!("looked up at {:#x} itself, since the frame before is a signal frame", step.asked),
        Some(false) => format!("looked up at {:#x}, one byte before the return address", step.asked),
    }
}

/// All facts of a frame, in the order in which they are used.
pub fn of(step: &Step, names: &Names, return_address: u16) -> Vec<Fact> {
    let (start, length) = (step.function.address, step.function.length);
    let mut facts = vec![Fact::new(
        "function",
        format!(
            "record {}, {start:#x} to {:#x}; {}; rules at offset {}",
            step.position,
            start.wrapping_add(length),
            lookup(step),
            step.asked - start
        ),
    )];
    if step.signal {
        facts.push(Fact::new("signal", "the header marks a signal frame".to_string()));
    }
    if let Some(cfa) = &step.cfa {
        let offset = if let Frame::Register { offset, .. } = cfa.rule { offset } else { 0 };
        let words = format!("{} = {:#x}{offset:+} = {:#x}", frame_words(names, cfa.rule), cfa.base, cfa.address);
        let mut by: Vec<Origin> = cfa.by.iter().copied().flatten().collect();
        by.dedup();
        facts.push(Fact { by, ..Fact::new("CFA", words) });
    }
    // The return address comes last.
    let (back, others): (Vec<_>, Vec<_>) = step.registers.iter().partition(|register| register.number == return_address);
    for register in others.into_iter().chain(back) {
        let about = names.text(u64::from(register.number));
        facts.push(Fact {
            by: register.by.into_iter().collect(),
            slot: register.slot,
            ..Fact::new(&about, held(names, register))
        });
    }
    if let Some(back) = &step.back {
        facts.extend(returns(back, names, return_address));
    }
    facts
}

fn held(names: &Names, register: &Register) -> String {
    let rule = rule_words(names, register.rule);
    if usize::from(register.number) >= FOLLOWED {
        return format!("{rule}; registers from {FOLLOWED} on are not followed");
    }
    match (register.rule, register.slot, register.value) {
        (Rule::Undefined, ..) => rule,
        (_, Some(slot), Some(value)) => format!("{rule}: at {slot:#x} stands {value:#x}"),
        (_, _, Some(value)) => format!("{rule}: {value:#x}"),
        _ => format!("{rule}, where there is no value"),
    }
}

fn returns(back: &Back, names: &Names, return_address: u16) -> Vec<Fact> {
    let mut facts = Vec::new();
    if !back.stated {
        let about = names.text(u64::from(return_address));
        facts.push(Fact::new(&about, format!("no rule, so it keeps its value: {:#x}", back.value)));
    }
    if back.signed {
        let words = format!("the return address is signed: of {:#x} the low 48 bits are taken", back.value);
        facts.push(Fact { by: back.signed_by.into_iter().collect(), ..Fact::new("signing", words) });
    }
    facts.push(Fact::new("returns", format!("to {:#x}", back.pc)));
    facts
}

/// How the last frame ends the chain: nowhere to return to, or refused.
pub fn last(replay: &Replay) -> Option<Fact> {
    match &replay.end {
        End::Undefined => Some(Fact::new("returns", "nowhere: here the chain ends".to_string())),
        End::Refused(refusal, asked) => Some(Fact::new("refused", format!("with {}, asked for {asked}", refusal.number))),
        End::Nobody(..) | End::TooMany | End::Other => None,
    }
}

/// What is the library's answer, and what the command's.
pub fn rests_on(replay: &Replay) -> &'static str {
    match replay.end {
        End::Refused(..) => "The chain is refused: unwind_walk answers with this number and lists no frame; the frames and facts above were replayed by its rules up to there.",
        End::Nobody(..) if replay.steps.is_empty() => "unwind_walk lists no frame.",
        _ => "The frames are unwind_walk's; the facts were replayed by its rules, and give the same chain.",
    }
}

/// Why a chain is not whole, in a few words.
pub fn open(replay: &Replay) -> String {
    match replay.end {
        End::Nobody(pc, _) => format!("no function holds {pc:#x}"),
        _ => "more than 64 frames".to_string(),
    }
}

/// How the chain ends, in words.
pub fn end(replay: &Replay) -> String {
    let last = replay.steps.len().saturating_sub(1);
    match &replay.end {
        End::Undefined => {
            format!("The chain ends with #{last}: its rules leave the return address undefined, so it has no caller.")
        }
        End::Nobody(pc, _) if replay.steps.is_empty() => format!("There is no chain: no function holds the pc {pc:#x}."),
        End::Nobody(0, None) => format!("The chain ends with #{last}: it returns to 0, and one byte before there is nothing."),
        End::Nobody(pc, asked) => {
            let asked =
                asked.filter(|asked| asked != pc).map_or_else(String::new, |asked| format!(" (looked up at {asked:#x})"));
            format!("The chain ends with #{last}: no function holds its return address {pc:#x}{asked}.")
        }
        End::TooMany => "The chain is cut after 64 frames: a 65th would follow.".to_string(),
        End::Refused(refusal, asked) => format!("Frame #{last} is {}. Asked for was {asked}.", words::refused(*refusal)),
        End::Other => format!("At frame #{last} the operations as they are followed here give other rules than the library."),
    }
}

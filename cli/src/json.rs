//! JSON (RFC 8259). Addresses are strings of hexadecimal digits, since many readers hold numbers to 2^53 only.

use dekvoz::{Frame, Refusal, Rule};

use crate::out::Out;

/// A text in quotes.
pub fn string(out: &mut Out, text: &str) {
    out.text("\"");
    for c in text.chars() {
        match c {
            '"' => out.text("\\\""),
            '\\' => out.text("\\\\"),
            c if c < ' ' => out.text("\\u").hex(u64::from(u32::from(c)), 4),
            c => out.text(c.encode_utf8(&mut [0; 4])),
        };
    }
    out.text("\"");
}

/// A key and its colon.
pub fn key(out: &mut Out, name: &str) {
    string(out, name);
    out.text(": ");
}

/// A key and a text.
pub fn text(out: &mut Out, name: &str, value: &str) {
    key(out, name);
    string(out, value);
}

/// A key and a number.
pub fn number(out: &mut Out, name: &str, value: u64) {
    key(out, name);
    out.decimal(value);
}

/// A key and an address.
pub fn address(out: &mut Out, name: &str, value: u64) {
    key(out, name);
    out.text("\"0x").hex(value, 1).text("\"");
}

/// A key and a mark.
pub fn mark(out: &mut Out, name: &str, value: bool) {
    key(out, name);
    out.text(if value { "true" } else { "false" });
}

/// A key and a refusal.
pub fn refusal(out: &mut Out, refusal: Refusal, words: &str) {
    out.text("\"refused\": {\"number\": ").decimal(refusal.number).text(", \"words\": ");
    string(out, words);
    out.text("}");
}

/// A key and a frame address rule.
pub fn frame(out: &mut Out, frame: Frame) {
    key(out, "cfa");
    match frame {
        Frame::Unset => out.text("null"),
        Frame::Register { register, offset } => {
            out.text("{\"register\": ").decimal(u64::from(register)).text(", \"offset\": ").signed(offset).text("}")
        }
    };
}

/// A register's rule.
pub fn rule(out: &mut Out, register: u16, name: &str, rule: Rule) {
    out.text("{\"register\": ").decimal(u64::from(register)).text(", \"name\": ");
    string(out, name);
    match rule {
        Rule::Unstated => out.text(", \"rule\": \"unstated\"}"),
        Rule::Undefined => out.text(", \"rule\": \"undefined\"}"),
        Rule::SameValue => out.text(", \"rule\": \"same value\"}"),
        Rule::InRegister(other) => out.text(", \"rule\": \"in register\", \"in\": ").decimal(u64::from(other)).text("}"),
        Rule::Saved(offset) => out.text(", \"rule\": \"saved\", \"offset\": ").signed(offset).text("}"),
    };
}

//! The name of the personality reference. The harness prints it as symbol 0.

pub const PERSONALITY_REF: &str = "DW.ref.__gcc_personality_v0";

//! The rows of a function, in a shape of this repository.

#[derive(Debug, Clone, Copy, PartialEq, Eq)]
pub enum CfiOp {
    DefCfa { reg: u16, offset: i32 },
    DefCfaOffset(i32),
    DefCfaRegister(u16),
    Offset { reg: u16, offset: i32 },
    Restore(u16),
    Undefined(u16),
    RememberState,
    RestoreState,
    NegateRaState,
}

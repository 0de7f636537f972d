//! The names of registers by their DWARF numbers.

/// A machine whose registers have names here.
#[derive(Clone, Copy, Debug, PartialEq, Eq)]
pub enum Machine {
    /// x86-64 (System V psABI, figure 3.36).
    X86_64,
    /// AArch64 (DWARF for the Arm 64-bit Architecture, section 4.1).
    AArch64,
    /// RISC-V (RISC-V DWARF Specification, table 1).
    RiscV,
    /// ARM (DWARF for the Arm Architecture, section 4.1).
    Arm,
    /// i386 (System V psABI, table 2.14).
    I386,
}

const X86_64: [&str; 16] =
    ["rax", "rdx", "rcx", "rbx", "rsi", "rdi", "rbp", "rsp", "r8", "r9", "r10", "r11", "r12", "r13", "r14", "r15"];
const RISC_V: [&str; 64] = [
    "zero", "ra", "sp", "gp", "tp", "t0", "t1", "t2", "s0", "s1", "a0", "a1", "a2", "a3", "a4", "a5", "a6", "a7", "s2", "s3",
    "s4", "s5", "s6", "s7", "s8", "s9", "s10", "s11", "t3", "t4", "t5", "t6", "ft0", "ft1", "ft2", "ft3", "ft4", "ft5", "ft6",
    "ft7", "fs0", "fs1", "fa0", "fa1", "fa2", "fa3", "fa4", "fa5", "fa6", "fa7", "fs2", "fs3", "fs4", "fs5", "fs6", "fs7",
    "fs8", "fs9", "fs10", "fs11", "ft8", "ft9", "ft10", "ft11",
];
const I386: [&str; 10] = ["eax", "ecx", "edx", "ebx", "esp", "ebp", "esi", "edi", "eip", "eflags"];

impl Machine {
    /// The machine of an ELF file (e_machine).
    pub fn of_elf(number: u64) -> Option<Machine> {
        Some(match number {
            3 => Machine::I386,
            62 => Machine::X86_64,
            183 => Machine::AArch64,
            243 => Machine::RiscV,
            40 => Machine::Arm,
            _ => return None,
        })
    }

    /// The machine of a name.
    pub fn of_name(name: &str) -> Option<Machine> {
        Some(match name {
            "x86-64" => Machine::X86_64,
            "aarch64" => Machine::AArch64,
            "riscv" => Machine::RiscV,
            "arm" => Machine::Arm,
            "i386" => Machine::I386,
            _ => return None,
        })
    }

    /// The name of a register, or none.
    pub fn name(self, register: u64) -> Option<String> {
        let n = usize::try_from(register).ok()?;
        match (self, n) {
            (Machine::X86_64, 0..=15) => Some(X86_64[n].to_string()),
            (Machine::X86_64, 16) => Some("rip".to_string()),
            (Machine::X86_64, 17..=32) => Some(format!("xmm{}", n - 17)),
            (Machine::X86_64, 33..=40) => Some(format!("st{}", n - 33)),
            (Machine::X86_64, 41..=48) => Some(format!("mm{}", n - 41)),
            (Machine::X86_64, 49) => Some("rflags".to_string()),
            (Machine::AArch64, 0..=30) => Some(format!("x{n}")),
            (Machine::AArch64, 31) => Some("sp".to_string()),
            (Machine::AArch64, 33) => Some("elr".to_string()),
            (Machine::AArch64, 64..=95) => Some(format!("v{}", n - 64)),
            (Machine::RiscV, 0..=63) => Some(RISC_V[n].to_string()),
            (Machine::I386, 0..=9) => Some(I386[n].to_string()),
            (Machine::I386, 11..=18) => Some(format!("st{}", n - 11)),
            (Machine::I386, 21..=28) => Some(format!("xmm{}", n - 21)),
            (Machine::I386, 29..=36) => Some(format!("mm{}", n - 29)),
            (Machine::Arm, 0..=12) => Some(format!("r{n}")),
            (Machine::Arm, 13) => Some("sp".to_string()),
            (Machine::Arm, 14) => Some("lr".to_string()),
            (Machine::Arm, 15) => Some("pc".to_string()),
            (Machine::Arm, 256..=287) => Some(format!("d{}", n - 256)),
            _ => None,
        }
    }
}

/// The names that a listing uses, made once.
pub struct Names {
    known: Vec<Option<String>>,
}

impl Names {
    /// The names of a machine's registers, or none.
    pub fn new(machine: Option<Machine>) -> Names {
        Names { known: (0..288).map(|n| machine.and_then(|machine| machine.name(n))).collect() }
    }

    /// The name of a register where it has one.
    pub fn known(&self, register: u64) -> Option<&str> {
        self.known.get(usize::try_from(register).ok()?)?.as_deref()
    }

    /// The name of a register, or `r` and its number.
    pub fn text(&self, register: u64) -> String {
        self.known(register).map_or_else(|| format!("r{register}"), str::to_string)
    }

    /// `r` and its number, and in brackets its name where it has one, as readelf writes a register that is an operand.
    pub fn both(&self, register: u64) -> String {
        match self.known(register) {
            Some(name) => format!("r{register} ({name})"),
            None => format!("r{register}"),
        }
    }

    /// The register of a name, of a number, or of `r` and a number.
    pub fn register(&self, text: &str) -> Option<u16> {
        let named = self.known.iter().position(|name| name.as_deref() == Some(text));
        let by_name = named.and_then(|n| u16::try_from(n).ok());
        by_name.or_else(|| text.parse().ok()).or_else(|| text.strip_prefix('r')?.parse().ok())
    }
}

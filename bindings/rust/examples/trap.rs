//! A trap in a small firmware: writes the table of its three functions, checks their rows, prints by which rules the caller is found
//! from each frame of the chain, and walks the recorded fault.

use std::process::ExitCode;

use dekvoz::walk::{recorded, walk, Ending, Fault};
use dekvoz::{
    read, relaxed_table, row_check, Builder, Built, Format, Frame, FrameSection, Machine, Placed, Refusal, Rule, Section, Table,
};

/// The return address, rbx, rbp and rsp by their DWARF numbers.
const RA: u16 = 16;
const RBX: u16 = 3;
const RBP: u16 = 6;
const RSP: u16 = 7;

fn firmware() -> [Built; 3] {
    let reset = Builder::new(16, 14).undefined(RA);
    let control = Builder::new(17, 61).at(1).def_cfa_offset(16).offset(RBP, -16).at(4).def_cfa_register(RBP);
    let sample = Builder::new(18, 50).at(1).def_cfa_offset(16).offset(RBX, -16).at(5).def_cfa_offset(48);
    [
        reset.done(),
        control.at(60).def_cfa(RSP, 8).restore(RBP).done(),
        sample.at(30).remember_state().at(34).def_cfa_offset(16).at(35).def_cfa_offset(8).at(36).restore_state().done(),
    ]
}

/// The registers that are asked about.
const REGISTERS: [(&str, u16); 3] = [("rbx", RBX), ("rbp", RBP), ("return address", RA)];
/// The trap stands at offset 20 of sample, which returns to 31 of control, which returns to 12 of reset. A caller is looked up one byte
/// before its return address, since the call may be the last instruction of its function.
const CHAIN: [(&str, u64, u64, u64); 3] = [("sample", 2, 20, 0), ("control", 1, 31, 1), ("reset", 0, 12, 1)];

/// The functions by name, and where the linker put them.
const NAMES: [&str; 3] = ["reset", "control", "sample"];
const PLACED: [Placed; 3] =
    [Placed { address: 0x1000, length: 14 }, Placed { address: 0x1010, length: 61 }, Placed { address: 0x1050, length: 50 }];
/// The words of the stack when sample was stopped, among them rbx and the return address of sample, rbp and that of control.
const STACK: u64 = 0x8000;
const WORDS: [u64; 10] = [0, 0, 0, 0, 7, 0x1010 + 31, 0, 0, 0, 0x1000 + 12];

fn print_chain(machine: &Machine, table: &Table) -> Result<(), Refusal> {
    // Of the registers rbp and rsp are needed.
    let values = [0, 0, 0, 0, 0, 0, STACK + 64, STACK, 0, 0, 0, 0, 0, 0, 0, 0, 0];
    let record = recorded(WORDS.map(u64::to_le_bytes).as_flattened(), &values);
    let fault = Fault { machine, record: &record, pc: 0x1050 + 20, stack: STACK };
    let (kind, word) = (Section::Eh, machine.word);
    let section = FrameSection { bytes: &table.bytes, relocations: &table.relocations, kind, word, address: 0 };
    let chain = walk(&fault, &section, &PLACED)?;
    print!("the walk:");
    for frame in &chain.frames {
        if let Some((name, placed)) = NAMES.iter().zip(PLACED).nth(frame.position as usize) {
            print!(" {name}+{}", frame.pc.saturating_sub(placed.address));
        }
    }
    println!("{}", if chain.ending == Ending::ReturnUndefined { ", which returns nowhere" } else { ", and no further" });
    Ok(())
}

fn trap() -> Result<(), Refusal> {
    let machine = Machine::X86_64;
    let built = firmware();
    let functions = built.each_ref().map(Built::function);
    for (name, function) in NAMES.iter().zip(&functions) {
        let said = if row_check(function) { "yes" } else { "no" };
        println!("{name}: row check {said}");
    }
    let table = relaxed_table(&machine, Format::Elf, &functions)?;
    println!("eh_frame: {} bytes, {} relocations", table.bytes.len(), table.relocations.len());
    for (name, k, p, before) in CHAIN {
        let asked = p.saturating_sub(before);
        println!("{name} at {p}, asked at {asked}:");
        for (name, register) in REGISTERS {
            let rules = read(&table.bytes, &table.relocations, Section::Eh, machine.word, k, register, asked)?;
            if register == RBX {
                match rules.frame {
                    Frame::Unset => println!("  no frame address"),
                    Frame::Register { register, offset } => println!("  frame address: register {register} plus {offset}"),
                }
            }
            match rules.rule {
                Rule::Unstated => println!("  {name}: as it is"),
                Rule::Undefined => println!("  {name}: gone"),
                Rule::Saved(offset) => println!("  {name}: at the frame address plus {offset}"),
                Rule::SameValue => println!("  {name}: kept"),
                Rule::InRegister(register) => println!("  {name}: in register {register}"),
            }
        }
    }
    print_chain(&machine, &table)
}

fn main() -> ExitCode {
    match trap() {
        Ok(()) => ExitCode::SUCCESS,
        Err(refusal) => {
            eprintln!("{refusal}");
            ExitCode::FAILURE
        }
    }
}

//! Hands lists to the Rust source of Windows' unwind data on ARM64 and prints what it makes. A line of input is `functions;epilogues;codes`, numbers as
//! unwind_arm64 takes them. The answer is `ok` and markers, bytes, relocations and info behind bars, or `no`, `panic` or `cannot` with the reason.
//! `arm64_harness time` takes the first line's time instead: the median of 41 calls, in microseconds.

use std::cell::RefCell;
use std::io::{BufRead, Write};
use std::panic::{AssertUnwindSafe, catch_unwind};

use rucc_object::{Extent, Unwind};
use xdata::{Code, Epilogue, Proc};

include!(env!("XDATA_MODULE"));

/// The one error of the source.
#[derive(Debug)]
pub enum Error {
    Frame { func: String, why: String },
}

thread_local! {
    static PANIC: RefCell<String> = const { RefCell::new(String::new()) };
}

fn code(n: &[u64]) -> Option<Code> {
    let reg = u8::try_from(n[1]).ok()?;
    let offset = u32::try_from(n[2]).ok()?;
    Some(match n[0] {
        0 => Code::Alloc(offset),
        1 => Code::R19R20X(offset),
        2 => Code::Fplr(offset),
        3 => Code::FplrX(offset),
        4 => Code::Regp(reg, offset),
        5 => Code::RegpX(reg, offset),
        6 => Code::Reg(reg, offset),
        7 => Code::RegX(reg, offset),
        8 => Code::Lrpair(reg, offset),
        9 => Code::Fregp(reg, offset),
        10 => Code::FregpX(reg, offset),
        11 => Code::Freg(reg, offset),
        12 => Code::FregX(reg, offset),
        13 => Code::SetFp,
        14 => Code::AddFp(offset),
        15 => Code::Nop,
        16 => Code::SaveNext,
        17 => Code::PacSignLr,
        _ => return None,
    })
}

fn range(list: &[u64], stride: usize, at: u64, n: u64) -> Option<impl Iterator<Item = &[u64]>> {
    let records = list.chunks_exact(stride);
    let (at, n) = (usize::try_from(at).ok()?, usize::try_from(n).ok()?);
    (at.checked_add(n)? <= records.len()).then(|| records.skip(at).take(n))
}

fn codes(list: &[u64], at: u64, n: u64) -> Option<Vec<Code>> {
    range(list, 3, at, n)?.map(code).collect()
}

fn input(functions: &[u64], epilogues: &[u64], list: &[u64]) -> Option<(Vec<Extent>, Vec<Proc>)> {
    let mut funcs = Vec::new();
    let mut procs = Vec::new();
    for f in functions.chunks_exact(6) {
        funcs.push(Extent { name: f[0].to_string(), len: usize::try_from(f[1]).ok()?, ..Extent::default() });
        let mut proc = Proc { prologue: codes(list, f[2], f[3])?, epilogues: Vec::new() };
        for e in range(epilogues, 3, f[4], f[5])? {
            proc.epilogues.push(Epilogue { start: usize::try_from(e[0]).ok()?, codes: codes(list, e[1], e[2])? });
        }
        procs.push(proc);
    }
    Some((funcs, procs))
}

fn symbol(name: &str) -> u64 {
    match name.strip_prefix("$unwind$") {
        Some(of) => of.parse::<u64>().expect("a number").wrapping_add(1 << 32),
        None => name.parse().expect("a number"),
    }
}

fn hex(bytes: &[u8]) -> String {
    bytes.iter().map(|b| format!("{b:02x}")).collect()
}

/// The labels stand in the order of the functions, and a packed one has none.
fn print(out: &Unwind) -> String {
    let mut labels = out.labels.iter();
    let mut markers = Vec::new();
    let rows = out.bytes.chunks_exact(8);
    for row in rows {
        let packed = row[4] % 4 != 0;
        let place = if packed { u64::MAX } else { labels.next().expect("a label").at as u64 };
        markers.push(place.to_string());
    }
    let relocs: Vec<String> = out.relocs.iter().map(|r| format!("{} {} 4 4 {}", r.at, symbol(&r.symbol), r.addend)).collect();
    format!("ok {}|{}|{}|{}", markers.join(" "), hex(&out.bytes), relocs.join(" "), hex(&out.info))
}

fn answer(line: &str) -> String {
    let lists = lists_of(line);
    let Some((funcs, procs)) = input(&lists[0], &lists[1], &lists[2]) else {
        return "cannot be handed over".to_owned();
    };
    match catch_unwind(AssertUnwindSafe(|| xdata::table(&funcs, &procs))) {
        Ok(Ok(out)) => print(&out),
        Ok(Err(Error::Frame { func, why })) => format!("no {func}: {why}"),
        Err(_) => PANIC.with(|panic| format!("panic {}", panic.borrow())),
    }
}

fn lists_of(line: &str) -> Vec<Vec<u64>> {
    line.split(';').map(|part| part.split_whitespace().map(|n| n.parse().expect("a number")).collect()).collect()
}

fn time(line: &str) -> String {
    let lists = lists_of(line);
    let (funcs, procs) = input(&lists[0], &lists[1], &lists[2]).expect("lists that can be handed over");
    let mut took: Vec<f64> = (0..41)
        .map(|_| {
            let from = std::time::Instant::now();
            let out = xdata::table(&funcs, &procs);
            let took = from.elapsed().as_secs_f64() * 1e6;
            assert!(out.is_ok());
            took
        })
        .collect();
    took.sort_by(f64::total_cmp);
    format!("{:.0}", took[20])
}

fn main() {
    std::panic::set_hook(Box::new(|info| {
        let text = info.payload_as_str().unwrap_or("no text").to_owned();
        PANIC.with(|panic| *panic.borrow_mut() = text);
    }));
    let out = &mut std::io::BufWriter::new(std::io::stdout().lock());
    let timed = std::env::args().nth(1).as_deref() == Some("time");
    for line in std::io::stdin().lock().lines() {
        let line = line.expect("text on standard input");
        writeln!(out, "{}", if timed { time(&line) } else { answer(&line) }).expect("standard output");
    }
}

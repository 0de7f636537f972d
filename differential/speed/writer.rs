//! Times the Rust source and the library on one case in text form, by turns in one run. `speed` has the arguments.

use std::hint::black_box;
use std::io::Read;
use std::time::Instant;

use harness::{Answer, Case, Input, Written};
use rucc_object::Unwind;
use rucc_target::{CallRegs, ObjectFormat};

#[allow(dead_code)]
#[path = "../rust/harness.rs"]
mod harness;

/// The source names its error by the crate.
pub use harness::Error;

/// What the exports answer; include/dekvoz.h has their meaning.
#[repr(C)]
struct Counts {
    number: u64,
    position: u64,
    places: u64,
    bytes: u64,
    relocations: u64,
    sites: u64,
}

#[repr(C)]
struct Reading {
    number: u64,
    frame: u64,
    frame_register: u64,
    frame_offset: u64,
    rule: u64,
    rule_value: u64,
    signing: u64,
    shortest: u64,
}

#[rustfmt::skip]
#[link(name = "dekvoz", kind = "static")]
unsafe extern "C" {
    fn unwind_relaxed_table(
        machine: *const u64, machine_n: usize, format: u64,
        functions: *const u64, functions_n: usize, rows: *const u64, rows_n: usize,
        landings: *const u64, landings_n: usize, pairs: *const u64, pairs_n: usize,
        places: *mut u64, places_n: usize, bytes: *mut u8, bytes_n: usize,
        relocations: *mut u64, relocations_n: usize, sites: *mut u8, sites_n: usize,
    ) -> Counts;
    fn unwind_read(
        section: *const u8, section_n: usize, relocations: *const u64, relocations_n: usize,
        kind: u64, word: u64, k: u64, reg: u16, p: u64,
    ) -> Reading;
}

/// The lists that are lent to the library: header places, bytes, relocations, call sites.
struct Lent {
    places: Vec<u64>,
    bytes: Vec<u8>,
    relocations: Vec<u64>,
    sites: Vec<u8>,
}

fn main() {
    let words: Vec<String> = std::env::args().skip(1).collect();
    let case = read_case();
    match words.iter().map(String::as_str).collect::<Vec<_>>()[..] {
        ["write", runs] => write(&case, runs.parse().expect("a number of runs")),
        ["read", runs] => read(&case, runs.parse().expect("a number of runs")),
        ["once", lists] => once(&case, lists),
        _ => panic!("speed.rs: write RUNS, read RUNS, or once exact or ample"),
    }
}

fn read_case() -> Case {
    let mut text = String::new();
    std::io::stdin().read_to_string(&mut text).expect("text on standard input");
    let mut case = Case::default();
    for line in text.lines() {
        harness::read_line(&mut case, line).expect("a line of a case");
    }
    case
}

// The writers

/// Both writers by turns, the library with lists exactly as long as the results and with ample ones; each answer is compared
/// once, and the times are printed.
fn write(case: &Case, runs: usize) {
    let (conv, input) = (harness::machine(&case.machine).unwrap(), harness::input(case).unwrap());
    let expected = expected(source(&input, &conv));
    let mut lent = [lend(&expected), lend_amply(case)];
    for lent in &mut lent {
        let counts = library(case, lent);
        compare(&expected, &counts, lent);
    }

    let (mut theirs, mut ours) = (Vec::new(), [Vec::new(), Vec::new()]);
    for _ in 0..runs {
        let start = Instant::now();
        let out = black_box(source(black_box(&input), &conv));
        theirs.push(start.elapsed().as_secs_f64());
        drop(out);
        for (lent, ours) in lent.iter_mut().zip(&mut ours) {
            clear(lent);
            let start = Instant::now();
            let counts = black_box(library(black_box(case), lent));
            ours.push(start.elapsed().as_secs_f64());
            assert_eq!(counts.number, 0);
        }
    }
    let (theirs, [exact, ample]) = (times(theirs), ours.map(times));
    println!(
        "{:<20} {:>8} bytes  Rust {:>8.3} ms, least {:>8.3}  library, exact lists {:>8.3} ms, least {:>8.3}, ratio {:.2}, {:.2}  ample lists {:>8.3} ms, least {:>8.3}, ratio {:.2}, {:.2}",
        case.name, expected.bytes.len(), theirs.0, theirs.1,
        exact.0, exact.1, exact.0 / theirs.0, exact.1 / theirs.1,
        ample.0, ample.1, ample.0 / theirs.0, ample.1 / theirs.1
    );
}

/// One call of each, for a tool that counts instructions.
fn once(case: &Case, lists: &str) {
    let (conv, input) = (harness::machine(&case.machine).unwrap(), harness::input(case).unwrap());
    let expected = expected(source(&input, &conv));
    let mut lent = if lists == "ample" { lend_amply(case) } else { lend(&expected) };
    let counts = library(case, &mut lent);
    compare(&expected, &counts, &lent);
}

fn source(input: &Input, conv: &CallRegs) -> Unwind {
    let Input { funcs, rows, named, begins, relaxed } = input;
    harness::unwind::relaxed_table(funcs, rows, conv, ObjectFormat::Elf, named, begins, relaxed)
        .unwrap_or_else(|error| panic!("{error:?}"))
}

fn expected(out: Unwind) -> Written {
    match harness::table_answer(out, false) {
        Answer::Accepted(written) => written,
        _ => panic!("the source did not accept the list"),
    }
}

/// Lists of the size that the results have.
fn lend(expected: &Written) -> Lent {
    Lent {
        places: vec![0; expected.places.len()],
        bytes: vec![0; expected.bytes.len()],
        relocations: vec![0; 5 * expected.relocs.len()],
        sites: vec![0; expected.sites.len()],
    }
}

/// Lists that hold whatever functions with so many rows and landings can be (docs/PERFORMANCE.md).
fn lend_amply(case: &Case) -> Lent {
    let functions = case.functions.chunks_exact(18);
    let (n, rows) = (functions.len(), functions.clone().map(|f| f[3]).sum::<u64>() as usize);
    let labelled = functions.clone().filter(|f| f[14] != 0).map(|f| f[3]).sum::<u64>() as usize;
    let landings = functions.map(|f| f[5]).sum::<u64>() as usize;
    Lent {
        places: vec![0; n],
        bytes: vec![0; 96 * n + 14 * rows],
        relocations: vec![0; 25 * n + 10 * labelled],
        sites: vec![0; 17 * n + 40 * landings],
    }
}

fn clear(lent: &mut Lent) {
    lent.places.fill(0);
    lent.bytes.fill(0);
    lent.relocations.fill(0);
    lent.sites.fill(0);
}

fn library(case: &Case, lent: &mut Lent) -> Counts {
    let Lent { places, bytes, relocations, sites } = lent;
    // SAFETY: every pointer comes with its own list's length, and no two lists overlap.
    unsafe {
        unwind_relaxed_table(
            case.machine.as_ptr(), case.machine.len(), case.format,
            case.functions.as_ptr(), case.functions.len(), case.rows.as_ptr(), case.rows.len(),
            case.landings.as_ptr(), case.landings.len(), case.pairs.as_ptr(), case.pairs.len(),
            places.as_mut_ptr(), places.len(), bytes.as_mut_ptr(), bytes.len(),
            relocations.as_mut_ptr(), relocations.len(), sites.as_mut_ptr(), sites.len(),
        )
    }
}

fn compare(expected: &Written, counts: &Counts, lent: &Lent) {
    let Counts { number, position, places, bytes, relocations, sites } = *counts;
    assert_eq!((number, position), (0, 0), "the library refused the list");
    let fives: Vec<[u64; 5]> = expected.relocs.iter().map(harness::five).collect();
    let lengths = [expected.places.len(), expected.bytes.len(), fives.len(), expected.sites.len()];
    assert_eq!([places, bytes, relocations, sites], lengths.map(|n| n as u64), "other counts");
    assert!(begins(&lent.places, &expected.places), "other header places");
    assert!(begins(&lent.bytes, &expected.bytes), "other bytes");
    assert!(begins(&lent.relocations, fives.as_flattened()), "other relocations");
    assert!(begins(&lent.sites, &expected.sites), "other call sites");
}

/// A cleared list has the results at its front, and zeros behind them.
fn begins<T: PartialEq + Default>(lent: &[T], results: &[T]) -> bool {
    lent.starts_with(results) && lent[results.len()..].iter().all(|x| *x == T::default())
}

/// The median and the least, in milliseconds.
fn times(mut seconds: Vec<f64>) -> (f64, f64) {
    seconds.sort_by(f64::total_cmp);
    (1e3 * seconds[seconds.len() / 2], 1e3 * seconds[0])
}

// The reader

/// Reads of 100 records by the library, at random, a run; the time of one read is printed.
fn read(case: &Case, runs: usize) {
    let (conv, input) = (harness::machine(&case.machine).unwrap(), harness::input(case).unwrap());
    let mut lent = lend(&expected(source(&input, &conv)));
    assert_eq!(library(case, &mut lent).number, 0);
    let mut state = 1;
    let mut each = Vec::new();
    for _ in 0..runs {
        let start = Instant::now();
        for _ in 0..READS {
            black_box(read_one(case, &lent, &mut state));
        }
        each.push(start.elapsed().as_secs_f64() / READS as f64);
    }
    let (median, least) = times(each);
    println!(
        "{:<20} {:>8} bytes  one read {:>8.4} ms, least {:>8.4}",
        case.name, lent.bytes.len(), median, least
    );
}

const READS: usize = 100;

/// A random record at a random offset of its function, for the frame pointer.
fn read_one(case: &Case, lent: &Lent, state: &mut u64) -> Reading {
    let k = below(state, lent.places.len() as u64);
    let p = below(state, case.functions[18 * k as usize + 1]);
    // SAFETY: both pointers come with their lists' lengths.
    let reading = unsafe {
        unwind_read(
            lent.bytes.as_ptr(), lent.bytes.len(), lent.relocations.as_ptr(), lent.relocations.len(),
            0, case.machine[0], k, 6, p,
        )
    };
    assert_eq!(reading.number, 0, "record {k} at {p}");
    reading
}

fn below(state: &mut u64, n: u64) -> u64 {
    *state = state.wrapping_mul(6364136223846793005).wrapping_add(1442695040888963407);
    (*state >> 33) % n
}

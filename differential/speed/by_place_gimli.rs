//! gimli's times for what by_place.c times of the library: a record by its place, and a register's rules there. Not in the gate; needs
//! Debian's librust-gimli-dev, and the section that `target/differential/speed/by_place FILE` writes:
//!
//!     by_place_gimli FILE

use std::time::Instant;

use gimli::{BaseAddresses, CieOrFde, EhFrame, LittleEndian, Register, RegisterRule, UnwindContext, UnwindSection};

const TURNS: usize = 40;

fn main() -> Result<(), Box<dyn std::error::Error>> {
    let bytes = std::fs::read(std::env::args().nth(1).ok_or("a file is asked for")?)?;
    let section = EhFrame::new(&bytes, LittleEndian);
    let bases = BaseAddresses::default().set_eh_frame(0x10000);
    let mut places = Vec::new();
    let mut entries = section.entries(&bases);
    while let Some(entry) = entries.next()? {
        if let CieOrFde::Fde(partial) = entry {
            places.push(partial.parse(EhFrame::cie_from_offset)?.offset());
        }
    }
    let mut context = UnwindContext::new();
    let (mut located, mut ruled, mut listed) = (f64::MAX, f64::MAX, f64::MAX);
    for _ in 0..TURNS {
        let start = Instant::now();
        let mut sum = 0;
        for i in 0..places.len() {
            let place = places[i * 7919 % places.len()];
            sum += section.fde_from_offset(&bases, place.into(), EhFrame::cie_from_offset)?.len();
        }
        located = located.min(start.elapsed().as_secs_f64() / places.len() as f64);
        assert_eq!(sum, 31 * places.len() as u64);

        let start = Instant::now();
        let mut saved = 0;
        for i in 0..places.len() {
            let place = places[i * 7919 % places.len()];
            let record = section.fde_from_offset(&bases, place.into(), EhFrame::cie_from_offset)?;
            let row = record.unwind_info_for_address(&section, &bases, &mut context, record.initial_address() + 8)?;
            saved += usize::from(row.register(Register(6)) == RegisterRule::Offset(-16));
        }
        ruled = ruled.min(start.elapsed().as_secs_f64() / places.len() as f64);
        assert_eq!(saved, places.len());

        let start = Instant::now();
        let mut count = 0;
        let mut entries = section.entries(&bases);
        while let Some(entry) = entries.next()? {
            if let CieOrFde::Fde(partial) = entry {
                count += usize::from(partial.parse(EhFrame::cie_from_offset)?.len() != 0);
            }
        }
        listed = listed.min(start.elapsed().as_secs_f64());
        assert_eq!(count, places.len());
    }
    println!("{} records: a record by its place {:.2} us, and one register {:.2} us; all records in turn {:.0} us", places.len(), located * 1e6, ruled * 1e6, listed * 1e6);
    Ok(())
}

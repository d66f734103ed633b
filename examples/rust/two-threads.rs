//! Two processors of a guest, a thread each: both enter pages of their own into one group of eight
//! entries, until it is full. In the end the table is the caller's again.
//! In bindings/rust: cargo run --example two-threads --features shared,std
use papr::{Grant, Grants, Pass, SharedTable, Table};
use std::error::Error;
use std::thread;

const GROUP: usize = 0x20;
const CALLS: u64 = 16;

/// Enters pages, the first of which is of this segment: how many were entered.
fn enter(mut pass: Pass, first_vsid: u64) -> usize {
    let entered = (first_vsid..first_vsid + CALLS).filter(|vsid| {
        let reply = pass.finish(|it| it.h_enter(0, GROUP as u64, vsid << 12 | 1, 0x3012));
        reply.result().is_ok()
    });
    entered.count()
}

fn main() -> Result<(), Box<dyn Error>> {
    let ram = Grant {
        logical: 0,
        machine: 0x20_0000_0000,
        length: 0x4000_0000,
        is_io: false,
    };
    let mut shared = SharedTable::open(Table::new(18, Grants::new(&[ram])?)?, 2)?;
    let (first, second) = (shared.split()?, shared.split()?);
    let entered = thread::scope(|scope| {
        let other = scope.spawn(|| enter(second, 1 + CALLS));
        Ok::<_, Box<dyn Error>>(enter(first, 1) + other.join().map_err(|_| "a thread failed")?)
    })?;
    let table = shared.close()?;
    for index in GROUP..GROUP + 8 {
        let is_valid = table.entries()[index].valid;
        println!(
            "entry {index:#x}: {}",
            if is_valid { "valid" } else { "empty" }
        );
    }
    println!("{entered} of {} calls entered a page", 2 * CALLS);
    Ok(())
}

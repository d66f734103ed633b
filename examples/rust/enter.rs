//! A page is entered twice, and the second call finds its entry taken. Then a store finds the page.
//! In bindings/rust: cargo run --example enter
use papr::{flags, Access, Grant, Grants, Outcome, Table, Want};
use std::error::Error;

fn main() -> Result<(), Box<dyn Error>> {
    let ram = Grant {
        logical: 0,
        machine: 0x20_0000_0000,
        length: 0x4000_0000,
        is_io: false,
    };
    let mut table = Table::new(18, Grants::new(&[ram])?)?;
    for _ in 0..2 {
        let reply = table.h_enter(flags::EXACT, 0x27, 0x1001, 0x3012);
        println!("H_ENTER {reply}");
    }
    let walk = table.walk(&Access::new(0x5678, 1, Want::Store));
    if let Outcome::At { logical } = walk.outcome() {
        let range = table
            .grants()
            .machine_of(logical, 8)
            .ok_or("no memory is granted there")?;
        let last = walk
            .receipts()
            .next_back()
            .ok_or("a walk tries at least one entry")?;
        println!("store at {:#x} | .. {last}", range.machine);
    }
    println!(
        "valid: {}",
        table.entries().iter().filter(|entry| entry.valid).count()
    );
    Ok(())
}

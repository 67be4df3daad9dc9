//! Times the library for hosts (libhost.a, by its C functions) and the Rust originals in one process, on the
//! same inputs, and prints one table. Before a row is timed both sides' answers are compared.
//!
//!     bench [REPEATS]      at least 15, by default 21

mod acks;
mod clock;
mod draws;
mod lists;
mod lookups;
mod memory;
#[allow(dead_code, unused_imports)]
#[path = "../../oracle/src/plain/mod.rs"]
mod plain;
#[allow(dead_code)]
#[rustfmt::skip]
#[path = "../../hosts/rust/src/raw.rs"]
mod raw;
#[allow(dead_code)]
#[path = "../../oracle/src/rust.rs"]
mod rust;
mod table;
mod training;
mod trees;

use table::Table;

const FEWEST: usize = 15;

fn main() {
    let repeats = match std::env::args().nth(1).map(|word| word.parse()) {
        None => 21,
        Some(Ok(n)) if n >= FEWEST => n,
        Some(_) => {
            eprintln!("usage: bench [REPEATS], at least {FEWEST}");
            std::process::exit(2);
        }
    };
    println!("{}\n", clock::machine());
    let mut table = Table::new(repeats);
    let trees = [trees::chain(), trees::bushy()];
    for tree in &trees {
        lookups::many(&mut table, tree);
    }
    for tree in &trees {
        acks::many(&mut table, tree);
    }
    for tree in &trees {
        acks::bursts(&mut table, tree);
    }
    lookups::alone(&mut table, &trees[0]);
    lookups::even(&mut table);
    draws::steps(&mut table);
    lookups::load(&mut table, &trees[0]);
    lists::candidates(&mut table);
    lists::equality(&mut table, &trees[0]);
    training::whole(&mut table);
    memory::rows(&mut table, &trees[0]);
    table.print();
}

/// The size that a call of libhost.a answers; a refusal ends the run.
#[track_caller]
fn size(answer: u64) -> usize {
    assert!(answer < 1 << 63, "refused {}", answer & !(1 << 63));
    answer as usize
}

//! The tables: a subject with all its contenders, the fastest first; and every entry of the archive in one.

use crate::measure::{Measured, Row};

pub fn print(measured: &Measured) {
    let fastest = measured.fastest_peer().nanoseconds;
    println!("{}: {} values, less an empty call; ratios against the best peer", measured.subject, measured.calls);
    println!("  {:24} {:>9} {:>7} {:>13} {:>7}", "", "ns a call", "ratio", "instructions", "ratio");
    for row in &measured.rows {
        print!("  {:24} {:9.2} {:7.2}", row.name, row.nanoseconds, row.nanoseconds / fastest);
        println!("{}", instructions(measured, row));
    }
    for name in &measured.absent {
        println!("  {name} is not installed here");
    }
    println!();
}

/// Every entry on every job, each beside the fastest peer there.
pub fn summary(all: &[Measured]) {
    println!("every entry; ratios against the best peer of the job");
    println!(
        "  {:18} {:20} {:>9} {:>7} {:>13} {:>7}   fastest peer",
        "", "", "ns a call", "ratio", "instructions", "ratio"
    );
    for measured in all {
        let peer = measured.fastest_peer();
        for row in measured.ours() {
            print!("  {:18} {:20} {:9.2}", measured.subject, row.name, row.nanoseconds);
            print!(" {:7.2}{}", row.nanoseconds / peer.nanoseconds, instructions(measured, row));
            println!("   {}, {:.2} ns", peer.name, peer.nanoseconds);
        }
    }
    if all.iter().any(|measured| measured.fewest_instructions().is_none()) {
        println!("  instructions are not counted: valgrind did not run");
    }
    println!();
}

fn instructions(measured: &Measured, row: &Row) -> String {
    match (row.instructions, measured.fewest_instructions()) {
        (Some(count), Some(fewest)) => format!(" {count:13.1} {:7.2}", count / fewest),
        _ => format!(" {:>13} {:>7}", "-", "-"),
    }
}

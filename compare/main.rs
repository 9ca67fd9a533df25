//! Compares the static library with the Rust (../oracle), and times both. tools/compare.sh and tools/bench.sh build and run it.
//!
//!     compare N SEED   Compares types, search and rotations of random solids until N clean ones are done, and a random copying beside each.
//!                      It prints what was compared and what differed, and its exit status is 1 where something did.
//!     compare bench    Prints the times and their ratios.
//!     compare sheet X  Writes the sheet of a regular polychoron (5-cell, 16-cell, tesseract, 24-cell, 600-cell, 120-cell) to standard output.

mod bench;
mod clean;
mod comparing;
mod copyings;
mod families;
mod library;
mod model;
mod random;
mod solids;

use random::Random;
use std::io::Write;

fn number(word: &str) -> u64 {
    word.parse().expect("a number")
}

fn main() {
    let args: Vec<String> = std::env::args().skip(1).collect();
    match args.iter().map(String::as_str).collect::<Vec<_>>()[..] {
        ["bench"] => bench::all(),
        ["sheet", name] => {
            let (_, solid) = bench::polychora().into_iter().find(|(other, _)| other == name).expect("a regular polychoron");
            std::io::stdout().write_all(&solid.pack()).expect("written");
        }
        [n, seed] => {
            clean::check();
            let mut random = Random::new(number(seed));
            let mut tally = comparing::Tally::default();
            while tally.solids() < number(n) {
                comparing::copying(&mut random, &mut tally);
                comparing::solid(&mut random, &mut tally);
            }
            tally.print();
            std::process::exit(i32::from(tally.differences > 0));
        }
        _ => {
            eprintln!("compare N SEED | bench | sheet NAME");
            std::process::exit(2);
        }
    }
}

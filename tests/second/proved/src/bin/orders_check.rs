//! Demand 3 and section 3 of document 02 by experiment over generated small files, for the proved engine: `orders_check [SEEDS] [FIRST SEED]`. The second engine is held to the same by its tests.

use proved::Proved;
use second::firing_checks::{self, Counts};
use second::mark_checks::{self, MarkCounts};

/// Runs so many seeds, by strata and by marks; what fails is said.
fn run(seeds: u64, first: u64) -> Result<(Counts, MarkCounts), String> {
    let mut engine = Proved::default();
    let (mut counts, mut by_marks) = (Counts::default(), MarkCounts::default());
    for seed in first..first + seeds {
        firing_checks::check_small(&mut engine, seed, &mut counts)?;
        mark_checks::check_small(&mut engine, seed, &mut by_marks)?;
    }
    Ok((counts, by_marks))
}

/// Prints what was met, or what failed.
fn main() {
    let mut given = std::env::args().skip(1).map(|word| word.parse::<u64>().expect("a number"));
    let seeds = given.next().unwrap_or(8_000);
    let first = given.next().unwrap_or(1);
    match run(seeds, first) {
        Ok((counts, by_marks)) => println!("{counts:?}\n{by_marks:?}"),
        Err(why) => {
            println!("{why}");
            std::process::exit(1);
        }
    }
}

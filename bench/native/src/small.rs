//! Small files: what a call takes by itself, and what is left of a response without it.

use crate::engine::Engine;
use crate::input::{Input, Series};
use crate::measure::{lower, mark_result, mark_times, refused_times, ROUNDS};

/// How many rules a small file has at the most.
const FEW: u16 = 32;

/// The best times of both engines on an input: reading, the responses by strata and by marks, and a response that is refused with 44; None where it is not small.
fn small_times(first: &mut dyn Engine, second: &mut dyn Engine, input: &Input) -> Option<[[f64; 2]; 4]> {
    let made = mark_result(second, input);
    if made.table.count > FEW {
        return None;
    }
    let mut times = [[f64::INFINITY; 2]; 4];
    for _ in 0..ROUNDS {
        let [reading, _, by_strata, by_marks] = mark_times([first, second], input, &made.layered, &made.table);
        let refused = refused_times([first, second], input, &made.table);
        times.iter_mut().zip([reading, by_strata, by_marks, refused]).for_each(|(best, times)| lower(best, times));
    }
    Some(times)
}

/// Prints the times of both engines on the small ones of the growing inputs.
pub fn print_small([first, second]: [&mut dyn Engine; 2], inputs: &[Input]) {
    println!("\nSmall files: times in microseconds; 'the call' is a response that is refused with 44, which takes the table and does nothing with it.\n");
    println!("| input | engine | reading | by strata | by marks | the call | by strata less the call | by marks less the call |");
    println!("|---|---|---|---|---|---|---|---|");
    for input in inputs.iter().filter(|input| input.series == Some(Series::Growing)) {
        let Some(times) = small_times(first, second, input) else {
            continue;
        };
        for (engine, name) in ["proved", "native"].into_iter().enumerate() {
            let [reading, by_strata, by_marks, call] = times.map(|times| times[engine]);
            let less = format!("{:>8.2} | {:>8.2}", by_strata - call, by_marks - call);
            let times = format!("{reading:>8.2} | {by_strata:>8.2} | {by_marks:>8.2} | {call:>8.3}");
            println!("| {:<37} | {name} | {times} | {less} |", input.name);
        }
    }
}

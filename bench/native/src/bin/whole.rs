//! Runs the program `rl` and other systems on the same rules, card and slip, compares their changes and prints the times of the whole processes.

use std::collections::BTreeSet;
use std::path::{Path, PathBuf};
use std::process::{Command, Stdio};
use std::time::Instant;

use native::cards::{unpack_card, unpack_slip};
use native::engine::{Engine, Native};
use native::inputs::program_input;
use native::measure::EDITOR;
use native::systems::Case;
use native::test31::tested;

/// How many runs the best is taken of.
const RUNS: usize = 20;

/// A system: its name, its program and arguments, and what the program is run in.
struct System {
    name: &'static str,
    command: Vec<String>,
    folder: PathBuf,
}

/// Writes the rules of a folder in the languages of the other systems, and gives the commands; the folder has rules.txt, card.bin, slip.bin and editor.bin.
fn systems(rl: &Path, folder: &Path, made: &Path) -> Vec<System> {
    let file = |name: &str| std::fs::read(folder.join(name)).expect("the file is there");
    let (text, card, slip) = (file("rules.txt"), file("card.bin"), file("slip.bin"));
    let mut engine = Native::new();
    engine.read(&text).expect("the rules are accepted");
    let table = engine.table();
    let lasts = tested(table).expect("the table is in order");
    let values = unpack_card(&lasts, table.width as usize, &card).expect("the card is in order");
    let changes = unpack_slip(&lasts, table.width as usize, &slip).expect("the slip is in order");
    let numbered = |values: Vec<u8>| (0..32).zip(values).filter(|pair| pair.1 > 0).collect();
    let changed = changes.iter().map(|values| values.checked_ilog2().unwrap_or(0) as u8).collect();
    let case = Case { text: &text, table, card: numbered(values.to_vec()), slip: numbered(changed) };
    std::fs::create_dir_all(made).expect("the folder is made");
    let write = |name: &str, program: String| std::fs::write(made.join(name), program).expect("the file is written");
    write("rules.lp", case.clingo());
    write("rules.clp", case.clips());
    write("rules.pl", case.prolog());
    let system = |name, command: &[&str], folder: &Path| System {
        name,
        command: command.iter().map(|word| word.to_string()).collect(),
        folder: folder.to_path_buf(),
    };
    vec![
        system("rl", &[rl.to_str().expect("a plain path")], folder),
        system("clingo", &["clingo", "--verbose=0", "rules.lp"], made),
        system("CLIPS", &["clips", "-f2", "rules.clp"], made),
        system("SWI-Prolog", &["swipl", "-q", "rules.pl"], made),
    ]
}

/// Slots with the values they change to, by name.
type Changes = BTreeSet<(String, String)>;

/// The changes in an output: lines `change SLOT VALUE`, or atoms `change("SLOT","VALUE")`.
fn changes(output: &[u8]) -> Changes {
    let text = String::from_utf8_lossy(output);
    let words: Vec<&str> =
        text.split(|c: char| c.is_whitespace() || "(),\"".contains(c)).filter(|word| !word.is_empty()).collect();
    let named = words.windows(3).filter(|words| words[0] == "change");
    named.map(|words| (words[1].to_string(), words[2].to_string())).collect()
}

/// The time of a system's whole process in milliseconds, and its changes; None where it is not installed.
fn run(system: &System) -> Option<(f64, Changes)> {
    let mut command = Command::new(&system.command[0]);
    command.args(&system.command[1..]).current_dir(&system.folder).stdin(Stdio::null());
    let start = Instant::now();
    let output = command.output().ok()?;
    Some((start.elapsed().as_secs_f64() * 1e3, changes(&output.stdout)))
}

/// The best time of each system, the systems taken in turn, and the changes of its first run.
fn best(systems: &[System]) -> Vec<Option<(f64, Changes)>> {
    let mut best: Vec<Option<(f64, Changes)>> = systems.iter().map(run).collect();
    for _ in 1..RUNS {
        for (system, best) in systems.iter().zip(&mut best) {
            if let (Some((time, _)), Some(best)) = (run(system), best) {
                best.0 = best.0.min(time);
            }
        }
    }
    best
}

/// Writes the largest input that the program takes into a folder.
fn write_largest(folder: &Path) {
    let input = program_input();
    std::fs::create_dir_all(folder).expect("the folder is made");
    let files =
        [("rules.txt", input.text), ("card.bin", input.card), ("slip.bin", input.slip), ("editor.bin", vec![EDITOR])];
    for (name, bytes) in files {
        std::fs::write(folder.join(name), bytes).expect("the file is written");
    }
}

/// Runs all systems on a folder and prints their lines; false where the changes differ.
fn compare(name: &str, rl: &Path, folder: &Path, made: &Path) -> bool {
    let mut same = true;
    let mut first: Option<Changes> = None;
    let systems = systems(rl, folder, made);
    for (system, best) in systems.iter().zip(best(&systems)) {
        let Some((time, found)) = best else {
            println!("| {name} | {:<10} | not installed | |", system.name);
            continue;
        };
        let agrees = *first.get_or_insert(found.clone()) == found && !found.is_empty();
        same &= agrees;
        let word = if agrees { "same" } else { "DIFFERENT" };
        println!("| {name} | {:<10} | {time:>8.2} | {} changes, {word} |", system.name, found.len());
    }
    same
}

fn main() {
    let words: Vec<PathBuf> = std::env::args().skip(1).map(PathBuf::from).collect();
    let [rl, dialect, made] = &words[..] else {
        panic!("whole RL DIALECT-FOLDER FOLDER-TO-WRITE");
    };
    let largest = made.join("largest");
    write_largest(&largest);
    println!("\nWhole processes, start to end, in milliseconds, the best of {RUNS} runs:\n");
    println!("| rules | system | ms | changes |\n|---|---|---|---|");
    let same = compare("examples/dialect", rl, dialect, &made.join("dialect"));
    let same = compare("the largest input", rl, &largest, &largest) && same;
    std::process::exit(if same { 0 } else { 1 });
}

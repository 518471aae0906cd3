//! The comparison: `compare [--rounds N] [--seed S] [--out FOLDER]` compares the proved engine with the second; with `--program PATH` it compares that program's output instead, with `--tables PATH` the lines of the program `strata_cases`.

use std::path::{Path, PathBuf};
use std::process::{exit, Command};

use proved::Proved;
use second::compare::{compare_seeds, shrunk, store, Seed};
use second::gen::{card, program_file, slip, Rng};
use second::gen_editors::editor_file;
use second::listing::listing;
use second::program_cases::NAMES;
use second::table_lines;

/// How many rounds there are for one large file.
const ROUNDS_TO_A_LARGE_FILE: u64 = 200;

/// What the command line asks for.
struct Asked {
    rounds: u64,
    seed: u64,
    out: Option<PathBuf>,
    program: Option<PathBuf>,
    tables: Option<PathBuf>,
}

/// Reads the command line.
fn asked() -> Asked {
    let mut asked = Asked { rounds: 8_000, seed: 1, out: None, program: None, tables: None };
    let mut words = std::env::args().skip(1);
    while let Some(word) = words.next() {
        let value = words.next().unwrap_or_default();
        match word.as_str() {
            "--rounds" => asked.rounds = value.parse().expect("--rounds takes a number"),
            "--seed" => asked.seed = value.parse().expect("--seed takes a number"),
            "--out" => asked.out = Some(value.into()),
            "--program" => asked.program = Some(value.into()),
            "--tables" => asked.tables = Some(value.into()),
            _ => panic!("not known: {word}"),
        }
    }
    asked
}

/// Runs a program in a folder that holds its four files.
fn run(program: &Path, folder: &Path, files: [&[u8]; 4]) -> Vec<u8> {
    for (name, bytes) in NAMES.iter().zip(files) {
        std::fs::write(folder.join(name), bytes).expect("the folder can be written");
    }
    Command::new(program).current_dir(folder).output().expect("the program can be run").stdout
}

/// Compares a program's output with the second engine's; leaves the files of the first difference.
fn try_program(asked: &Asked, program: &Path) -> bool {
    let program = program.canonicalize().expect("the program is there");
    let folder =
        asked.out.clone().unwrap_or_else(|| std::env::temp_dir().join(format!("second-{}", std::process::id())));
    std::fs::create_dir_all(&folder).expect("the folder can be made");
    for seed in asked.seed..asked.seed + asked.rounds {
        let mut rng = Rng::new(seed);
        let file = program_file(&mut rng, seed);
        let (card, slip) = (card(&mut rng, &file.sketch), slip(&mut rng, &file.sketch));
        let editor = editor_file(&mut rng);
        let wanted = listing(&file.text, &card, &slip, &editor);
        let printed = run(&program, &folder, [&file.text, &card, &slip, &editor]);
        if printed != wanted.as_bytes() {
            println!(
                "seed {seed} in {}: printed\n{}wanted\n{wanted}",
                folder.display(),
                String::from_utf8_lossy(&printed)
            );
            return false;
        }
    }
    println!("{} runs of {} agree", asked.rounds, program.display());
    true
}

/// Runs a program on an input.
fn run_on(program: &Path, input: &[u8]) -> Vec<u8> {
    let path = std::env::temp_dir().join(format!("second-input-{}", std::process::id()));
    std::fs::write(&path, input).expect("the folder can be written");
    let stdin = std::fs::File::open(&path).expect("the input was written");
    let printed = Command::new(program).stdin(stdin).output().expect("the program can be run").stdout;
    let _ = std::fs::remove_file(&path);
    printed
}

/// Compares the lines that a program writes for generated tables; leaves the input of the first difference.
fn try_tables(asked: &Asked, program: &Path) -> bool {
    for seed in asked.seed..asked.seed + asked.rounds {
        let input = table_lines::generated(seed);
        let (printed, wanted) = (run_on(program, &input), table_lines::output(&input));
        if printed == wanted {
            continue;
        }
        let (printed, wanted) = (String::from_utf8_lossy(&printed), String::from_utf8_lossy(&wanted));
        let differing =
            printed.lines().zip(wanted.lines()).enumerate().find(|(_, (printed, wanted))| printed != wanted);
        println!("seed {seed}: line from 0, printed, wanted: {differing:?}");
        if let Some(out) = &asked.out {
            std::fs::create_dir_all(out).expect("the folder can be made");
            std::fs::write(out.join("stdin"), input).expect("the folder can be written");
        }
        return false;
    }
    println!("{} inputs of {} agree", asked.rounds, program.display());
    true
}

/// Compares the proved engine; a failing input is made small and kept.
fn try_proved(asked: &Asked) -> bool {
    let mut engine = Proved::default();
    let large = asked.rounds / ROUNDS_TO_A_LARGE_FILE;
    let (found, _) = compare_seeds(&mut engine, Seed::Any, asked.seed, asked.rounds);
    let found = found.or_else(|| compare_seeds(&mut engine, Seed::Large, asked.seed, large).0);
    let failing = match found {
        Some(failing) => failing,
        None => {
            println!("proved: no difference in {} seeds and {large} large files", asked.rounds);
            return true;
        }
    };
    println!("proved: DIFFERS at seed {:?}, {}", failing.seed, failing.difference.place);
    if let Some(out) = &asked.out {
        store(out, &shrunk(&mut engine, &failing)).expect("the folder can be written");
    }
    false
}

/// Compares what the command line asks for; the exit status is 1 where something differs that should not.
fn main() {
    let asked = asked();
    let good = match (&asked.program, &asked.tables) {
        (Some(program), _) => try_program(&asked, program),
        (_, Some(program)) => try_tables(&asked, program),
        (None, None) => try_proved(&asked),
    };
    exit(i32::from(!good));
}

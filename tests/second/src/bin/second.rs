//! The program by the second engine: `second RULES CARD SLIP EDITOR` prints what the program prints for these files.

use std::fs::File;
use std::io::{Read, Write};

use second::program_cases::NAMES;

/// What is printed for four file names: all are opened before any is read, and one that opens but cannot be read is named as one that does not open.
fn printed(names: &[String]) -> String {
    let mut files = Vec::new();
    for name in names {
        match File::open(name) {
            Ok(file) => files.push(file),
            Err(_) => return format!("unread {name}\n"),
        }
    }
    let mut read: [Vec<u8>; 4] = Default::default();
    for (at, mut file) in files.into_iter().enumerate() {
        if file.read_to_end(&mut read[at]).is_err() {
            return format!("unread {}\n", names[at]);
        }
    }
    let [text, card, slip, editor] = &read;
    second::listing::listing(text, card, slip, editor)
}

/// Takes the names from the command line, or the program's own names.
fn main() {
    let given: Vec<String> = std::env::args().skip(1).collect();
    let names = if given.is_empty() { NAMES.map(String::from).to_vec() } else { given };
    if names.len() != NAMES.len() {
        eprintln!("second RULES CARD SLIP EDITOR");
        std::process::exit(2);
    }
    let _ = std::io::stdout().write_all(printed(&names).as_bytes());
}

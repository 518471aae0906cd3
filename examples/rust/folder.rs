//! What the examples in Rust do with a folder: load its files, and end at a refusal.

use std::process::exit;

use crate::rl::Refusal;

/// The folder that the command line names, else the one where the program runs.
pub fn named() -> String {
    std::env::args().nth(1).unwrap_or_else(|| ".".into())
}

/// Reads a file of the folder.
pub fn load(folder: &str, name: &str) -> Vec<u8> {
    std::fs::read(format!("{folder}/{name}")).unwrap_or_else(|_| {
        println!("unread {name}");
        exit(1)
    })
}

/// What a result gives; a refusal ends the program.
pub fn given<A>(result: Result<A, Refusal>) -> A {
    result.unwrap_or_else(|Refusal { number, second }| {
        println!("refused {number} {second}");
        exit(1)
    })
}

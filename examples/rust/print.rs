//! Prints the rules.txt of a folder in the house style.

mod folder;
mod rl;

use std::io::Write;

fn main() -> std::io::Result<()> {
    let text = folder::load(&folder::named(), "rules.txt");
    let mut print = vec![0; rl::PRINT_BYTES];
    let length = folder::given(rl::print(&text, &mut print));
    std::io::stdout().write_all(&print[..length])
}

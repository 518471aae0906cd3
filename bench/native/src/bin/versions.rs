//! Measures two versions of the proved library on the same inputs in one run, in turn, about a millisecond each: `versions BEFORE AFTER`, each a shared object; fails where their results differ. Both have the layout of `raw.rs`: versions with different layouts cannot be compared here, and one of another layout is not called.

use native::inputs::inputs;
use native::mark_tables::{measured, print_versions, Row};
use native::proved::Proved;

fn main() {
    let paths: Vec<String> = std::env::args().skip(1).collect();
    let [before, after] = &paths[..] else {
        panic!("two shared objects, the earlier one first");
    };
    let rows = measured(&mut Proved::loaded(before), &mut Proved::loaded(after), inputs());
    let same = rows.iter().all(Option::is_some);
    let rows: Vec<Row> = rows.into_iter().flatten().collect();
    print_versions(&rows);
    std::process::exit(if same { 0 } else { 1 });
}

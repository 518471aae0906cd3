//! The files of one kind: how times grow where nothing but the number of rules does.

/// What was measured on one of them for both engines: reading; and on its pairs the responses by strata and by marks, printing, and the test 31.
pub struct Row {
    pub rules: usize,
    pub bytes: usize,
    pub pairs: usize,
    pub reading: [f64; 2],
    pub on_pairs: [[f64; 2]; 4],
}

impl Row {
    /// The nanoseconds of reading for each byte, then those of the others for each pair, two engines for each.
    fn costs(&self) -> Vec<f64> {
        let cost = |times: [f64; 2], work: usize| times.map(|time| time * 1e3 / work as f64);
        let on_pairs = self.on_pairs.iter().flat_map(|times| cost(*times, self.pairs));
        cost(self.reading, self.bytes).into_iter().chain(on_pairs).collect()
    }
}

/// Numbers as columns of a table.
fn columns(numbers: impl Iterator<Item = f64>) -> String {
    numbers.map(|number| format!(" {number:>6.2} |")).collect()
}

/// Prints what reading costs for each byte and the others for each pair; and in the last line what the largest file costs as a multiple of what the smallest does.
pub fn print_alike(rows: &[Row]) {
    println!("\nFiles of one kind: nanoseconds for each byte of text in reading; for each trigger, literal and assignment (pair) in the others.\n");
    let measured = ["reading", "strata", "marks", "printing", "31"];
    let names: Vec<String> = measured.iter().map(|name| format!("{name}, proved | {name}, native")).collect();
    println!("| rules | bytes | pairs | {} |", names.join(" | "));
    println!("|---|---|---|{}", "---|".repeat(2 * measured.len()));
    for row in rows {
        println!("| {:>4} | {:>6} | {:>5} |{}", row.rules, row.bytes, row.pairs, columns(row.costs().into_iter()));
    }
    if let [first, .., last] = rows {
        let quotients = last.costs().into_iter().zip(first.costs()).map(|(most, least)| most / least);
        println!("| {} to {} | | |{}", last.rules, first.rules, columns(quotients));
    }
}

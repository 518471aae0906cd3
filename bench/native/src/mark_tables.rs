//! The response by marks and the reading without test 18 measured beside the strata response.

use crate::engine::Engine;
use crate::input::{Input, Series};
use crate::mark_inputs::mark_inputs;
use crate::measure::{lower, mark_result, mark_times, Outcome, ROUNDS};
use crate::table::Table;

/// What was measured on an input: its work, the outcomes by strata and by marks, and the times of the two engines; the strata response only where the text is accepted.
pub struct Row {
    pub name: String,
    pub series: Option<Series>,
    rules: usize,
    tests: usize,
    assigned: usize,
    outcomes: [String; 2],
    readings: [[f64; 2]; 2],
    by_strata: Option<[f64; 2]>,
    pub by_marks: [f64; 2],
}

/// How many triggers and literals, and how many assignments, a table's rules have.
fn work(table: &Table) -> (usize, usize) {
    let rules = &table.rules[..table.count as usize];
    let tests = rules.iter().map(|rule| 1 + rule.literals().len()).sum();
    (tests, rules.iter().map(|rule| rule.assignments().len()).sum())
}

/// The words of an outcome.
fn words(outcome: Outcome) -> String {
    outcome
        .map_or_else(|why| format!("refused {} {}", why.number, why.second), |answer| format!("{} fired", answer.fired))
}

/// Measures an input with two engines; None where the results differ, which are then printed.
fn row(first: &mut dyn Engine, second: &mut dyn Engine, input: &Input) -> Option<Row> {
    let (theirs, ours) = (mark_result(first, input), mark_result(second, input));
    if theirs != ours {
        println!("DIFFERENT by marks on {}", input.name);
        for (name, result) in [("first", theirs), ("second", ours)] {
            println!("{name}: {:?} {:?}", result.readings, result.responses);
        }
        return None;
    }
    let (tests, assigned) = work(&ours.table);
    let [readings @ .., by_strata, by_marks] = mark_times([first, second], input, &ours.layered, &ours.table);
    let accepted = ours.readings[0].is_ok();
    Some(Row {
        name: input.name.clone(),
        series: input.series,
        rules: ours.table.count.into(),
        tests,
        assigned,
        outcomes: [ours.readings[0].and(ours.responses[0].answer), ours.responses[1].answer].map(words),
        readings,
        by_strata: accepted.then_some(by_strata),
        by_marks,
    })
}

impl Row {
    /// Keeps the better times of two measurements of the same input.
    fn lower(&mut self, other: Row) {
        self.readings.iter_mut().zip(other.readings).for_each(|(times, others)| lower(times, others));
        lower(&mut self.by_marks, other.by_marks);
        if let (Some(times), Some(others)) = (&mut self.by_strata, other.by_strata) {
            lower(times, others);
        }
    }

    /// The work and the time of the response by marks for an engine.
    pub fn point(&self, engine: usize) -> (f64, f64) {
        (self.pairs(), self.by_marks[engine])
    }

    /// How many tests and assignments there are.
    fn pairs(&self) -> f64 {
        (self.tests + self.assigned).max(1) as f64
    }
}

/// Measures the response by marks on its inputs, and on others, which do not stand in its line of growing sizes; None for an input where results differ.
pub fn measured(first: &mut dyn Engine, second: &mut dyn Engine, others: Vec<Input>) -> Vec<Option<Row>> {
    let series = |input: &Input| input.series.filter(|series| *series == Series::Alike);
    let others = others.into_iter().map(|input| Input { series: series(&input), ..input });
    let inputs: Vec<Input> = mark_inputs().into_iter().chain(others).collect();
    let mut rows: Vec<Option<Row>> = inputs.iter().map(|input| row(first, second, input)).collect();
    for _ in 1..ROUNDS {
        for (input, kept) in inputs.iter().zip(&mut rows) {
            if let (Some(kept), Some(again)) = (kept, row(first, second, input)) {
                kept.lower(again);
            }
        }
    }
    rows
}

/// Two times and their ratio as columns of a table.
fn columns([proved, native]: [f64; 2]) -> String {
    format!("{proved:>9.2} | {native:>9.2} | {:>5.1}", proved / native)
}

/// Prints the times of two versions of the library on all rows, the earlier one first.
pub fn print_versions(rows: &[Row]) {
    println!("\nTwo versions of the proved library in turn; times in microseconds, results are equal on every line.\n");
    println!("| input | strata, before | strata, after | ratio | marks, before | marks, after | ratio | reading, before | reading, after | ratio | without 18, before | without 18, after | ratio |");
    println!("|---|---|---|---|---|---|---|---|---|---|---|---|---|");
    let columns = |[before, after]: [f64; 2]| format!("{before:>9.2} | {after:>9.2} | {:>5.2}", after / before);
    for row in rows {
        let by_strata = row.by_strata.map_or(format!("{:>9} | {:>9} | {:>5}", "", "", ""), columns);
        let [with, without] = row.readings.map(columns);
        println!("| {:<56} | {by_strata} | {} | {with} | {without} |", row.name, columns(row.by_marks));
    }
}

/// Prints the times of all rows.
pub fn print_rows(rows: &[Row]) {
    println!(
        "\nThe response by marks beside the strata response; times in microseconds, results are equal on every line.\n"
    );
    println!("| input | tests | assignments | by strata | by marks | strata, proved | strata, native | ratio | marks, proved | marks, native | ratio | marks as strata |");
    println!("|---|---|---|---|---|---|---|---|---|---|---|---|");
    for row in rows {
        let by_strata = row.by_strata.map_or(format!("{:>9} | {:>9} | {:>5}", "", "", ""), columns);
        let part = row.by_strata.map_or(String::new(), |times| format!("{:.1}", row.by_marks[0] / times[0]));
        let [strata, marks] = &row.outcomes;
        println!(
            "| {:<56} | {:>5} | {:>5} | {strata:<12} | {marks:<12} | {by_strata} | {} | {part:>5} |",
            row.name,
            row.tests,
            row.assigned,
            columns(row.by_marks)
        );
    }
    println!("\nReading with test 18 and without.\n");
    println!("| input | rules | reading, proved | reading, native | ratio | without 18, proved | without 18, native | ratio |");
    println!("|---|---|---|---|---|---|---|---|");
    for row in rows {
        let [with, without] = row.readings.map(columns);
        println!("| {:<56} | {:>4} | {with} | {without} |", row.name, row.rules);
    }
    println!("\nGrowth of the response by marks: nanoseconds for each test and assignment.\n");
    println!("| input | tests and assignments | proved | native |");
    println!("|---|---|---|---|");
    for row in rows.iter().filter(|row| row.series == Some(Series::Growing)) {
        let [proved, native] = row.by_marks.map(|time| time * 1e3 / row.pairs());
        println!("| {:<56} | {:>5} | {proved:>8.2} | {native:>8.2} |", row.name, row.pairs());
    }
}

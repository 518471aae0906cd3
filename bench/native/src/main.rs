//! Runs both engines on the same inputs, prints their times, draws them, and fails where their results differ.

use native::alike::{self, print_alike};
use native::draw::{svg, Line, Panel};
use native::engine::{Engine, Native};
use native::input::{Input, Series};
use native::inputs::inputs;
use native::mark_tables;
use native::measure::{lower, result, table_times, text_times, ROUNDS};
use native::proved::Proved;
use native::small::print_small;
use native::table::Table;
use native::Refusal;

/// What was measured on an input: its work, and the times of the proved library and of the native engine; the test 31 and a response only where the text is accepted.
struct Row {
    name: String,
    series: Option<Series>,
    bytes: usize,
    rules: usize,
    strata: u16,
    pairs: usize,
    outcome: String,
    reading: [f64; 2],
    soundness: Option<[f64; 2]>,
    response: Option<[f64; 2]>,
    print: String,
    printing: [f64; 2],
}

/// How many triggers, literals and assignments a table's rules have.
fn pairs(table: &Table) -> usize {
    table.rules[..table.count as usize].iter().map(|rule| 1 + rule.literals().len() + rule.assignments().len()).sum()
}

/// Measures an input; None where the results differ, which are then printed.
fn row(proved: &mut dyn Engine, native: &mut dyn Engine, input: &Input) -> Option<Row> {
    let (theirs, ours) = (result(proved, input), result(native, input));
    if theirs != ours {
        println!("DIFFERENT on {}", input.name);
        for (name, result) in [("proved", theirs), ("native", ours)] {
            let numbers = (result.reading, result.is_sound, result.printing);
            println!("{name}: {numbers:?} {:?}\n{}", result.response, String::from_utf8_lossy(&result.print));
        }
        return None;
    }
    let refused = |why: Refusal| format!("refused {} {}", why.number, why.second);
    let answered = ours.reading.and(ours.response.answer);
    let [reading, printing] = text_times([&mut *proved, &mut *native], input);
    let times = ours.reading.is_ok().then(|| table_times([proved, native], input, &ours.table));
    Some(Row {
        name: input.name.clone(),
        series: input.series,
        bytes: input.text.len(),
        rules: ours.table.count.into(),
        strata: ours.table.rules.iter().map(|rule| rule.stratum).max().unwrap_or(0),
        pairs: pairs(&ours.table),
        outcome: answered.map_or_else(refused, |answer| format!("{} fired", answer.fired)),
        reading,
        soundness: times.map(|times| times[0]),
        response: times.map(|times| times[1]),
        print: ours.printing.map_or_else(refused, |length| format!("{length} bytes")),
        printing,
    })
}

/// Two times and their ratio as columns of a table.
fn times(pair: Option<[f64; 2]>) -> String {
    match pair {
        Some([proved, native]) => format!("{proved:>9.2} | {native:>9.2} | {:>5.1}", proved / native),
        None => format!("{:>9} | {:>9} | {:>5}", "", "", ""),
    }
}

/// Prints the times of all rows.
fn print_times(rows: &[Row]) {
    println!("Times in microseconds, the best of several repetitions; results are equal on every line.\n");
    let engines = "reading, proved | reading, native | ratio | response, proved | response, native | ratio";
    println!("| input | bytes | outcome | {engines} |");
    println!("|---|---|---|---|---|---|---|---|---|");
    for row in rows {
        let (reading, response) = (times(Some(row.reading)), times(row.response));
        println!("| {:<56} | {:>6} | {:<12} | {reading} | {response} |", row.name, row.bytes, row.outcome);
    }
}

/// Prints the times of the test 31 by itself, and for the proved library as a part of the response that makes it.
fn print_soundness(rows: &[Row]) {
    println!("\nThe test 31 by itself; and that as a part of the response, for the proved library.\n");
    println!("| input | rules | strata | 31, proved | 31, native | ratio | part of response |");
    println!("|---|---|---|---|---|---|---|");
    for row in rows {
        if let (Some(soundness), Some(response)) = (row.soundness, row.response) {
            let (times, part) = (times(Some(soundness)), soundness[0] / response[0]);
            println!("| {:<56} | {:>4} | {:>3} | {times} | {part:>5.2} |", row.name, row.rules, row.strata);
        }
    }
}

/// Prints the times of printing, which reads too, and what they are less those of reading.
fn print_printing(rows: &[Row]) {
    println!("\nPrinting; what it takes beyond the reading of the same text; and that as a part of the reading, for the proved library.\n");
    let engines = "printing, proved | printing, native | ratio | beyond reading, proved | beyond reading, native";
    println!("| input | bytes | print | {engines} | part of reading |");
    println!("|---|---|---|---|---|---|---|---|---|");
    for row in rows {
        let [proved, native] = [0, 1].map(|engine| row.printing[engine] - row.reading[engine]);
        let (printing, part) = (times(Some(row.printing)), proved / row.reading[0]);
        let beyond = format!("{proved:>9.2} | {native:>9.2} | {part:>5.2}");
        println!("| {:<56} | {:>6} | {:<12} | {printing} | {beyond} |", row.name, row.bytes, row.print);
    }
}

/// Prints how the times grow with the work: bytes of text for reading; triggers, literals and assignments for a response.
fn print_growth(rows: &[Row]) {
    println!(
        "\nGrowth: nanoseconds for each byte of text; for each trigger, literal and assignment (pair) of the rules.\n"
    );
    println!("| bytes | reading, proved | reading, native | pairs | response, proved | response, native |");
    println!("|---|---|---|---|---|---|");
    for row in rows.iter().filter(|row| row.series == Some(Series::Growing)) {
        let [a, b] = row.reading.map(|time| time * 1e3 / row.bytes as f64);
        let [c, d] = row.response.unwrap_or_default().map(|time| time * 1e3 / row.pairs as f64);
        println!("| {:>6} | {a:>8.2} | {b:>8.2} | {:>5} | {c:>8.2} | {d:>8.2} |", row.bytes, row.pairs);
    }
}

/// What was measured on the files of one kind, by strata and by marks.
fn alike_rows(rows: &[Row], mark_rows: &[mark_tables::Row]) -> Vec<alike::Row> {
    let alike_row = |row: &Row| {
        let by_marks = mark_rows.iter().find(|other| other.name == row.name)?.by_marks;
        let (rules, bytes, pairs) = (row.rules, row.bytes, row.pairs);
        let on_pairs = [row.response?, by_marks, row.printing, row.soundness?];
        Some(alike::Row { rules, bytes, pairs, reading: row.reading, on_pairs })
    };
    rows.iter().filter(|row| row.series == Some(Series::Alike)).filter_map(alike_row).collect()
}

/// A panel with a line for each engine by its points.
fn panel(title: &'static str, work: &'static str, points: impl Fn(usize) -> Vec<(f64, f64)>) -> Panel {
    let line = |name, colour, engine| Line { name, colour, points: points(engine) };
    Panel { title, work, lines: vec![line("proved library", "#b03030", 0), line("native engine", "#3050b0", 1)] }
}

/// The drawing of the growing rows.
fn drawing(rows: &[Row], mark_rows: &[mark_tables::Row]) -> String {
    let (bytes, pairs) = ("bytes of text", "triggers, literals and assignments in the table");
    let points = |point: fn(&Row, usize) -> (f64, f64)| {
        move |engine: usize| {
            rows.iter().filter(|row| row.series == Some(Series::Growing)).map(|row| point(row, engine)).collect()
        }
    };
    let reading = points(|row, engine| (row.bytes as f64, row.reading[engine]));
    let printing = points(|row, engine| (row.bytes as f64, row.printing[engine]));
    let response = points(|row, engine| (row.pairs as f64, row.response.unwrap_or_default()[engine]));
    let by_marks = |engine: usize| {
        let growing = mark_rows.iter().filter(|row| row.series == Some(Series::Growing));
        let mut points: Vec<(f64, f64)> = growing.map(|row| row.point(engine)).collect();
        points.sort_by(|one, other| one.0.total_cmp(&other.0));
        points
    };
    svg(&[
        panel("Reading a rule text", bytes, reading),
        panel("Reading and printing a rule text", bytes, printing),
        panel("One response", pairs, response),
        panel("One response by marks", pairs, by_marks),
    ])
}

/// Measures an input again and keeps the best times.
fn measure_again(proved: &mut dyn Engine, native: &mut dyn Engine, input: &Input, row: &mut Row) {
    let [reading, printing] = text_times([&mut *proved, &mut *native], input);
    lower(&mut row.reading, reading);
    lower(&mut row.printing, printing);
    native.read(&input.text).ok();
    let table = Box::new(*native.table());
    if let (Some(soundness), Some(response)) = (&mut row.soundness, &mut row.response) {
        let [one, other] = table_times([proved, native], input, &table);
        lower(soundness, one);
        lower(response, other);
    }
}

fn main() {
    let (mut proved, mut native) = (Proved::new(), Native::new());
    let inputs = inputs();
    let mut rows: Vec<Option<Row>> = inputs.iter().map(|input| row(&mut proved, &mut native, input)).collect();
    for _ in 1..ROUNDS {
        for (input, row) in inputs.iter().zip(&mut rows) {
            row.iter_mut().for_each(|row| measure_again(&mut proved, &mut native, input, row));
        }
    }
    let same = rows.iter().all(Option::is_some);
    let rows: Vec<Row> = rows.into_iter().flatten().collect();
    print_times(&rows);
    print_soundness(&rows);
    print_printing(&rows);
    print_growth(&rows);
    print_small([&mut proved, &mut native], &inputs);
    let mark_rows = mark_tables::measured(&mut proved, &mut native, inputs);
    let same = same && mark_rows.iter().all(Option::is_some);
    let mark_rows: Vec<mark_tables::Row> = mark_rows.into_iter().flatten().collect();
    mark_tables::print_rows(&mark_rows);
    print_alike(&alike_rows(&rows, &mark_rows));
    if let Some(file) = std::env::args().nth(1) {
        std::fs::write(&file, drawing(&rows, &mark_rows)).expect("the drawing is written");
    }
    std::process::exit(if same { 0 } else { 1 });
}

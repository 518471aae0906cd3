//! Both engines on one input: their results compared, their times taken in turn.

use std::cell::RefCell;
use std::hint::black_box;
use std::time::{Duration, Instant};

use crate::engine::Engine;
use crate::input::Input;
use crate::raw::{Tally, CARD_BYTES, EDITORS, FIRED_BYTES, PRINT_BYTES, SLIP_BYTES};
use crate::response::{Answer, Caller, Outputs};
use crate::table::Table;
use crate::Refusal;

/// About the time of one repetition, and how many repetitions the best is taken of.
const REPETITION: Duration = Duration::from_millis(1);
const REPETITIONS: usize = 20;

/// How often all inputs are measured, one after the other, so that a busy machine does not slow one of them only.
pub const ROUNDS: usize = 8;

/// The editor who calls.
pub const EDITOR: u8 = 23;

/// An answer or its refusal.
pub type Outcome = std::result::Result<Answer, Refusal>;

/// What an engine makes of an input.
#[derive(PartialEq, Eq, Debug)]
pub struct Result {
    pub reading: std::result::Result<(), Refusal>,
    pub table: Box<Table>,
    /// Whether the table is in order, and whether it is with every stratum one higher.
    pub is_sound: [bool; 2],
    pub response: Response,
    pub printing: std::result::Result<usize, Refusal>,
    pub print: Vec<u8>,
}

/// What is lent for a response: the three outputs, and the table of records.
#[derive(PartialEq, Eq, Debug)]
pub struct Lent {
    pub outputs: [Vec<u8>; 3],
    pub records: [Tally; EDITORS],
}

/// What is lent before a response: no two records are equal, and those from editor 20 on are full.
fn lent() -> Lent {
    let outputs = [CARD_BYTES, SLIP_BYTES, FIRED_BYTES].map(|length| vec![0xA5; length]);
    Lent { outputs, records: std::array::from_fn(|at| Tally { answered: 9_980 + at as u16, refused: at as u16 }) }
}

/// The response of an engine by strata or by marks; the caller's record begins at 0 each time, so that it does not fill up over many calls.
fn respond(engine: &mut dyn Engine, marks: bool, table: &Table, input: &Input, lent: &mut Lent) -> Outcome {
    let Lent { outputs: [card, changes, fired], records } = lent;
    let (editor, outputs) = (usize::from(EDITOR), Outputs { card, changes, fired });
    records[editor - 1] = Tally::default();
    let caller = Caller { records, editor };
    if marks {
        engine.respond_by_marks(table, caller, &input.card, &input.slip, outputs)
    } else {
        engine.respond(table, caller, &input.card, &input.slip, outputs)
    }
}

/// What a response gave: the answer or the refusal, and the outputs and all records after it.
#[derive(PartialEq, Eq, Debug)]
pub struct Response {
    pub answer: Outcome,
    pub lent: Lent,
}

/// What the response of an engine by strata or by marks gave.
fn response(engine: &mut dyn Engine, marks: bool, table: &Table, input: &Input) -> Response {
    let mut lent = lent();
    Response { answer: respond(engine, marks, table, input, &mut lent), lent }
}

/// The output before a print.
fn page() -> Vec<u8> {
    vec![0xA5; PRINT_BYTES]
}

/// A table with every stratum one higher.
fn lifted(table: &Table) -> Box<Table> {
    let mut lifted = Box::new(*table);
    lifted.rules.iter_mut().for_each(|rule| rule.stratum = rule.stratum.wrapping_add(1));
    lifted
}

/// The reading, the test 31, the response and the print of an engine.
pub fn result(engine: &mut dyn Engine, input: &Input) -> Result {
    let reading = engine.read(&input.text);
    let table = Box::new(*engine.table());
    let is_sound = [engine.is_sound(&table), engine.is_sound(&lifted(&table))];
    let response = response(engine, false, &table, input);
    let mut print = page();
    let printing = engine.print(&input.text, &mut print);
    Result { reading, table, is_sound, response, printing, print }
}

/// A response that is refused with 44 before all else, since no editor has number 0: what the call by itself takes.
fn refuse(engine: &mut dyn Engine, table: &Table, input: &Input, lent: &mut Lent) -> Outcome {
    let Lent { outputs: [card, changes, fired], records } = lent;
    let (caller, outputs) = (Caller { records, editor: 0 }, Outputs { card, changes, fired });
    engine.respond(table, caller, &input.card, &input.slip, outputs)
}

/// Takes the smaller of each two times.
pub fn lower(times: &mut [f64; 2], others: [f64; 2]) {
    times.iter_mut().zip(others).for_each(|(time, other)| *time = time.min(other));
}

/// How many calls take about the time of a repetition.
fn rounds(call: &mut dyn FnMut()) -> u32 {
    let mut rounds = 1;
    loop {
        let start = Instant::now();
        (0..rounds).for_each(|_| call());
        if start.elapsed() >= REPETITION / 2 {
            return rounds;
        }
        rounds *= 2;
    }
}

/// The best times of calls, in microseconds, the calls taken in turn.
fn best<const N: usize>(mut calls: [&mut dyn FnMut(); N]) -> [f64; N] {
    let rounds = calls.each_mut().map(|call| rounds(*call));
    let mut best = [f64::INFINITY; N];
    for _ in 0..REPETITIONS {
        for at in 0..N {
            let start = Instant::now();
            (0..rounds[at]).for_each(|_| calls[at]());
            let time = start.elapsed().as_secs_f64() * 1e6 / f64::from(rounds[at]);
            best[at] = best[at].min(time);
        }
    }
    best
}

/// The best times of two engines in microseconds: of reading, and of printing, which reads too.
pub fn text_times(engines: [&mut dyn Engine; 2], input: &Input) -> [[f64; 2]; 2] {
    let [first, second] = engines.map(RefCell::new);
    let (mut a, mut b) = (page(), page());
    let text = || black_box(&input.text[..]);
    let [one, other, one_printing, other_printing] = best([
        &mut || _ = black_box(first.borrow_mut().read(text())),
        &mut || _ = black_box(second.borrow_mut().read(text())),
        &mut || _ = black_box(first.borrow_mut().print(text(), &mut a)),
        &mut || _ = black_box(second.borrow_mut().print(text(), &mut b)),
    ]);
    [[one, other], [one_printing, other_printing]]
}

/// The best times of two engines with the same table in microseconds: of the test 31, and of a response, which makes it too.
pub fn table_times(engines: [&mut dyn Engine; 2], input: &Input, table: &Table) -> [[f64; 2]; 2] {
    let [first, second] = engines.map(RefCell::new);
    let (mut a, mut b) = (lent(), lent());
    let [one, other, one_response, other_response] = best([
        &mut || _ = black_box(first.borrow_mut().is_sound(black_box(table))),
        &mut || _ = black_box(second.borrow_mut().is_sound(black_box(table))),
        &mut || _ = black_box(respond(*first.borrow_mut(), false, black_box(table), input, &mut a)),
        &mut || _ = black_box(respond(*second.borrow_mut(), false, black_box(table), input, &mut b)),
    ]);
    [[one, other], [one_response, other_response]]
}

/// What an engine makes of an input by marks: the readings with test 18 and without, their tables, and four responses: by strata on the first and by marks on the second, then by marks on the first and by strata on the second.
#[derive(PartialEq, Eq, Debug)]
pub struct MarkResult {
    pub readings: [std::result::Result<(), Refusal>; 2],
    pub layered: Box<Table>,
    pub table: Box<Table>,
    pub responses: [Response; 4],
}

/// What an engine makes of an input by marks.
pub fn mark_result(engine: &mut dyn Engine, input: &Input) -> MarkResult {
    let with_18 = engine.read(&input.text);
    let layered = Box::new(*engine.table());
    let without_18 = engine.read_unlayered(&input.text);
    let table = Box::new(*engine.table());
    let asked = [(false, &layered), (true, &table), (true, &layered), (false, &table)];
    let responses = asked.map(|(marks, table)| response(engine, marks, table, input));
    MarkResult { readings: [with_18, without_18], layered, table, responses }
}

/// The best times of two engines in microseconds: of reading with test 18 and without, of the strata response on the first table and of the response by marks on the second.
pub fn mark_times(engines: [&mut dyn Engine; 2], input: &Input, layered: &Table, table: &Table) -> [[f64; 2]; 4] {
    let [first, second] = engines.map(RefCell::new);
    let [mut a, mut b, mut c, mut d] = [(); 4].map(|()| lent());
    let text = || black_box(&input.text[..]);
    let times = best([
        &mut || _ = black_box(first.borrow_mut().read(text())),
        &mut || _ = black_box(second.borrow_mut().read(text())),
        &mut || _ = black_box(first.borrow_mut().read_unlayered(text())),
        &mut || _ = black_box(second.borrow_mut().read_unlayered(text())),
        &mut || _ = black_box(respond(*first.borrow_mut(), false, black_box(layered), input, &mut a)),
        &mut || _ = black_box(respond(*second.borrow_mut(), false, black_box(layered), input, &mut b)),
        &mut || _ = black_box(respond(*first.borrow_mut(), true, black_box(table), input, &mut c)),
        &mut || _ = black_box(respond(*second.borrow_mut(), true, black_box(table), input, &mut d)),
    ]);
    [0, 2, 4, 6].map(|at| [times[at], times[at + 1]])
}

/// The best times of two engines in microseconds: of a response that is refused with 44.
pub fn refused_times(engines: [&mut dyn Engine; 2], input: &Input, table: &Table) -> [f64; 2] {
    let [first, second] = engines;
    let (mut a, mut b) = (lent(), lent());
    best([&mut || _ = black_box(refuse(first, black_box(table), input, &mut a)), &mut || {
        _ = black_box(refuse(second, black_box(table), input, &mut b))
    }])
}

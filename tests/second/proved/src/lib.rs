//! The proved engine, through the C functions of the static library.

use std::fmt::Write;

use second::editors::{Caller, Tally};
use second::engine::{Engine, Way};
use second::raw::{self, given, Card, Change, RlName, RlRead, RlResponse, Slip};
use second::response::{fired_count, Outputs};
use second::table::{program_in, Literal, Name, Pair, Program, Rule, Table, NONE, SLOTS};
use second::{refusal, Refusal};

/// The proved engine; it keeps how many rules its last response said to have fired, and the length of that record.
#[derive(Default)]
pub struct Proved {
    fired: usize,
    record: usize,
}

/// A result whose other parts are as they must be; where they are not, 255, which no engine gives.
fn checked<A>(fits: bool, result: Result<A, Refusal>) -> Result<A, Refusal> {
    if fits {
        result
    } else {
        Err(refusal(255, 0))
    }
}

/// A name's place, or its refusal; a refusal comes with no place.
fn place(name: RlName) -> Result<Name, Refusal> {
    let number = |n: usize| u32::try_from(n).expect("a number of a table's name");
    let fits = name.number == 0 || (name.start, name.size) == (0, 0);
    checked(fits, given(name.number, 0, Name { start: number(name.start), size: number(name.size) }))
}

/// The name of a slot or a value by its number: one digit or letter.
fn name(number: u8) -> char {
    char::from_digit(number.into(), 36).expect("a digit or letter for each slot and value")
}

/// A pair in the rule language with a mark between.
fn pair_text((slot, value): Pair, mark: &str) -> String {
    match value {
        NONE => format!("{}{mark}NONE", name(slot)),
        _ => format!("{}{mark}{}", name(slot), name(value)),
    }
}

/// A literal in the rule language.
fn literal_text(literal: &Literal) -> String {
    let mark = if literal.becomes { "*=" } else { "|=" };
    let not = if literal.negated { "NOT " } else { "" };
    format!("{not}{}", pair_text(literal.pair, mark))
}

/// A rule in the rule language.
fn rule_text(rule: &Rule) -> String {
    let literals: Vec<String> = rule.literals.iter().map(literal_text).collect();
    let condition = if literals.is_empty() { "TRUE".to_string() } else { literals.join(" AND ") };
    let assigned: Vec<String> = rule.assignments.iter().map(|pair| pair_text(*pair, ":=")).collect();
    let list = if assigned.len() == 1 { format!(" {}", assigned[0]) } else { format!("{{{}}}", assigned.join(",")) };
    format!("WHEN {} IF {condition} THEN{list};", pair_text(rule.trigger, "*="))
}

/// A file with the rules of a program, no longer than any other that has them.
fn text_of(program: &Program) -> String {
    let mut text = String::new();
    for (slot, last) in (0..).zip(&program.lasts) {
        let values: Vec<String> = (1..=*last).map(|value| name(value).to_string()).collect();
        write!(text, "SLOT {}{{{}}};", name(slot), values.join(",")).expect("a string can be written");
    }
    text + &program.rules.iter().map(rule_text).collect::<String>()
}

/// Whether the library finds a table in order exactly where a function did not say 31.
fn agrees_on_31(table: &Table, number: u8) -> bool {
    raw::is_sound(table) == (number != 31)
}

/// The refusal and the table of a reading; a refusal comes with the table without slots or rules.
fn reading(read: RlRead) -> (Option<Refusal>, Box<Table>) {
    let fits = read.number == 0 || read.table == *Table::empty();
    (checked(fits, given(read.number, read.second, ())).err(), Box::new(read.table))
}

/// A record in two bytes for each count.
fn two_bytes(record: &Tally) -> raw::Tally {
    let count = |n: u32| u16::try_from(n).expect("a count of two bytes");
    raw::Tally { answered: count(record.answered), refused: count(record.refused) }
}

/// The records before and after the lent ones, which the library may not touch.
const MARGIN: [raw::Tally; 4] = [raw::Tally { answered: 4_369, refused: 8_738 }; 4];

/// Lends records to a call between others; gives its result and whether the others are as they were.
fn lend(records: &mut [Tally], call: impl FnOnce(&mut [raw::Tally]) -> RlResponse) -> (RlResponse, bool) {
    let made: Vec<raw::Tally> = records.iter().map(two_bytes).collect();
    let mut whole = [&MARGIN[..], &made, &MARGIN].concat();
    let lent = MARGIN.len()..MARGIN.len() + records.len();
    let response = call(&mut whole[lent.clone()]);
    for (to, from) in records.iter_mut().zip(&whole[lent.clone()]) {
        *to = Tally { answered: from.answered.into(), refused: from.refused.into() };
    }
    (response, whole[..lent.start] == MARGIN && whole[lent.end..] == MARGIN)
}

impl Proved {
    /// The result of a response, given whether nothing else was touched; a refusal comes without a length or fired rules.
    fn response(&mut self, table: &Table, responded: (RlResponse, bool)) -> Result<usize, Refusal> {
        let (response, untouched) = responded;
        let fits = untouched && (response.number == 0 || (response.length, response.fired) == (0, 0));
        self.fired = response.fired;
        self.record = if response.number == 0 { (table.count as usize + 7) / 8 } else { 0 };
        checked(fits, given(response.number, response.second, response.length))
    }
}

impl Engine for Proved {
    fn read(&mut self, text: &[u8]) -> (Option<Refusal>, Box<Table>) {
        reading(raw::read(text))
    }

    fn read_unlayered(&mut self, text: &[u8]) -> (Option<Refusal>, Box<Table>) {
        reading(raw::read_unlayered(text))
    }

    fn print(&mut self, text: &[u8], output: &mut [u8]) -> Result<usize, Refusal> {
        let printed = raw::print(text, output);
        checked(printed.number == 0 || printed.length == 0, given(printed.number, printed.second, printed.length))
    }

    /// The strata of a file that has the table's rules.
    fn strata(&mut self, table: &Table) -> Result<Vec<u16>, Refusal> {
        let (refused, read) = self.read(text_of(&program_in(table)).as_bytes());
        refused.map_or_else(|| Ok(read.rules[..read.count as usize].iter().map(|rule| rule.stratum).collect()), Err)
    }

    fn slot_name(&mut self, text: &[u8], table: &Table, slot: u8) -> Result<Name, Refusal> {
        place(raw::slot_name(text, table, slot.into()))
    }

    fn value_name(&mut self, text: &[u8], table: &Table, slot: u8, value: u8) -> Result<Name, Refusal> {
        place(raw::value_name(text, table, slot.into(), value.into()))
    }

    fn unpack_card(&mut self, table: &Table, card: &[u8]) -> Result<Vec<u8>, Refusal> {
        let read = raw::unpack_card(table, card);
        let (values, unused) = read.card.values.split_at(read.card.count);
        let empty = unused.iter().all(|value| *value == 0) && (read.number == 0 || values.is_empty());
        checked(empty && agrees_on_31(table, read.number), given(read.number, read.second, values.to_vec()))
    }

    fn unpack_slip(&mut self, table: &Table, slip: &[u8]) -> Result<Vec<Pair>, Refusal> {
        let read = raw::unpack_slip(table, slip);
        let pairs: Vec<Pair> = read.slip.changes.iter().map(|change| (change.slot, change.value)).collect();
        let (changes, unused) = pairs.split_at(read.slip.count);
        let empty = unused.iter().all(|pair| *pair == (0, 0)) && (read.number == 0 || changes.is_empty());
        checked(empty, given(read.number, read.second, changes.to_vec()))
    }

    fn pack_card(&mut self, table: &Table, values: &[u8], output: &mut [u8]) -> Result<usize, Refusal> {
        let mut card = Card { values: [255; SLOTS], count: values.len() };
        for (to, from) in card.values.iter_mut().zip(values) {
            *to = *from;
        }
        let packed = raw::pack_card(table, card, output);
        checked(packed.number == 0 || packed.length == 0, given(packed.number, packed.second, packed.length))
    }

    fn pack_slip(&mut self, table: &Table, changes: &[Pair], output: &mut [u8]) -> Result<usize, Refusal> {
        let mut slip = Slip { changes: [Change { slot: 255, value: 255 }; SLOTS], count: changes.len() };
        for (to, from) in slip.changes.iter_mut().zip(changes) {
            *to = Change { slot: from.0, value: from.1 };
        }
        let packed = raw::pack_slip(table, slip, output);
        checked(packed.number == 0 || packed.length == 0, given(packed.number, packed.second, packed.length))
    }

    fn respond(
        &mut self,
        way: Way,
        table: &Table,
        caller: Caller,
        card: &[u8],
        slip: &[u8],
        outputs: Outputs,
    ) -> Result<usize, Refusal> {
        let Outputs { card: renewed, changes, fired } = outputs;
        let Caller { records, editor } = caller;
        let respond = match way {
            Way::Strata => raw::respond,
            Way::Marks => raw::respond_by_marks,
        };
        let responded = lend(records, |records| respond(table, records, editor, card, slip, renewed, changes, fired));
        self.response(table, responded)
    }

    /// What the last response said, and the one bits beyond its record.
    fn fired_count(&mut self, record: &[u8]) -> usize {
        self.fired + fired_count(&record[self.record..])
    }
}

//! The reading without test 18, the test 31 for it and the response by marks with one fault.

use crate::editors::Tally;
use crate::fault::{Fault, LARGE_FAULTS};
use crate::marks::{self, and, had, not, Mark, Marks, Moment, Truth};
use crate::read::{read, read_unlayered};
use crate::response::{self, answered, counted, enabled, fire, outcome, Answer, Firing, Outputs};
use crate::strata::strata;
use crate::table::{Literal, Pair, Program, Rule, Table, NONE};
use crate::table31::{tested, tested_for_marks, unlayered};
use crate::{refusal, Refusal};

/// Reads a text without test 18, with a fault.
pub fn reading(fault: Fault, text: &[u8]) -> Result<Box<Table>, Refusal> {
    match fault {
        Fault::UnlayeredCircle => read(text).and_then(|_| read_unlayered(text)),
        Fault::UnlayeredLayered => read(text).or_else(|_| read_unlayered(text)),
        _ => read_unlayered(text),
    }
}

/// The program of a table for the response by marks, or 31.
fn program(fault: Fault, table: &Table) -> Result<Program, Refusal> {
    let program = unlayered(table)?;
    let least = strata(&program.rules).unwrap_or(vec![0; program.rules.len()]);
    let passes = match fault {
        Fault::ZeroRefused => tested(table).is_ok(),
        Fault::LayeredRefused => program.strata.iter().all(|number| *number == 0),
        Fault::MarksUnlayered => true,
        Fault::MixedTaken => program.strata.iter().zip(least).all(|(number, least)| *number == 0 || *number == least),
        _ => tested_for_marks(table).is_ok(),
    };
    if passes {
        Ok(program)
    } else {
        Err(refusal(31, 0))
    }
}

/// The truth of `s *= v` by the fault.
fn becomes(fault: Fault, card: &[u8], marks: &Marks, pair: Pair) -> Truth {
    let empty = pair.1 == NONE && had(card, pair) == Truth::True;
    let by_mark = fault == Fault::HadByMark || fault == Fault::EmptyByMark && empty;
    match (fault, marks.of(pair)) {
        (_, Mark::Positive) if by_mark => Truth::True,
        (_, Mark::Unknown) if by_mark => Truth::Unknown,
        (Fault::UnknownAsFalse, Mark::Unknown) => Truth::False,
        _ => marks::becomes(card, marks, pair),
    }
}

/// The truth of a literal by the fault.
fn truth(fault: Fault, card: &[u8], marks: &Marks, literal: &Literal) -> Truth {
    let plain = match literal.becomes {
        true => becomes(fault, card, marks, literal.pair),
        false if fault == Fault::MarkedNeverNone && literal.pair.1 == NONE => Truth::False,
        false => had(card, literal.pair),
    };
    match (fault, plain) {
        (Fault::UnknownLiteralFalse, Truth::Unknown) => Truth::False,
        (Fault::UnknownNotTrue, Truth::Unknown) if literal.negated => Truth::True,
        _ if literal.negated => not(plain),
        _ => plain,
    }
}

/// The truths of a rule's trigger and literals by the fault.
fn truths(fault: Fault, card: &[u8], marks: &Marks, rule: &Rule) -> Vec<Truth> {
    let literals = rule.literals.iter().map(|literal| truth(fault, card, marks, literal));
    std::iter::once(becomes(fault, card, marks, rule.trigger)).chain(literals).collect()
}

/// What truths come to by the fault, joined two by two from the front.
fn joined(fault: Fault, truths: &[Truth]) -> Truth {
    truths.iter().fold(Truth::True, |before, truth| match (fault, before, *truth) {
        (Fault::UnknownAndFalse, Truth::Unknown, Truth::False) => Truth::Unknown,
        (Fault::FalseAndUnknown, Truth::False, Truth::Unknown) => Truth::Unknown,
        (Fault::TrueAndUnknown, Truth::True, Truth::Unknown) => Truth::True,
        (_, before, truth) => and([before, truth]),
    })
}

/// Whether an unknown pair may be ruled out by the fault.
fn may_rule_out(fault: Fault, rules: &[Rule], card: &[u8], moment: &Moment, pair: Pair) -> bool {
    let mut assigning: Vec<&Rule> = rules.iter().filter(|rule| rule.assignments.contains(&pair)).collect();
    match fault {
        Fault::UnassignedOnly => return assigning.is_empty(),
        Fault::RuledOutOnce if !moment.fired.is_empty() => return false,
        Fault::AssignerUnseen => drop(assigning.pop()),
        _ => {}
    }
    let unseen = usize::from(fault == Fault::TriggerUnseen);
    let is_false = |rule: &Rule| joined(fault, &truths(fault, card, &moment.marks, rule)[unseen..]) == Truth::False;
    assigning.into_iter().all(is_false)
}

/// Whether a plain test is of an unknown pair that is not among some.
fn waits_outside(marks: &Marks, pairs: &[Pair], pair: Pair) -> bool {
    marks.of(pair) == Mark::Unknown && !pairs.contains(&pair)
}

/// The unknown pairs that no rule can bring unless another of them comes first.
fn unfounded(rules: &[Rule], card: &[u8], marks: &Marks) -> Vec<Pair> {
    let mut founded: Vec<Pair> = Vec::new();
    loop {
        let waits = |rule: &&Rule| {
            let plain = rule.literals.iter().filter(|literal| literal.becomes && !literal.negated);
            let mut pairs = std::iter::once(rule.trigger).chain(plain.map(|literal| literal.pair));
            pairs.any(|pair| waits_outside(marks, &founded, pair))
        };
        let open = rules.iter().filter(|rule| !marks::is_false(card, marks, rule) && !waits(rule));
        let more: Vec<Pair> =
            open.flat_map(|rule| &rule.assignments).filter(|pair| !founded.contains(pair)).copied().collect();
        if more.is_empty() {
            return marks.with(Mark::Unknown).into_iter().filter(|pair| !founded.contains(pair)).collect();
        }
        founded.extend(more);
    }
}

/// Rules out pairs by the fault, one after another while one may be.
fn never(fault: Fault, rules: &[Rule], card: &[u8], moment: &mut Moment) {
    loop {
        let unknown = moment.marks.with(Mark::Unknown);
        let open: Vec<Pair> = match fault {
            Fault::UnfoundedSets => unfounded(rules, card, &moment.marks),
            _ => unknown.into_iter().filter(|pair| may_rule_out(fault, rules, card, moment, *pair)).collect(),
        };
        if open.is_empty() {
            return;
        }
        open.into_iter().for_each(|pair| moment.rule_out(pair));
    }
}

/// Marks pairs positive by the fault.
fn bring(fault: Fault, moment: &mut Moment, pairs: &[Pair]) {
    let unfired = moment.fired.is_empty();
    for pair in pairs {
        let slot = moment.marks.slot(pair.0);
        let rivals = slot.iter().filter(|other| *other != pair && !is_no_rival(fault, unfired, *pair, **other));
        let marks = std::iter::once((*pair, Mark::Positive)).chain(rivals.map(|other| (*other, Mark::Negative)));
        let clashes = marks.filter(|(pair, mark)| moment.marks.update(*pair, *mark).is_err()).count();
        moment.clash |= clashes > 0 && fault != Fault::ClashIgnored;
    }
}

/// Whether the fault leaves another pair of a slot as it is where one becomes positive, given whether nothing has fired yet.
fn is_no_rival(fault: Fault, unfired: bool, pair: Pair, other: Pair) -> bool {
    match fault {
        Fault::RivalsUnknown => true,
        Fault::SlipRivalsUnknown => unfired,
        Fault::NoneNoRival => other.1 == NONE,
        Fault::NoneWithoutRivals => pair.1 == NONE,
        _ => false,
    }
}

/// Rules out NONE of each slot in which the card has no value and the slip does not withdraw it.
fn rule_out_empty(card: &[u8], moment: &mut Moment) {
    let empty =
        moment.marks.with(Mark::Unknown).into_iter().filter(|pair| pair.1 == NONE && had(card, *pair) == Truth::True);
    empty.for_each(|pair| moment.rule_out(pair));
}

/// The end of one order of selection by the fault.
fn selection(fault: Fault, program: &Program, card: &[u8], slip: &[Pair]) -> Moment {
    let rules = &program.rules;
    let mut moment = Moment { marks: Marks::unknown(program), fired: Vec::new(), clash: false };
    bring(fault, &mut moment, slip);
    if fault == Fault::EmptyRuledOut {
        rule_out_empty(card, &mut moment);
    }
    loop {
        never(fault, rules, card, &mut moment);
        let may_fire = |at: &usize| {
            let mut brought = rules[*at].assignments.iter();
            let idle = fault == Fault::MarkedIdle && brought.all(|pair| moment.marks.of(*pair) == Mark::Positive);
            let is_true = joined(fault, &truths(fault, card, &moment.marks, &rules[*at])) == Truth::True;
            !moment.clash && !moment.fired.contains(at) && !idle && is_true
        };
        match (0..rules.len()).find(may_fire) {
            Some(at) => {
                moment.fired.push(at);
                bring(fault, &mut moment, &rules[at].assignments);
            }
            None => return moment,
        }
    }
}

/// What the end of an order comes to by the fault.
fn decided(fault: Fault, mut end: Moment) -> Result<Firing, Refusal> {
    let unknown = end.marks.with(Mark::Unknown);
    match fault {
        Fault::UnknownBeforeClash if !unknown.is_empty() => Err(refusal(42, 0)),
        Fault::UnknownNegative | Fault::NoneUnmarked => {
            let taken = unknown.into_iter().filter(|pair| fault == Fault::UnknownNegative || pair.1 == NONE);
            taken.for_each(|pair| end.rule_out(pair));
            marks::decided(&end)
        }
        Fault::UnknownNamed if !end.clash && !unknown.is_empty() => Err(refusal(42, unknown[0].0.into())),
        _ => marks::decided(&end),
    }
}

/// The answer by marks with a fault.
fn answer(fault: Fault, table: &Table, card: &[u8], slip: &[u8], rooms: [usize; 3]) -> Result<Answer, Refusal> {
    let rooms_seen = if fault == Fault::MarksBeforeRoom { [usize::MAX; 3] } else { rooms };
    let program = program(fault, table)?;
    let answer = answered(program.clone(), card, slip, rooms_seen, |program, card, slip| {
        let firing = match strata(&program.rules) {
            Ok(strata) if fault == Fault::MarksByStrata => {
                fire(&Program { strata, ..program.clone() }, slip, |changes, rule| enabled(card, changes, rule))
            }
            _ if LARGE_FAULTS.contains(&fault) => marks::decided(&marks::selection(program, card, slip))?,
            _ => decided(fault, selection(fault, program, card, slip))?,
        };
        outcome(program, card, &firing)
    })?;
    match response::short_output(response::needed(&program), rooms) {
        Some(which) => Err(refusal(30, which)),
        None => Ok(answer),
    }
}

/// The response by marks at one record with a fault.
pub fn respond_at(
    fault: Fault,
    table: &Table,
    tally: &mut Tally,
    card: &[u8],
    slip: &[u8],
    outputs: Outputs,
) -> Result<usize, Refusal> {
    let before = *tally;
    let Outputs { card: new, changes, fired } = outputs;
    let outputs = Outputs { card: &mut *new, changes, fired };
    let result = counted(tally, outputs, |rooms| answer(fault, table, card, slip, rooms));
    match (fault, result) {
        (Fault::MarksUncounted, Err(why)) if why.number > 40 => *tally = before,
        (Fault::ClashAsConflict, Err(why)) if why.number == 41 => return Err(refusal(40, 0)),
        (Fault::WrittenOnUnknown, Err(why)) if why.number == 42 => new[..card.len()].copy_from_slice(card),
        _ => {}
    }
    result
}

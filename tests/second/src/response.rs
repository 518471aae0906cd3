//! The response: preconditions, firing by strata, conflicts, the answer and its counting.

use std::collections::BTreeSet;

use crate::cards::{bytes_of, card_bytes, card_length, slip_bytes, slip_length, unpack_card, unpack_slip, CHANGES};
use crate::editors::{Caller, Tally};
use crate::table::{Literal, Pair, Program, Rule, Table};
use crate::table31::tested;
use crate::{refusal, Refusal};

/// A set of (slot, value) pairs.
pub type Changes = BTreeSet<Pair>;

/// Whether `s *= v` holds: the card does not have v in s, and (s, v) is in C.
fn changes_to(card: &[u8], changes: &Changes, pair: Pair) -> bool {
    card[pair.0 as usize] != pair.1 && changes.contains(&pair)
}

/// Whether a literal holds.
pub fn holds(card: &[u8], changes: &Changes, literal: &Literal) -> bool {
    let plain = if literal.becomes {
        changes_to(card, changes, literal.pair)
    } else {
        card[literal.pair.0 as usize] == literal.pair.1
    };
    plain != literal.negated
}

/// Whether a rule is enabled: trigger and all literals hold.
pub fn enabled(card: &[u8], changes: &Changes, rule: &Rule) -> bool {
    changes_to(card, changes, rule.trigger) && rule.literals.iter().all(|literal| holds(card, changes, literal))
}

/// What firing comes to: C, and the positions of the fired rules in the order of firing.
pub struct Firing {
    pub changes: Changes,
    pub fired: Vec<usize>,
}

/// Fires, while it can, enabled unfired rules of the lowest stratum that has one, each where it is enabled when its turn comes.
pub fn fire(program: &Program, slip: &[Pair], enabled: impl Fn(&Changes, &Rule) -> bool) -> Firing {
    let mut firing = Firing { changes: slip.iter().copied().collect(), fired: Vec::new() };
    let mut unfired: Vec<usize> = (0..program.rules.len()).collect();
    loop {
        let open = unfired.iter().filter(|at| enabled(&firing.changes, &program.rules[**at]));
        let lowest = match open.map(|at| program.strata[*at]).min() {
            Some(lowest) => lowest,
            _ => {
                return firing;
            }
        };
        unfired.retain(|at| {
            let rule = &program.rules[*at];
            let fires = program.strata[*at] == lowest && enabled(&firing.changes, rule);
            if fires {
                firing.changes.extend(&rule.assignments);
                firing.fired.push(*at);
            }
            !fires
        });
    }
}

/// The lowest slot with two or more values in a set of pairs.
pub fn conflict(changes: &Changes) -> Option<u8> {
    let values = |slot: u8| changes.range((slot, 0)..=(slot, u8::MAX)).count();
    changes.iter().map(|pair| pair.0).find(|slot| values(*slot) > 1)
}

/// The card with the value of C in each slot where C has one.
pub fn new_card(card: &[u8], changes: &Changes) -> Vec<u8> {
    let mut new = card.to_vec();
    changes.iter().for_each(|pair| new[pair.0 as usize] = pair.1);
    new
}

/// The fired record: one bit for each rule, rule 1 first, padded to bytes.
pub fn record(rules: usize, fired: &[usize]) -> Vec<u8> {
    let mut bits = vec![false; rules];
    fired.iter().for_each(|at| bits[*at] = true);
    bytes_of(&bits)
}

/// How many rules fired, by the record.
pub fn fired_count(record: &[u8]) -> usize {
    record.iter().map(|byte| (0..8).filter(|at| byte >> at & 1 == 1).count()).sum()
}

/// The bytes of an answer: the new card, the changes as a slip, the fired record.
pub struct Answer {
    pub card: Vec<u8>,
    pub changes: Vec<u8>,
    pub fired: Vec<u8>,
}

/// The lengths that the three outputs need.
pub fn needed(program: &Program) -> [usize; 3] {
    [card_length(program.lasts.len()), slip_length(CHANGES), (program.rules.len() + 7) / 8]
}

/// The first output that is too short, from 1.
pub fn short_output(needed: [usize; 3], rooms: [usize; 3]) -> Option<usize> {
    (0..3).find(|at| rooms[*at] < needed[*at]).map(|at| at + 1)
}

/// The answer of what firing came to, or 40.
pub fn outcome(program: &Program, card: &[u8], firing: &Firing) -> Result<Answer, Refusal> {
    match conflict(&firing.changes) {
        Some(slot) => Err(refusal(40, slot as usize)),
        None => Ok(Answer {
            card: card_bytes(&new_card(card, &firing.changes)),
            changes: slip_bytes(&firing.changes.iter().copied().collect::<Vec<Pair>>()),
            fired: record(program.rules.len(), &firing.fired),
        }),
    }
}

/// What a way of deciding comes to on a program, a card and a slip, after the refusals 20 to 28 and 30.
pub fn answered(
    program: Program,
    card: &[u8],
    slip: &[u8],
    rooms: [usize; 3],
    decide: impl FnOnce(&Program, &[u8], &[Pair]) -> Result<Answer, Refusal>,
) -> Result<Answer, Refusal> {
    let card = unpack_card(&program, card)?;
    let slip = unpack_slip(&program, slip)?;
    match short_output(needed(&program), rooms) {
        Some(which) => Err(refusal(30, which)),
        None => decide(&program, &card, &slip),
    }
}

/// The answer to a card and a slip, or the refusal 31, 20 to 28, 30 or 40.
pub fn answer(table: &Table, card: &[u8], slip: &[u8], rooms: [usize; 3]) -> Result<Answer, Refusal> {
    answered(tested(table)?, card, slip, rooms, |program, card, slip| {
        outcome(program, card, &fire(program, slip, |changes, rule| enabled(card, changes, rule)))
    })
}

/// The three outputs of a response.
pub struct Outputs<'a> {
    pub card: &'a mut [u8],
    pub changes: &'a mut [u8],
    pub fired: &'a mut [u8],
}

impl Outputs<'_> {
    /// The lengths of the outputs.
    pub fn rooms(&self) -> [usize; 3] {
        [self.card.len(), self.changes.len(), self.fired.len()]
    }

    /// Writes an answer at the start of the outputs.
    pub fn write(&mut self, answer: &Answer) {
        self.card[..answer.card.len()].copy_from_slice(&answer.card);
        self.changes[..answer.changes.len()].copy_from_slice(&answer.changes);
        self.fired[..answer.fired.len()].copy_from_slice(&answer.fired);
    }
}

/// Writes an answer, made for the outputs' lengths, and counts it or its refusal in a record; 32 where the record is full.
pub fn counted(
    record: &mut Tally,
    mut outputs: Outputs,
    answer: impl FnOnce([usize; 3]) -> Result<Answer, Refusal>,
) -> Result<usize, Refusal> {
    if record.is_full() {
        return Err(refusal(32, 0));
    }
    let answer = answer(outputs.rooms());
    record.add(answer.is_ok());
    answer.map(|answer| {
        outputs.write(&answer);
        answer.changes.len()
    })
}

/// The response: the changes' length or the refusal; 44 comes first and is not counted.
pub fn respond(table: &Table, caller: Caller, card: &[u8], slip: &[u8], outputs: Outputs) -> Result<usize, Refusal> {
    counted(caller.own()?, outputs, |rooms| answer(table, card, slip, rooms))
}

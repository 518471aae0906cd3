//! The table by value, with its places and counts as the interface has them, and the rules as the paper speaks of them.

pub use crate::raw::{Assignment as AssignmentPlace, Literal as LiteralPlace, Rule as RulePlace, Slot as SlotPlace};
pub use crate::raw::{Name, Table, ASSIGNMENTS, LITERALS, RULES, SLOTS, VALUES};

/// A slot and a value, slots from 0 and values from 1, or `NONE`.
pub type Pair = (u8, u8);

/// The number of NONE, which every slot has beside its values; on a card, of no value.
pub const NONE: u8 = 0;

/// A literal: whether it asks for a change, whether it stands under NOT, and its pair.
#[derive(Clone, Copy, PartialEq, Eq, Debug)]
pub struct Literal {
    pub becomes: bool,
    pub negated: bool,
    pub pair: Pair,
}

/// A rule: the trigger's pair, the literals, the assigned pairs.
#[derive(Clone, PartialEq, Eq, Debug)]
pub struct Rule {
    pub trigger: Pair,
    pub literals: Vec<Literal>,
    pub assignments: Vec<Pair>,
}

/// A program: the last value of each slot, the rules, and each rule's stratum.
#[derive(Clone, PartialEq, Eq, Debug)]
pub struct Program {
    pub lasts: Vec<u8>,
    pub rules: Vec<Rule>,
    pub strata: Vec<u16>,
}

/// A slot line: the slot's name and the names of its values.
#[derive(Clone, PartialEq, Eq, Debug)]
pub struct SlotLine {
    pub name: Name,
    pub values: Vec<Name>,
}

/// The place of a slot line.
fn slot_place(line: &SlotLine) -> SlotPlace {
    let mut place = SlotPlace { name: line.name, count: line.values.len() as u16, ..SlotPlace::default() };
    place.values[..line.values.len()].copy_from_slice(&line.values);
    place
}

/// The place of a rule in a stratum.
fn rule_place(rule: &Rule, stratum: u16) -> RulePlace {
    let mut place = RulePlace {
        slot: rule.trigger.0,
        value: rule.trigger.1,
        tested: rule.literals.len() as u8,
        assigned: rule.assignments.len() as u8,
        stratum,
        ..RulePlace::default()
    };
    for (to, from) in place.literals.iter_mut().zip(&rule.literals) {
        *to = LiteralPlace { becomes: from.becomes, negated: from.negated, slot: from.pair.0, value: from.pair.1 };
    }
    for (to, from) in place.assignments.iter_mut().zip(&rule.assignments) {
        *to = AssignmentPlace { slot: from.0, value: from.1 };
    }
    place
}

/// The table of slot lines and rules with their strata, all within the limits.
pub fn table_of(lines: &[SlotLine], rules: &[Rule], strata: &[u16]) -> Box<Table> {
    let mut table = Table::empty();
    table.width = lines.len() as u16;
    for (place, line) in table.slots.iter_mut().zip(lines) {
        *place = slot_place(line);
    }
    table.count = rules.len() as u16;
    for ((place, rule), stratum) in table.rules.iter_mut().zip(rules).zip(strata) {
        *place = rule_place(rule, *stratum);
    }
    table
}

/// The rule in a place whose counts are within the limits.
fn rule_in(place: &RulePlace) -> Rule {
    let literal = |place: &LiteralPlace| Literal {
        becomes: place.becomes,
        negated: place.negated,
        pair: (place.slot, place.value),
    };
    let pair = |place: &AssignmentPlace| (place.slot, place.value);
    Rule {
        trigger: (place.slot, place.value),
        literals: place.literals[..place.tested as usize].iter().map(literal).collect(),
        assignments: place.assignments[..place.assigned as usize].iter().map(pair).collect(),
    }
}

/// The program in the used places of a table whose counts are within the limits.
pub fn program_in(table: &Table) -> Program {
    let rules = &table.rules[..table.count as usize];
    Program {
        lasts: table.slots[..table.width as usize].iter().map(|slot| slot.count as u8).collect(),
        rules: rules.iter().map(rule_in).collect(),
        strata: rules.iter().map(|place| place.stratum).collect(),
    }
}

//! The test 31 of an arbitrary table, and the names a table shows.

use crate::strata::{least, waits};
use crate::table::{program_in, Name, Pair, Program, Rule, RulePlace, SlotPlace, Table};
use crate::table::{ASSIGNMENTS, LITERALS, NONE, RULES, SLOTS, VALUES};
use crate::{refusal, Refusal};

/// Whether every count of a table is within its limit.
fn within_limits(table: &Table) -> bool {
    let (width, count) = (table.width as usize, table.count as usize);
    let few = |rule: &RulePlace| rule.tested as usize <= LITERALS && rule.assigned as usize <= ASSIGNMENTS;
    width <= SLOTS
        && count <= RULES
        && table.slots[..width].iter().all(|slot| slot.count as usize <= VALUES)
        && table.rules[..count].iter().all(few)
}

/// Whether a program has the slot and the value of a pair; every slot has NONE.
fn has_pair(program: &Program, pair: Pair) -> bool {
    program.lasts.get(pair.0 as usize).map_or(false, |last| (NONE..=*last).contains(&pair.1))
}

/// All pairs that rules name, rule by rule: the trigger's, the literals', the assigned ones.
pub fn named_pairs(rules: &[Rule]) -> impl Iterator<Item = Pair> + '_ {
    rules.iter().flat_map(|rule| {
        let literals = rule.literals.iter().map(|literal| literal.pair);
        std::iter::once(rule.trigger).chain(literals).chain(rule.assignments.iter().copied())
    })
}

/// Whether no rule assigns a slot twice.
fn assigns_once(program: &Program) -> bool {
    program.rules.iter().all(|rule| {
        let slots: std::collections::HashSet<u8> = rule.assignments.iter().map(|pair| pair.0).collect();
        slots.len() == rule.assignments.len()
    })
}

/// Whether a program within the limits is without fault, its strata not looked at.
pub fn well_formed(program: &Program) -> bool {
    program.lasts.iter().all(|last| *last > 0)
        && named_pairs(&program.rules).all(|pair| has_pair(program, pair))
        && assigns_once(program)
}

/// The program of a table, or 31, its strata not looked at.
pub fn unlayered(table: &Table) -> Result<Program, Refusal> {
    let program = within_limits(table).then(|| program_in(table));
    program.filter(well_formed).ok_or(refusal(31, 0))
}

/// The program of a table, or 31.
pub fn tested(table: &Table) -> Result<Program, Refusal> {
    let program = unlayered(table)?;
    if least(&waits(&program.rules)).as_ref() == Some(&program.strata) {
        Ok(program)
    } else {
        Err(refusal(31, 0))
    }
}

/// The program of a table for the response by marks, or 31: its strata may also be 0 throughout.
pub fn tested_for_marks(table: &Table) -> Result<Program, Refusal> {
    let program = unlayered(table)?;
    if program.strata.iter().all(|stratum| *stratum == 0) {
        Ok(program)
    } else {
        tested(table)
    }
}

/// A name that lies inside the text, or 31.
fn inside(text: &[u8], name: Name) -> Result<Name, Refusal> {
    match text.get(name.range()) {
        Some(_) => Ok(name),
        None => Err(refusal(31, 0)),
    }
}

/// A slot's place among those a table uses, or 31.
fn slot_place(table: &Table, slot: u8) -> Result<&SlotPlace, Refusal> {
    let used = &table.slots[..SLOTS.min(table.width as usize)];
    used.get(slot as usize).ok_or(refusal(31, 0))
}

/// Where a slot's name stands in the text, or 31.
pub fn slot_name(text: &[u8], table: &Table, slot: u8) -> Result<Name, Refusal> {
    inside(text, slot_place(table, slot)?.name)
}

/// Where a value's name stands in the text, or 31; NONE is declared nowhere.
pub fn value_name(text: &[u8], table: &Table, slot: u8, value: u8) -> Result<Name, Refusal> {
    let place = slot_place(table, slot)?;
    let used = &place.values[..VALUES.min(place.count as usize)];
    let name = (value as usize).checked_sub(1).and_then(|at| used.get(at));
    inside(text, *name.ok_or(refusal(31, 0))?)
}

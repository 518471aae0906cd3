//! The test 31 of an arbitrary table.

use crate::least::{are_least, raise, Numbers};
use crate::table::{Rule, Table, ASSIGNMENTS, LITERALS, PAIRS, RULES, SLOTS, VALUES};

/// The last value of each slot that a table has, 0 for every other byte.
pub type Lasts = [u8; 256];

/// The last values of a table's slots, or None where a count breaks a limit or a slot has no values.
#[inline]
fn lasts(table: &Table) -> Option<Lasts> {
    if table.width as usize > SLOTS || table.count as usize > RULES {
        return None;
    }
    let mut lasts = [0; 256];
    for (last, slot) in lasts.iter_mut().zip(&table.slots[..table.width as usize]) {
        if slot.count.wrapping_sub(1) as usize >= VALUES {
            return None;
        }
        *last = slot.count as u8;
    }
    Some(lasts)
}

/// Whether the table lacks a pair: the slot, whose last value is then 0, or the value; NONE, value 0, every slot has.
#[inline]
fn lacks(lasts: &Lasts, slot: u8, value: u8) -> bool {
    let last = lasts[slot as usize];
    (last == 0) | (value > last)
}

/// Whether a rule breaks a limit, names a pair that the table lacks, or assigns a slot twice; without branches for its literals.
#[inline]
fn is_wrong(lasts: &Lasts, rule: &Rule) -> bool {
    let few = rule.tested as usize <= LITERALS && rule.assigned as usize <= ASSIGNMENTS;
    let mut wrong = !few || lacks(lasts, rule.slot, rule.value);
    for literal in rule.literals() {
        wrong |= lacks(lasts, literal.slot, literal.value);
    }
    let mut assigned: u32 = 0;
    for a in rule.assignments() {
        let bit = 1 << (a.slot % 32);
        wrong |= lacks(lasts, a.slot, a.value) || assigned & bit != 0;
        assigned |= bit;
    }
    wrong
}

/// The last values of a table's slots, or None where the table is refused with 31 by the strata response.
#[inline]
pub fn tested(table: &Table) -> Option<Lasts> {
    let mut high = [0; PAIRS];
    let lasts = well_formed(table, &mut high)?;
    are_least(&table.rules[..table.count as usize], &high).then_some(lasts)
}

/// The last values of a table's slots, or None where the table is refused with 31 by the response by marks: strata may be 0 throughout.
#[inline]
pub fn tested_for_marks(table: &Table) -> Option<Lasts> {
    let mut high = [0; PAIRS];
    let lasts = well_formed(table, &mut high)?;
    let rules = &table.rules[..table.count as usize];
    let strata = rules.iter().fold(0, |all, rule| all | rule.stratum);
    (strata == 0 || are_least(rules, &high)).then_some(lasts)
}

/// The last values of a table's slots, or None where the table is refused with 31 whatever its strata; raises for each pair the highest stratum of the rules that assign it.
#[inline]
fn well_formed(table: &Table, high: &mut Numbers) -> Option<Lasts> {
    let lasts = lasts(table)?;
    for rule in &table.rules[..table.count as usize] {
        if is_wrong(&lasts, rule) {
            return None;
        }
        raise(high, rule);
    }
    Some(lasts)
}

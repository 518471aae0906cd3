//! Generated tables: one that was read, changed at one place or in its strata, and ones of rules with a circle through a NOT.

use crate::gen::Rng;
use crate::other_strata::falling;
use crate::strata::{asked, raised, waits};
use crate::table::{program_in, table_of, AssignmentPlace, LiteralPlace, Name, Rule, RulePlace, SlotLine, Table};
use crate::table::{ASSIGNMENTS, LITERALS, RULES, SLOTS, VALUES};

/// A count about a limit or about what it was.
fn any_count(rng: &mut Rng, count: usize, limit: usize) -> usize {
    *rng.pick(&[0, count.saturating_sub(1), count + 1, limit, limit + 1, 1_000, 65_535])
}

/// A small number or any byte.
fn any_byte(rng: &mut Rng) -> u8 {
    *rng.pick(&[0, 1, 2, 3, 15, 16, 31, 32, 255])
}

/// A literal with anything in it.
fn any_literal(rng: &mut Rng) -> LiteralPlace {
    LiteralPlace { becomes: rng.chance(1, 2), negated: rng.chance(1, 2), slot: any_byte(rng), value: any_byte(rng) }
}

/// A name about the end of a text, or anywhere.
pub fn any_name(rng: &mut Rng, length: usize) -> Name {
    let length = u32::try_from(length).expect("a text of few bytes");
    let start = *rng.pick(&[0, length / 2, length, length + 1, length / 2 + 65_536, u32::MAX]);
    let rest = length.saturating_sub(start);
    Name { start, size: *rng.pick(&[0, rest, rest + 1, 3, 65_536, u32::MAX]) }
}

/// Changes a slot's place.
fn damage_slot(rng: &mut Rng, table: &mut Table, length: usize) {
    let slot = &mut table.slots[rng.below(SLOTS.min(table.width as usize + 1))];
    match rng.below(3) {
        0 => slot.count = any_count(rng, slot.count as usize, VALUES) as u16,
        1 => slot.name = any_name(rng, length),
        _ => slot.values[rng.below(VALUES.min(slot.count as usize + 1))] = any_name(rng, length),
    }
}

/// Changes a rule's place: trigger, counts, literals, assignments or stratum, used or not.
fn damage_rule(rng: &mut Rng, rule: &mut RulePlace) {
    let literal = rng.below(LITERALS.min(rule.tested as usize + 1));
    let assignment = rng.below(ASSIGNMENTS.min(rule.assigned as usize + 1));
    match rng.below(12) {
        0 => rule.slot = any_byte(rng),
        1 => rule.value = any_byte(rng),
        2 => rule.tested = any_count(rng, rule.tested.into(), LITERALS).min(255) as u8,
        3 => rule.assigned = any_count(rng, rule.assigned.into(), ASSIGNMENTS).min(255) as u8,
        4 => rule.literals[literal] = any_literal(rng),
        5 => rule.literals[literal].becomes ^= true,
        6 => rule.literals[literal].negated ^= true,
        7 => rule.assignments[assignment] = AssignmentPlace { slot: any_byte(rng), value: any_byte(rng) },
        8 => rule.assignments[assignment].slot = rule.assignments[0].slot,
        9 => rule.literals[LITERALS.min(rule.tested as usize)..].fill(any_literal(rng)),
        10 => rule.stratum = *rng.pick(&[0, 1, 2, 3, 255, 256, 257, u16::MAX]),
        _ => rule.stratum = rule.stratum.wrapping_add(*rng.pick(&[1, 256, u16::MAX])),
    }
}

/// Changes the strata of a table: all one or 256 higher, all 1, all 0, a rule and what must follow it higher, all of one stratum lower, or the least that fall at plain tests too.
fn damage_strata(rng: &mut Rng, table: &mut Table) {
    let program = program_in(table);
    let waits = waits(&program.rules);
    let numbers: Vec<usize> = program.strata.iter().map(|number| usize::from(*number)).collect();
    let at = rng.below(numbers.len().max(1));
    let changed = match rng.below(7) {
        0 => {
            let more = *rng.pick(&[1, 1, 256]);
            numbers.iter().map(|number| number + more).collect()
        }
        1 => vec![1; numbers.len()],
        2 => vec![0; numbers.len()],
        3 => raised(&falling(&waits), vec![1; numbers.len()]).unwrap_or(numbers),
        4 => numbers.iter().map(|number| number - usize::from(*number == numbers[at] && *number > 0)).collect(),
        _ => {
            let mut lifted = numbers.clone();
            lifted.iter_mut().skip(at).take(1).for_each(|number| *number += 1 + rng.below(2));
            raised(&waits, lifted).unwrap_or(numbers)
        }
    };
    table.rules.iter_mut().zip(changed).for_each(|(rule, number)| rule.stratum = number as u16);
}

/// A table changed at one place or in its strata, a full one often in its count; a text of a length is what its names stand in.
pub fn damaged(rng: &mut Rng, table: &Table, length: usize) -> Box<Table> {
    let mut changed = Box::new(*table);
    let rule = rng.below(RULES.min(table.count as usize + 1));
    if usize::from(table.count) == RULES && rng.chance(2, 3) {
        changed.count = *rng.pick(&[RULES as u16 + 1, u16::MAX]);
        return changed;
    }
    match rng.below(12) {
        0 => changed.width = any_count(rng, table.width as usize, SLOTS) as u16,
        1 => changed.count = any_count(rng, table.count.into(), RULES) as u16,
        2 | 3 => damage_slot(rng, &mut changed, length),
        4..=6 => damage_strata(rng, &mut changed),
        _ => damage_rule(rng, &mut changed.rules[rule]),
    }
    changed
}

/// A table of rules with a circle through a NOT, its numbers all alike or raised a few times.
pub fn circled_table(rng: &mut Rng, lines: &[SlotLine], rules: &[Rule]) -> Box<Table> {
    let waits = waits(rules);
    let mut numbers = vec![rng.below(2); rules.len()];
    for _ in 0..rng.below(4) {
        (0..rules.len()).for_each(|at| numbers[at] = asked(&waits[at], &numbers));
    }
    table_of(lines, rules, &numbers.iter().map(|number| *number as u16).collect::<Vec<u16>>())
}

//! Generated rule files with a print of a length, from texts that are shorter.

use crate::gen::{File, Rng};
use crate::gen_rules::{sketch, Ranks, Shape};
use crate::gen_text::{join, sketch_tokens, Sketch};
use crate::print::styled;
use crate::table::{Literal, Rule, LITERALS, RULES, SLOTS, VALUES};

/// The shape that the slots and rules are taken from.
const SHAPE: Shape = Shape { slots: 8, values: 4, rules: 40, literals: 8, assignments: 4, ranks: Ranks::Below };

/// The fewest bytes and the most that a slot line prints as where the slot's name has one byte.
const LEAST: usize = 14;
const MOST: usize = 11 + VALUES * 26;

/// Gives every slot and value a name of 24 bytes.
fn lengthen(sketch: &mut Sketch) {
    let long = |(at, name): (usize, &mut String)| *name = format!("{:-<24}", format!("{at}x"));
    for slot in &mut sketch.names {
        slot.1.iter_mut().enumerate().for_each(long);
    }
    sketch.names.iter_mut().map(|slot| &mut slot.0).enumerate().for_each(long);
}

/// A rule with as many literals as there may be: its own again and again, or a test of its trigger's pair.
fn crowded(rule: &Rule) -> Rule {
    let test = Literal { becomes: false, negated: true, pair: rule.trigger };
    let own = if rule.literals.is_empty() { vec![test] } else { rule.literals.clone() };
    Rule { literals: own.into_iter().cycle().take(LITERALS).collect(), ..rule.clone() }
}

/// A slot with a name of one byte, by its number, whose line prints as so many bytes.
fn slot_of(number: usize, length: usize) -> (String, Vec<String>) {
    let name = char::from_digit(number as u32, 36).expect("a digit or letter for each slot");
    let values = (length - 11 + 25) / 26;
    let size = |at: usize| (length - 11 + at) / values - 2;
    let value = |at: usize| char::from(b'a' + at as u8).to_string().repeat(size(at));
    (name.to_string(), (0..values).map(value).collect())
}

/// How many bytes the slots of a sketch print as, with a rule or without.
fn length(rng: &mut Rng, sketch: &Sketch, rule: Option<&Rule>) -> usize {
    let part = Sketch { rules: rule.into_iter().cloned().collect(), ..sketch.clone() };
    let tokens = sketch_tokens(rng, &part);
    styled(&join(rng, &tokens, 0)).len()
}

/// A file with a print of so many bytes, its text without white space that need not be.
pub fn long_print(rng: &mut Rng, bytes: usize) -> File {
    let mut sketch = sketch(rng, &SHAPE);
    lengthen(&mut sketch);
    let rules: Vec<Rule> = std::mem::take(&mut sketch.rules).iter().map(crowded).collect();
    let lines = length(rng, &sketch, None);
    let lengths: Vec<usize> = rules.iter().map(|rule| length(rng, &sketch, Some(rule)) - lines).collect();
    let mut left = bytes - lines;
    for (rule, length) in rules.iter().zip(&lengths).cycle().take(RULES) {
        if left < length + LEAST {
            break;
        }
        left -= length;
        sketch.rules.push(rule.clone());
    }
    while left > 0 && sketch.names.len() < SLOTS {
        let length = if left <= MOST { left } else { MOST.min(left - LEAST) };
        sketch.names.push(slot_of(sketch.names.len(), length));
        sketch.likely.push(0);
        left -= length;
    }
    let tokens = sketch_tokens(rng, &sketch);
    File { text: join(rng, &tokens, 0), sketch }
}

//! The stored texts, and the lines of what an engine says of them.

use crate::engine::Engine;
use crate::print_lines::{counted, text};
use crate::table::{Name, RulePlace, Table, VALUES};

/// The line of a slot: its name and the names of the values that it has, cut from the text by their places.
fn slot_line(engine: &mut dyn Engine, text: &[u8], table: &Table, slot: u8) -> Vec<u8> {
    let word = |name: Name| [b" ", &text[name.range()]].concat();
    let name = engine.slot_name(text, table, slot);
    let values = (1..=VALUES as u8).map(|value| engine.value_name(text, table, slot, value));
    let words: Vec<Vec<u8>> = std::iter::once(name).chain(values).flatten().map(word).collect();
    [b"slot".to_vec(), words.concat(), b"\n".to_vec()].concat()
}

/// The line of a rule: stratum, trigger, literals, assignments.
fn rule_line(rule: &RulePlace) -> String {
    let literals = rule.literals[..rule.tested as usize].iter().map(|literal| {
        let (becomes, negated) = (u8::from(literal.becomes), u8::from(literal.negated));
        format!(" : {becomes} {negated} {} {}", literal.slot, literal.value)
    });
    let assignments =
        rule.assignments[..rule.assigned as usize].iter().map(|to| format!(" = {} {}", to.slot, to.value));
    let tail: String = literals.chain(assignments).collect();
    format!("rule {} {} {}{tail}\n", rule.stratum, rule.slot, rule.value)
}

/// The lines of one text's reading: the outcome, then the slots and rules of the table, of equal neighbours among the rules one.
fn reading(engine: &mut dyn Engine, text: &[u8]) -> Vec<u8> {
    let (refused, table) = engine.read(text);
    let outcome = match refused {
        Some(why) => format!("refused {} {}\n", why.number, why.second),
        None => format!("accepted {} {}\n", table.width, table.count),
    };
    let slots: Vec<Vec<u8>> = (0..table.width as u8).map(|slot| slot_line(engine, text, &table, slot)).collect();
    let rules: String = table.rules[..table.count as usize].iter().map(rule_line).collect();
    [outcome.into_bytes(), slots.concat(), counted(rules.as_bytes())].concat()
}

/// The lines for an input.
pub fn output(engine: &mut dyn Engine, mut input: &[u8]) -> Vec<u8> {
    let mut written = Vec::new();
    for case in 1.. {
        if input.is_empty() {
            break;
        }
        written.extend(format!("text {case}\n").into_bytes());
        written.extend(reading(engine, &text(&mut input)));
    }
    written
}

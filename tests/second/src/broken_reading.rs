//! Reading with one fault.

use crate::broken_strata::strata;
use crate::fault::Fault;
use crate::read::{
    completed, meaning, refusals, walk, AtToken, Limits, Production, Walk, Want, GRAMMAR, LIBRARY, PROGRAM,
};
use crate::table::{table_of, LiteralPlace, Pair, Rule, SlotLine, Table};
use crate::text::{tokens, Kind};
use crate::{refusal, Refusal};

/// The grammar that the fault has.
fn grammar(fault: Fault) -> Vec<Production> {
    let mut grammar = GRAMMAR.to_vec();
    match fault {
        Fault::TrueAfterAnd => grammar.push((Want::Literal, Kind::True, Want::TrueOver)),
        Fault::NoneAsValueName => grammar.push((Want::ValueName, Kind::None, Want::ValueOver)),
        Fault::NoneAsSlotName => {
            let of_slots = GRAMMAR.iter().filter(|production| production.1 == Kind::Name && is_slot(production.0));
            grammar.extend(of_slots.map(|(want, _, next)| (*want, Kind::None, *next)));
        }
        _ => {}
    }
    grammar
}

/// Whether the name that is wanted is a slot's.
fn is_slot(want: Want) -> bool {
    let values = [Want::ValueName, Want::TriggerValue, Want::LiteralValue, Want::OnlyValue, Want::ListedValue];
    !values.contains(&want)
}

/// The text with each `none`, of whatever letters, in capitals.
fn in_capitals(text: &[u8]) -> Vec<u8> {
    let mut capitals = text.to_vec();
    for token in tokens(text).iter().filter(|token| token.word(text).eq_ignore_ascii_case(b"NONE")) {
        capitals[token.start..token.start + token.size].make_ascii_uppercase();
    }
    capitals
}

/// Reads NONE in a rule as the first value.
fn none_as_first(rules: &mut [Rule]) {
    let first = |pair: &mut Pair| pair.1 = pair.1.max(1);
    for rule in rules {
        first(&mut rule.trigger);
        rule.literals.iter_mut().for_each(|literal| first(&mut literal.pair));
        rule.assignments.iter_mut().for_each(first);
    }
}

/// The limits that the fault has.
fn limits(fault: Fault) -> Limits {
    let Limits { bytes, rules } = LIBRARY;
    match fault {
        Fault::LongestTextRefused => Limits { bytes: bytes - 1, rules },
        Fault::LongerTextRead => Limits { bytes: bytes + 1, rules },
        Fault::LongTextRefused => Limits { bytes: PROGRAM.bytes, rules },
        Fault::LastRuleRefused => Limits { bytes, rules: rules - 1 },
        Fault::RuleMoreRead => Limits { bytes, rules: rules + 1 },
        Fault::ManyRulesRefused => Limits { bytes, rules: PROGRAM.rules },
        Fault::ProgramLongestRefused => Limits { bytes: PROGRAM.bytes - 1, rules: PROGRAM.rules },
        Fault::ProgramLongText => Limits { bytes, rules: PROGRAM.rules },
        Fault::ProgramLastRefused => Limits { bytes: PROGRAM.bytes, rules: PROGRAM.rules - 1 },
        Fault::ProgramManyRules => Limits { bytes: PROGRAM.bytes, rules },
        Fault::ProgramRuleMoreCounted => PROGRAM,
        _ => LIBRARY,
    }
}

/// The refusals at tokens that the fault leaves or moves.
fn bent_refusals(fault: Fault, text: &[u8], walk: &Walk) -> Vec<AtToken> {
    let token = |at: &AtToken| walk.tokens[at.position];
    let mut found = refusals(text, walk, limits(fault).rules);
    match fault {
        Fault::LongNameAccepted => found.retain(|at| at.number != 13 || token(at).size > 25),
        Fault::AssignedTwice => found.retain(|at| at.number != 17),
        Fault::DeclaredTwice => found.retain(|at| at.number != 14 || is_slot_name(walk, at.position)),
        Fault::UndeclaredValue => found.retain(|at| at.number != 16 || !is_value(walk, at.position)),
        Fault::NoneUndeclared => {
            let nones = walk.placed.iter().filter(|at| at.token.kind == Kind::None);
            found.extend(nones.map(|at| AtToken { position: at.position, number: 16 }));
        }
        Fault::NinthLiteralLate => {
            for at in found.iter_mut().filter(|at| at.number == 15 && token(at).kind == Kind::Not) {
                let rest = walk.tokens[at.position..].iter();
                at.position += rest.take_while(|token| token.kind == Kind::Not).count();
            }
        }
        _ => {}
    }
    found
}

/// Whether the token at a position is the name of a slot that is declared.
fn is_slot_name(walk: &Walk, position: usize) -> bool {
    walk.placed.iter().any(|at| at.position == position && at.want == Want::SlotName)
}

/// Whether the token at a position is a value's name in a rule.
fn is_value(walk: &Walk, position: usize) -> bool {
    let wants = [Want::TriggerValue, Want::LiteralValue, Want::OnlyValue, Want::ListedValue];
    walk.placed.iter().any(|at| at.position == position && wants.contains(&at.want))
}

/// The refusal that counts for the fault.
fn counting(fault: Fault, found: &[AtToken]) -> Option<AtToken> {
    match fault {
        Fault::LargerNumber => found.iter().copied().min_by_key(|at| (at.position, u8::MAX - at.number)),
        Fault::NumberBeforeToken => found.iter().copied().min_by_key(|at| (at.number, at.position)),
        _ => found.iter().copied().min(),
    }
}

/// The second number of a refusal at a token.
fn second_number(fault: Fault, walk: &Walk, at: AtToken) -> usize {
    let begun = walk.placed.iter().filter(|token| token.token.kind == Kind::When && token.position < at.position);
    let completed = completed(walk, at.position);
    let one_rule_more = at.number == 15 && walk.tokens[at.position].kind == Kind::When;
    match fault {
        Fault::RulesBegun => begun.count(),
        Fault::RuleMoreCounted | Fault::ProgramRuleMoreCounted if one_rule_more => completed + 1,
        Fault::MostRulesCut if at.number == 15 => completed % 256,
        Fault::CompletedCut => completed % 256,
        _ => completed,
    }
}

/// The slot lines and rules of a text, or its refusal 10 to 17.
fn read_rules(fault: Fault, text: &[u8]) -> Result<(Vec<SlotLine>, Vec<Rule>), Refusal> {
    if text.len() > limits(fault).bytes {
        return Err(refusal(10, 0));
    }
    let capitals = (fault == Fault::NoneInAnyCase).then(|| in_capitals(text));
    let text = capitals.as_deref().unwrap_or(text);
    let mut walk = walk(text, &grammar(fault));
    if fault == Fault::NoneAsSlotName {
        let slots = walk.placed.iter_mut().filter(|at| at.token.kind == Kind::None && is_slot(at.want));
        slots.for_each(|at| at.token.kind = Kind::Name);
    }
    let found = bent_refusals(fault, text, &walk);
    if let Some(at) = counting(fault, &found) {
        return Err(refusal(at.number, second_number(fault, &walk, at)));
    }
    match fault {
        Fault::NotsStay => {
            walk.placed.dedup_by(|next, before| next.token.kind == Kind::Not && before.token.kind == Kind::Not)
        }
        Fault::UndeclaredValue if refusals(text, &walk, LIBRARY.rules).iter().any(|at| at.number == 16) => {
            return Ok(Default::default())
        }
        _ => {}
    }
    let (lines, mut rules) = meaning(text, &walk);
    if fault == Fault::NoneReadAsFirst {
        none_as_first(&mut rules);
    }
    Ok((lines, rules))
}

/// Reads a text with a fault.
pub fn read(fault: Fault, text: &[u8]) -> (Option<Refusal>, Box<Table>) {
    let (lines, rules) = match read_rules(fault, text) {
        Ok(read) => read,
        Err(why) => return (Some(why), Table::empty()),
    };
    let numbers = strata(fault, &rules).map_err(|rule| refusal(18, rule));
    let mut table = match &numbers {
        Ok(numbers) => table_of(&lines, &rules, numbers),
        Err(_) if fault == Fault::TableAfterRefusal => table_of(&lines, &rules, &vec![0; rules.len()]),
        Err(_) => Table::empty(),
    };
    match fault {
        Fault::UnusedOnes => {
            let ones = LiteralPlace { slot: 1, value: 1, ..LiteralPlace::default() };
            table.rules.iter_mut().take(rules.len()).for_each(|rule| rule.literals[rule.tested as usize..].fill(ones));
        }
        Fault::CountCut => table.count %= 256,
        Fault::StartsCut => {
            let names = table.slots.iter_mut().flat_map(|slot| slot.values.iter_mut().chain([&mut slot.name]));
            names.for_each(|name| name.start %= 65_536);
        }
        _ => {}
    }
    (numbers.err(), table)
}

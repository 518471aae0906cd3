//! Printing with one fault.

use std::collections::HashSet;

use crate::fault::Fault;
use crate::print::{self, lines};
use crate::raw::PRINT_BYTES;
use crate::read::{
    is_value_in_rule, meaning, read, read_rules, walk, Placed, Walk, Want, GRAMMAR, LIBRARY, NAME, PROGRAM,
};
use crate::table::{Name, Pair, SlotLine, NONE};
use crate::table31::named_pairs;
use crate::text::Kind;
use crate::{refusal, Refusal};

/// Whether a token of a statement stays in its print.
fn stays(fault: Fault, statement: &[Placed], at: usize) -> bool {
    match (fault, statement[at].want, statement[at].token.kind) {
        (Fault::NotsPrinted, _, Kind::Not) => true,
        (Fault::NotUnprinted, _, Kind::Not) => false,
        (Fault::TruePrinted, Want::Condition, Kind::True) => true,
        (Fault::TruePrinted, Want::TrueOver, Kind::And) => true,
        (Fault::TrueUnprinted, _, Kind::True) => false,
        (Fault::NoneUnprinted, _, Kind::None) => false,
        (Fault::OneInBraces, Want::Assignments, Kind::Open) => true,
        (Fault::OneInBraces, Want::ListedOver, Kind::Close) => true,
        (Fault::TwoWithoutBraces, Want::Assignments, Kind::Open) => false,
        (Fault::TwoWithoutBraces, Want::ListedOver, Kind::Close) => false,
        _ => print::stays(statement, at),
    }
}

/// What stands between two tokens of a printed statement.
fn between(fault: Fault, last: Kind, next: Kind) -> &'static str {
    match (fault, last, next) {
        (Fault::SpaceBeforeComma, _, Kind::Comma) => " ",
        (Fault::SpaceBeforeSemicolon, _, Kind::Semicolon) => " ",
        (Fault::NoSpaceInBraces, Kind::Open, _) | (Fault::NoSpaceInBraces, _, Kind::Close) => "",
        (Fault::NoSpaceAfterComma, Kind::Comma, _) => "",
        _ => print::space(next),
    }
}

/// The name that the fault has for a value in a rule, where it is another: the one of its number in the first slot that has so many, or for NONE the first of its slot.
fn other_name(fault: Fault, slots: &[SlotLine], pair: Pair) -> Option<Name> {
    match (fault, pair) {
        (Fault::ValueOfFirstSlot, (_, value)) => {
            let at = usize::from(value).checked_sub(1)?;
            slots.iter().find_map(|slot| slot.values.get(at)).copied()
        }
        (Fault::NonePrintedAsFirst, (slot, NONE)) => Some(slots[usize::from(slot)].values[0]),
        _ => None,
    }
}

/// The walk of an accepted text, its names placed as the fault has them.
fn walked(fault: Fault, text: &[u8]) -> Walk {
    let mut walk = walk(text, GRAMMAR);
    match fault {
        Fault::LongNameCut => {
            let names = walk.placed.iter_mut().filter(|at| at.token.kind == Kind::Name);
            names.for_each(|at| at.token.size = at.token.size.min(NAME - 1));
        }
        Fault::ValueOfFirstSlot | Fault::NonePrintedAsFirst => {
            let (slots, rules) = meaning(text, &walk);
            let values = walk.placed.iter_mut().filter(|at| is_value_in_rule(at));
            for (at, pair) in values.zip(named_pairs(&rules)) {
                if let Some(name) = other_name(fault, &slots, pair) {
                    (at.token.start, at.token.size) = (name.range().start, name.range().len());
                }
            }
        }
        _ => {}
    }
    walk
}

/// A printed line with the list changed that stands between two marks, its parts divided by a third.
fn relisted(line: &str, marks: [&str; 3], change: impl FnOnce(&mut Vec<&str>)) -> String {
    let [from, by, to] = marks;
    match line.split_once(from).and_then(|(front, rest)| Some((front, rest.split_once(to)?))) {
        Some((front, (list, back))) => {
            let mut parts: Vec<&str> = list.split(by).collect();
            change(&mut parts);
            [front, from, &parts.join(by), to, back].concat()
        }
        _ => line.to_string(),
    }
}

/// Keeps the first of equal parts.
fn once(parts: &mut Vec<&str>) {
    let mut seen = HashSet::new();
    parts.retain(|part| seen.insert(*part));
}

/// A printed line as the fault has it.
fn changed(fault: Fault, line: &str) -> String {
    let (listed, literals) = ([" { ", ", ", " };"], [" IF ", " AND ", " THEN "]);
    match fault {
        Fault::WasAsChangesTo => line.replace("|=", "*="),
        Fault::ValuesSorted if line.starts_with("SLOT ") => relisted(line, listed, |values| values.sort_unstable()),
        Fault::AssignmentsSorted if line.starts_with("WHEN ") => {
            relisted(line, listed, |assignments| assignments.sort_unstable())
        }
        Fault::NegatedLast => relisted(line, literals, |tests| tests.sort_by_key(|test| test.starts_with("NOT "))),
        Fault::LiteralOnce => relisted(line, literals, once),
        _ => line.to_string(),
    }
}

/// Puts the lines of an accepted text's rules in the order of the strata.
fn by_strata(text: &[u8], lines: &mut Vec<Vec<u8>>) {
    let table = read(text).expect("the text is accepted");
    let strata = table.rules.iter().map(|rule| rule.stratum);
    let mut rules: Vec<(u16, Vec<u8>)> = strata.zip(lines.split_off(table.width as usize)).collect();
    rules.sort_by_key(|(stratum, _)| *stratum);
    lines.extend(rules.into_iter().map(|(_, line)| line));
}

/// The text in the style that the fault has.
fn styled(fault: Fault, text: &[u8]) -> Vec<u8> {
    let stays = |statement: &[Placed], at: usize| stays(fault, statement, at);
    let mut lines = lines(text, &walked(fault, text), stays, |last, next| between(fault, last, next));
    for line in &mut lines {
        *line = changed(fault, &String::from_utf8_lossy(line)).into_bytes();
    }
    match fault {
        Fault::SlotsSorted => {
            let slots = lines.partition_point(|line| line.starts_with(b"SLOT "));
            lines[..slots].sort_unstable();
        }
        Fault::RulesByStrata => by_strata(text, &mut lines),
        Fault::RuleOnce => lines.dedup(),
        Fault::ReturnPrinted => lines.iter_mut().for_each(|line| line.insert(line.len() - 1, b'\r')),
        Fault::NoLastNewline => lines.last_mut().into_iter().for_each(|line| line.truncate(line.len() - 1)),
        _ => {}
    }
    lines.concat()
}

/// The refusal 10 to 18 of a text.
fn refused(fault: Fault, text: &[u8]) -> Result<(), Refusal> {
    let read = match fault {
        Fault::CirclePrinted => read_rules(LIBRARY, text).map(drop),
        _ => read(text).map(drop),
    };
    read.map_err(|why| if fault == Fault::PrintSecondDropped { refusal(why.number, 0) } else { why })
}

/// The print of a text for an output of a length, or its refusal.
fn printed(fault: Fault, text: &[u8], room: usize) -> Result<Vec<u8>, Refusal> {
    refused(fault, text)?;
    let print = styled(fault, text);
    let most = match fault {
        Fault::LongestPrintRefused => PRINT_BYTES - 1,
        Fault::LongerPrintAccepted => PRINT_BYTES + 1,
        Fault::LongPrintRefused => PROGRAM.bytes,
        _ => PRINT_BYTES,
    };
    let short = room + usize::from(fault == Fault::OneShortPrinted) < print.len();
    match (print.len() > most, short) {
        (true, true) if fault == Fault::RoomBeforeLength => Err(refusal(33, 0)),
        (true, false) if fault == Fault::LengthByRoom => Ok(print),
        (true, _) => Err(refusal(34, 0)),
        (_, true) => Err(refusal(33, 0)),
        _ => Ok(print),
    }
}

/// Writes as much of a print as an output has room for.
fn write(print: &[u8], output: &mut [u8]) {
    output.iter_mut().zip(print).for_each(|(to, from)| *to = *from);
}

/// Prints with a fault.
pub fn print(fault: Fault, text: &[u8], output: &mut [u8]) -> Result<usize, Refusal> {
    let print = match printed(fault, text, output.len()) {
        Ok(print) => print,
        Err(why) => {
            match fault {
                Fault::ClearedOnRefusal => output.fill(0),
                Fault::PrintedOnShort if why.number == 33 => write(&styled(fault, text), output),
                _ => {}
            }
            return Err(why);
        }
    };
    write(&print, output);
    if let (Fault::ByteBeyondPrint, Some(beyond)) = (fault, output.get_mut(print.len())) {
        *beyond = 0;
    }
    Ok(print.len() + usize::from(fault == Fault::PrintLengthOver))
}

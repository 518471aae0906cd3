//! Tables and their tests in the form of the project's program `strata_cases`: packed tables, a line for each.

use crate::gen::{any_sketch, Rng};
use crate::gen_large::large_sketch;
use crate::gen_tables::{circled_table, damaged};
use crate::gen_text::{fill_up, Sketch};
use crate::strata::strata;
use crate::table::{table_of, AssignmentPlace, LiteralPlace, Name, RulePlace, SlotLine, Table};
use crate::table::{ASSIGNMENTS, LITERALS, RULES, SLOTS, VALUES};
use crate::table31::{tested, unlayered};

/// The most bytes that the program takes.
const INPUT: usize = 262_144;

/// How many inputs there are for one with large tables, and how many of these it has.
const TO_A_LARGE_INPUT: u64 = 5;
const LARGE_TABLES: u8 = 5;

/// The pairs that its chains go through.
const PAIRS: usize = SLOTS * VALUES;

/// Takes the next byte.
fn byte(input: &mut &[u8]) -> u8 {
    let (first, rest) = input.split_first().expect("the input is whole");
    *input = rest;
    *first
}

/// Takes two bytes, the high one first.
fn two_bytes(input: &mut &[u8]) -> u16 {
    u16::from_be_bytes([byte(input), byte(input)])
}

/// Takes a rule; a byte fills its unused places.
fn rule(input: &mut &[u8], fill: u8) -> RulePlace {
    let unused = LiteralPlace { slot: fill, value: fill, ..LiteralPlace::default() };
    let (slot, value, stratum) = (byte(input), byte(input), two_bytes(input));
    let mut place = RulePlace { slot, value, stratum, ..RulePlace::default() };
    place.literals = [unused; LITERALS];
    place.assignments = [AssignmentPlace { slot: fill, value: fill }; ASSIGNMENTS];
    place.tested = byte(input);
    for literal in place.literals.iter_mut().take(place.tested.into()) {
        let kind = byte(input);
        *literal =
            LiteralPlace { becomes: kind & 1 == 1, negated: kind & 2 == 2, slot: byte(input), value: byte(input) };
    }
    place.assigned = byte(input);
    for assignment in place.assignments.iter_mut().take(place.assigned.into()) {
        *assignment = AssignmentPlace { slot: byte(input), value: byte(input) };
    }
    place
}

/// Takes a table.
fn table(input: &mut &[u8]) -> Box<Table> {
    let mut table = Table::empty();
    let fill = byte(input);
    table.width = byte(input).into();
    for slot in table.slots.iter_mut().take(table.width as usize) {
        slot.count = byte(input).into();
    }
    table.count = two_bytes(input);
    for place in table.rules.iter_mut().take(table.count.into()) {
        *place = rule(input, fill);
    }
    table
}

/// The tables in an input: their number, then each.
pub fn tables(mut input: &[u8]) -> Vec<Box<Table>> {
    let count = byte(&mut input);
    (0..count).map(|_| table(&mut input)).collect()
}

/// The bytes of a rule.
fn rule_bytes(place: &RulePlace) -> Vec<u8> {
    let [high, low] = place.stratum.to_be_bytes();
    let mut bytes = vec![place.slot, place.value, high, low, place.tested];
    for literal in place.literals.iter().take(place.tested.into()) {
        bytes.extend([u8::from(literal.becomes) + 2 * u8::from(literal.negated), literal.slot, literal.value]);
    }
    bytes.push(place.assigned);
    place.assignments.iter().take(place.assigned.into()).for_each(|pair| bytes.extend([pair.slot, pair.value]));
    bytes
}

/// The bytes of a table; the numbers of slots and of values become 255 where they are above.
fn table_bytes(table: &Table, fill: u8) -> Vec<u8> {
    let small = |count: u16| count.min(255) as u8;
    let mut bytes = vec![fill, small(table.width)];
    bytes.extend(table.slots.iter().take(table.width as usize).map(|slot| small(slot.count)));
    bytes.extend(table.count.to_be_bytes());
    bytes.extend(table.rules.iter().take(table.count.into()).flat_map(rule_bytes));
    bytes
}

/// A sketch, filled up to a limit now and then.
fn generated_sketch(rng: &mut Rng) -> Sketch {
    let mut sketch = any_sketch(rng);
    if rng.chance(1, 12) {
        fill_up(rng, &mut sketch, 0);
    }
    sketch
}

/// The table of a sketch, its strata the least or other numbers, often changed.
fn generated_table(rng: &mut Rng, sketch: Sketch) -> Box<Table> {
    let unnamed = |count: usize| SlotLine { name: Name::default(), values: vec![Name::default(); count] };
    let lines: Vec<SlotLine> = sketch.names.iter().map(|slot| unnamed(slot.1.len())).collect();
    let table = match strata(&sketch.rules) {
        Ok(numbers) => table_of(&lines, &sketch.rules, &numbers),
        Err(_) => circled_table(rng, &lines, &sketch.rules),
    };
    if rng.chance(1, 2) {
        damaged(rng, &table, 0)
    } else {
        table
    }
}

/// An input of generated tables; one in so many has a few large ones and then as much as the program takes, the others less, to save time.
pub fn generated(seed: u64) -> Vec<u8> {
    let mut rng = Rng::new(seed);
    let (mut count, mut input) = (0, Vec::new());
    let large = seed % TO_A_LARGE_INPUT == 0;
    let most = if large { INPUT } else { INPUT / 4 };
    while count < 255 {
        let way = seed / TO_A_LARGE_INPUT + u64::from(count);
        let sketch =
            if large && count < LARGE_TABLES { large_sketch(&mut rng, way) } else { generated_sketch(&mut rng) };
        let bytes = table_bytes(&generated_table(&mut rng, sketch), *rng.pick(&[0, 1, 255]));
        if 1 + input.len() + bytes.len() > most {
            break;
        }
        count += 1;
        input.extend(bytes);
    }
    [vec![count], input].concat()
}

/// What the program should write of a table: whether it is well-formed, whether it passes 31, and its strata or the lowest rule on a circle.
fn line(table: &Table) -> String {
    let program = match unlayered(table) {
        Ok(program) => program,
        _ => {
            return " form 0 sound 0\n".to_string();
        }
    };
    let sound = u8::from(tested(table).is_ok());
    match strata(&program.rules) {
        Err(rule) => format!(" form 1 sound {sound} circle {rule} passes 1\n"),
        Ok(numbers) => {
            let words: String = numbers.iter().map(|number| format!(" {number}")).collect();
            format!(" form 1 sound {sound} layered{words} passes 1\n")
        }
    }
}

/// The line of a chain that the program makes itself: the strata of its first and its last rule, or where it has none the first of the table without rules, and that the table passes.
fn chain_line(name: &str, rules: usize, strata: Option<[usize; 2]>) -> String {
    match strata {
        Some([first, last]) => format!("{name} {rules} {first} {last} 1\n"),
        None => format!("{name} {rules} 0 1\n"),
    }
}

/// The lines of those chains: n rules, each testing what the one before or the one after it assigns; plainly, all in stratum 1, or under NOT, each a stratum above the next, unless a rule assigns the pair that triggers them all, which is the last, or the pairs go round.
fn chain_lines() -> String {
    let lines = |rules: usize| {
        let [forward, backward] = [rules + 1 < PAIRS, rules < PAIRS];
        [
            chain_line("forward", rules, Some([1, 1])),
            chain_line("backward", rules, Some([1, 1])),
            chain_line("forward-not", rules, forward.then_some([1, rules])),
            chain_line("backward-not", rules, backward.then_some([rules, 1])),
        ]
        .concat()
    };
    (1..PAIRS).chain([RULES]).map(lines).collect()
}

/// What the program should write for an input.
pub fn output(input: &[u8]) -> Vec<u8> {
    let lines = tables(input)
        .iter()
        .enumerate()
        .map(|(at, table)| format!("case {}{}", at + 1, line(table)))
        .collect::<String>();
    [lines, chain_lines()].concat().into_bytes()
}

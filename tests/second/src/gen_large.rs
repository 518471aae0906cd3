//! Generated rule files about the limits of the library, in rules, bytes and strata; they cost time, so that few are compared.

use crate::gen::{plain_file, File, Rng};
use crate::gen_print::long_print;
use crate::gen_rules::{chain_of, sketch, Ranks, Shape, CHAIN};
use crate::gen_text::{damage_tokens, join, sketch_tokens, Sketch};
use crate::raw::PRINT_BYTES;
use crate::read::{LIBRARY, PROGRAM};
use crate::table::{Literal, Rule, RULES};

/// The shapes of the rules that a file has again and again: few short ones, and many.
const FEW: Shape = Shape { slots: 6, values: 3, rules: 12, literals: 2, assignments: 2, ranks: Ranks::Below };
const MANY: Shape = Shape { slots: 32, values: 15, rules: 400, literals: 2, assignments: 2, ranks: Ranks::Level };

/// The ways in which large files are made, those first that cost least.
const WAYS: [fn(&mut Rng) -> File; 15] = [
    |rng| with_bytes(rng, PROGRAM.bytes + 1),
    |rng| with_bytes(rng, LIBRARY.bytes),
    |rng| with_bytes(rng, LIBRARY.bytes + 1),
    |rng| plain(rng, |rng| with_rules(rng, &FEW, PROGRAM.rules + 1)),
    |rng| plain(rng, |rng| with_rules(rng, &FEW, RULES + 1)),
    after_most_rules,
    damaged_late,
    |rng| long_print(rng, PROGRAM.bytes + 1),
    |rng| plain(rng, all_enabled),
    |rng| plain(rng, high_circle),
    |rng| plain(rng, high_strata),
    |rng| plain(rng, many_rules),
    |rng| plain(rng, |rng| with_rules(rng, &FEW, RULES)),
    |rng| long_print(rng, PRINT_BYTES),
    |rng| long_print(rng, PRINT_BYTES + 1),
];

/// How many large files have one of each way.
pub const LARGE: u64 = WAYS.len() as u64;

/// The large file of a seed, made in each of the ways in turn.
pub fn large_file(rng: &mut Rng, seed: u64) -> File {
    WAYS[(seed % LARGE) as usize](rng)
}

/// The sketches that tables of many rules are made from.
const SKETCHES: [fn(&mut Rng) -> Sketch; 5] =
    [|rng| with_rules(rng, &FEW, RULES), high_strata, high_circle, many_rules, all_enabled];

/// A sketch of many rules, made in each of the ways in turn.
pub fn large_sketch(rng: &mut Rng, way: u64) -> Sketch {
    SKETCHES[(way % SKETCHES.len() as u64) as usize](rng)
}

/// The file of a sketch.
fn plain(rng: &mut Rng, sketch: impl Fn(&mut Rng) -> Sketch) -> File {
    let sketch = sketch(rng);
    plain_file(rng, sketch)
}

/// A sketch of so many rules, those of a shape again and again.
fn with_rules(rng: &mut Rng, shape: &Shape, count: usize) -> Sketch {
    let some = loop {
        let some = sketch(rng, shape);
        if !some.rules.is_empty() {
            break some;
        }
    };
    Sketch { rules: some.rules.iter().cycle().take(count).cloned().collect(), ..some }
}

/// A sketch of more rules than the program takes.
fn many_rules(rng: &mut Rng) -> Sketch {
    let count = PROGRAM.rules + 1 + rng.below(RULES - PROGRAM.rules);
    with_rules(rng, &MANY, count)
}

/// A file of as many rules as there may be and one token more, or white space.
fn after_most_rules(rng: &mut Rng) -> File {
    let mut file = plain(rng, |rng| with_rules(rng, &FEW, RULES));
    let more = *rng.pick(&["WHEN", "SLOT", "q", ";", "(", "*", "nnnnnnnnnnnnnnnnnnnnnnnnn", " \n"]);
    file.text.extend(more.as_bytes());
    file
}

/// A file of more rules than the program takes, damaged behind them.
fn damaged_late(rng: &mut Rng) -> File {
    let count = 300 + rng.below(RULES - 300);
    let sketch = with_rules(rng, &FEW, count);
    let mut tokens = sketch_tokens(rng, &sketch);
    let mut last = tokens.split_off(tokens.len() - 30);
    (0..3).for_each(|_| damage_tokens(rng, &mut last));
    tokens.extend(last);
    File { text: join(rng, &tokens, 1), sketch }
}

/// A sketch of as many rules as there may be, all alike but for some that ask for the card's value, over two slots, so that slips seldom bring conflicts.
fn all_enabled(rng: &mut Rng) -> Sketch {
    let names = ["x", "y"].map(|name| (name.to_string(), vec!["a".to_string(), "b".to_string()])).to_vec();
    let asking = rng.below(3);
    let rule = |_| {
        let test = Literal { becomes: false, negated: rng.chance(1, 2), pair: (1, 1) };
        let literals = if rng.chance(asking, 4) { vec![test] } else { Vec::new() };
        Rule { trigger: (0, 1), literals, assignments: vec![(1, 2)] }
    };
    Sketch { names, rules: (0..RULES).map(rule).collect(), likely: vec![0; 2] }
}

/// A sketch of a chain under NOT so long that strata pass 255, each of its rules once or more.
fn high_strata(rng: &mut Rng) -> Sketch {
    let chain = chain_of(rng, CHAIN, 2, false);
    let count = CHAIN * (1 + rng.below(RULES / CHAIN));
    Sketch { rules: chain.rules.iter().cycle().take(count).cloned().collect(), ..chain }
}

/// A sketch whose only circle through a NOT is of two rules above 255.
fn high_circle(rng: &mut Rng) -> Sketch {
    let count = PROGRAM.rules + 1 + rng.below(RULES - PROGRAM.rules - 2);
    let mut sketch = with_rules(rng, &FEW, count);
    let slot = sketch.names.len() as u8;
    sketch.names.push(("circle".to_string(), vec!["a".to_string(), "b".to_string()]));
    sketch.likely.push(0);
    let bar = Literal { becomes: true, negated: true, pair: (slot, 2) };
    let barred = Rule { trigger: (0, 1), literals: vec![bar], assignments: vec![(slot, 1)] };
    let back = Rule { trigger: (slot, 1), literals: Vec::new(), assignments: vec![(slot, 2)] };
    for rule in [barred, back] {
        let at = PROGRAM.rules + rng.below(sketch.rules.len() - PROGRAM.rules);
        sketch.rules.insert(at, rule);
    }
    sketch
}

/// A file of so many bytes, most of them white space, before the slots or behind the rules.
fn with_bytes(rng: &mut Rng, bytes: usize) -> File {
    let File { text, sketch } = plain(rng, |rng| sketch(rng, &FEW));
    let white = vec![*rng.pick(b" \n\t\r"); bytes - text.len()];
    let text = if rng.chance(2, 3) { [white, text].concat() } else { [text, white].concat() };
    File { text, sketch }
}

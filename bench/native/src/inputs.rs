//! The inputs of the benchmark: rule texts of growing size, and texts at the edges.

use crate::chains::chains;
use crate::input::{card_bytes, filled, slip_bytes, Input, Series};
use crate::read::TEXT;
use crate::rng::Rng;
use crate::table::RULES;

/// The most bytes of a rule text that the program `rl` takes.
const PROGRAM_TEXT: usize = 65_535;

/// The measures of a generated text.
#[derive(Clone, Copy)]
struct Shape {
    slots: usize,
    values: usize,
    rules: usize,
    literals: usize,
    assignments: usize,
    /// How many rules a change goes through.
    levels: usize,
    /// The bytes of the longest name.
    longest: usize,
    /// The rule, from 0, from which on one in four stays idle.
    idle_from: usize,
    /// Whether tokens stand without white space where they can.
    close: bool,
    /// The bytes that the text is filled up to.
    length: usize,
    kind: Kind,
    series: Option<Series>,
}

/// What sets a text apart from others of its measures.
#[derive(Clone, Copy, PartialEq)]
enum Kind {
    /// All rules are in stratum 1, and every change is to a value.
    Plain,
    /// Rules wait for others under NOT too, so that there are as many strata as levels.
    Layered,
    /// Every change is NONE: what the card has is withdrawn.
    Withdrawn,
}

/// As many slots, values, literals and assignments as there can be.
const FULL: Shape = Shape {
    slots: 32,
    values: 15,
    rules: 255,
    literals: 8,
    assignments: 4,
    levels: 7,
    longest: 5,
    idle_from: 32,
    close: false,
    length: 0,
    kind: Kind::Plain,
    series: Some(Series::Growing),
};

/// As many rules and bytes as the program `rl` takes.
const PROGRAM: Shape = Shape { length: PROGRAM_TEXT, ..FULL };

/// As many rules and bytes as the library takes.
const LARGEST: Shape = Shape { rules: RULES, literals: 6, longest: 1, length: TEXT, ..FULL };

/// Shapes from small to the limits.
const SHAPES: [Shape; 9] = [
    Shape { slots: 3, values: 2, rules: 2, literals: 1, assignments: 1, levels: 2, longest: 4, ..FULL },
    Shape { slots: 6, values: 3, rules: 8, literals: 2, assignments: 1, levels: 2, longest: 8, ..FULL },
    Shape { slots: 12, values: 4, rules: 32, literals: 3, assignments: 2, levels: 3, longest: 8, ..FULL },
    Shape { slots: 24, values: 8, rules: 96, literals: 4, assignments: 2, levels: 5, longest: 9, ..FULL },
    Shape { rules: 192, literals: 6, assignments: 3, ..FULL },
    PROGRAM,
    Shape { rules: 500, ..FULL },
    Shape { rules: 1000, ..FULL },
    LARGEST,
];

/// How many rules the files of one kind have.
const ALIKE: [usize; 4] = [255, 500, 1000, RULES];

/// A letter by its number, the small ones first.
fn letter(number: usize) -> char {
    let byte = number as u8;
    char::from(if byte < 26 { b'a' + byte } else { b'A' + byte - 26 })
}

/// A name of small letters, or of any one letter, that is not among those given.
fn name(rng: &mut Rng, longest: usize, taken: &[String]) -> String {
    let letters = if longest == 1 { 52 } else { 26 };
    loop {
        let size = longest.div_ceil(2) + rng.below(longest / 2 + 1);
        let name: String = (0..size).map(|_| letter(rng.below(letters))).collect();
        if !taken.contains(&name) {
            return name;
        }
    }
}

/// Distinct names.
fn names(rng: &mut Rng, count: usize, longest: usize) -> Vec<String> {
    let mut names = Vec::new();
    for _ in 0..count {
        let more = name(rng, longest, &names);
        names.push(more);
    }
    names
}

/// What a text is made from: the names, each slot's values behind NONE, the card, and for each slot the value that it changes to, one that it never changes to but rules test under NOT, and the one that idle rules assign.
struct Plan<'a> {
    shape: &'a Shape,
    slots: Vec<String>,
    values: Vec<Vec<String>>,
    card: Vec<usize>,
    next: Vec<usize>,
    barred: Vec<usize>,
    idle: Vec<usize>,
}

impl Plan<'_> {
    /// The slots from one level up to but not at another.
    fn slots_of(&self, from: usize, to: usize) -> Vec<usize> {
        let level = |slot: &usize| slot * (self.shape.levels + 1) / self.shape.slots;
        (0..self.shape.slots).filter(|slot| (from..to).contains(&level(slot))).collect()
    }

    /// A slot, a mark and a value's name.
    fn pair(&self, slot: usize, mark: &str, value: usize) -> String {
        format!("{} {mark} {}", self.slots[slot], self.values[slot][value])
    }

    /// A literal of one of four forms, all of which hold.
    fn literal(&self, rng: &mut Rng, form: usize, changed: &[usize]) -> String {
        let any = rng.below(self.shape.slots);
        let slot = changed[rng.below(changed.len())];
        match form % 4 {
            0 => self.pair(slot, "*=", self.next[slot]),
            1 => self.pair(any, "|=", self.card[any]),
            2 => format!("NOT {}", self.pair(slot, "*=", self.barred[slot])),
            _ => format!("NOT {}", self.pair(any, "|=", self.next[any])),
        }
    }

    /// A rule of a level, from 1: it waits for slots of lower levels and assigns its own; an idle one has a false literal at its end.
    fn rule(&self, rng: &mut Rng, level: usize, idle: bool) -> String {
        let changed = self.slots_of(0, level);
        let awaited = self.slots_of(level - 1, level);
        let trigger = awaited[rng.below(awaited.len())];
        let mut literals: Vec<String> =
            (0..self.shape.literals).map(|form| self.literal(rng, form + level, &changed)).collect();
        if idle {
            literals.pop();
            literals.push(self.pair(trigger, "|=", self.next[trigger]));
        }
        let own = self.slots_of(level, level + 1);
        let first = rng.below(own.len());
        let count = self.shape.assignments.min(own.len());
        let assigned: Vec<usize> = (0..count).map(|at| own[(first + at) % own.len()]).collect();
        let values = if idle { &self.idle } else { &self.next };
        let list: Vec<String> = assigned.iter().map(|slot| self.pair(*slot, ":=", values[*slot])).collect();
        let then = if count == 1 { list[0].clone() } else { format!("{{{}}}", list.join(", ")) };
        let when = self.pair(trigger, "*=", self.next[trigger]);
        format!("WHEN {when} IF {} THEN {then};", literals.join(" AND "))
    }
}

/// A line without the spaces beside marks.
fn closed(line: &str) -> String {
    let bytes = line.as_bytes();
    let is_word = |at: usize| bytes[at].is_ascii_alphanumeric();
    let kept = |at: &usize| bytes[*at] != b' ' || is_word(at - 1) && is_word(at + 1);
    (0..bytes.len()).filter(kept).map(|at| char::from(bytes[at])).collect()
}

/// The input of a shape.
fn generated(shape: &Shape) -> Input {
    let mut rng = Rng(shape.rules as u64);
    let slots = names(&mut rng, shape.slots, shape.longest);
    let values = slots
        .iter()
        .map(|_| [vec!["NONE".to_string()], names(&mut rng, shape.values, shape.longest)].concat())
        .collect();
    let first: Vec<usize> = (0..shape.slots).map(|_| rng.below(shape.values)).collect();
    let after = |steps: usize| -> Vec<usize> { first.iter().map(|at| 1 + (at + steps) % shape.values).collect() };
    let (next, [barred, idle]) = (after(1), (if shape.kind == Kind::Layered { [2, 2] } else { [0, 1] }).map(after));
    let next = if shape.kind == Kind::Withdrawn { vec![0; shape.slots] } else { next };
    let plan = Plan { shape, slots, values, card: after(0), next, barred, idle };
    let mut lines: Vec<String> = (0..shape.slots)
        .map(|slot| format!("SLOT {} {{{}}};", plan.slots[slot], plan.values[slot][1..].join(", ")))
        .collect();
    let is_idle = |at: usize| at % 4 == 3 && at >= shape.idle_from;
    let mut rules: Vec<String> =
        (0..shape.rules).map(|at| plan.rule(&mut rng, 1 + at % shape.levels, is_idle(at))).collect();
    rng.shuffle(&mut rules);
    lines.extend(rules);
    if shape.close {
        lines.iter_mut().for_each(|line| *line = closed(line));
    }
    let changes: Vec<(usize, usize)> = plan.slots_of(0, 1).iter().map(|slot| (*slot, plan.next[*slot])).collect();
    Input {
        name: shape.name(),
        text: filled(&lines, shape.length),
        card: card_bytes(&plan.card),
        slip: slip_bytes(&changes),
        series: shape.series,
    }
}

impl Shape {
    /// The name of its input.
    fn name(&self) -> String {
        let kind = match self.kind {
            Kind::Plain if self.series == Some(Series::Alike) => ", alike".to_string(),
            Kind::Plain if self.close => ", close".to_string(),
            Kind::Plain => String::new(),
            Kind::Layered => format!(", {} strata", self.levels),
            Kind::Withdrawn => ", withdrawn".to_string(),
        };
        format!("{} slots, {} rules, {} in a condition{kind}", self.slots, self.rules, self.literals)
    }

    /// The same in strata, and one with NONE for every change.
    fn variants(self) -> [Shape; 2] {
        [Kind::Layered, Kind::Withdrawn].map(|kind| Shape { kind, series: None, ..self })
    }
}

/// A text of so many bytes of white space only.
fn white(length: usize) -> Input {
    let name = if length == TEXT { "white space only, as much as there can be" } else { "white space only" };
    Input { name: name.to_string(), text: vec![b' '; length], card: vec![0], slip: vec![0], series: None }
}

/// The largest input that the program `rl` takes.
pub fn program_input() -> Input {
    generated(&PROGRAM)
}

/// All inputs, the growing ones first. The largest with NONE for every change has fewer literals and assignments, since that is a longer word than a value; with as many literals as there can be it has no print.
pub fn inputs() -> Vec<Input> {
    let [layered, withdrawn] = LARGEST.variants();
    let withdrawn = Shape { literals: 5, assignments: 3, ..withdrawn };
    let close = Shape { literals: 8, close: true, series: None, ..LARGEST };
    let alike = ALIKE.map(|rules| Shape { rules, idle_from: 0, length: 0, series: Some(Series::Alike), ..LARGEST });
    let shapes = SHAPES.into_iter().chain(PROGRAM.variants()).chain([layered, withdrawn, close]).chain(alike);
    let mut inputs: Vec<Input> = shapes.map(|shape| generated(&shape)).collect();
    inputs.extend(chains());
    inputs.extend([PROGRAM_TEXT, TEXT].map(white));
    inputs
}

//! Generated rule texts: the tokens of sketches within the limits and beyond them, and what damages them.

use crate::gen::Rng;
use crate::read::{refusals, walk, GRAMMAR, LIBRARY, PROGRAM};
use crate::table::{Literal, Pair, Rule, NONE};

/// What a file is to say: names of slots and values, rules by their pairs, and a card that fits many of its conditions.
#[derive(Clone, Debug)]
pub struct Sketch {
    pub names: Vec<(String, Vec<String>)>,
    pub rules: Vec<Rule>,
    pub likely: Vec<u8>,
}

impl Sketch {
    /// The last value of each slot.
    pub fn lasts(&self) -> Vec<u8> {
        self.names.iter().map(|slot| slot.1.len() as u8).collect()
    }
}

/// Words that look reserved and are names.
const NEARLY_RESERVED: [&str; 11] =
    ["slot", "IF-", "TRUE0", "WHENx", "Then", "ANDAND", "not", "none", "None", "NONE-", "NONEs"];

/// A name that is not among those given.
pub fn fresh_name(rng: &mut Rng, taken: &[String]) -> String {
    let letters = b"abcdefghijklmnopqrstuvwxyzABCDEFGHIJKLMNOPQRSTUVWXYZ0123456789-";
    loop {
        let size = match rng.below(12) {
            0 => 24,
            1 => 1 + rng.below(24),
            _ => 1 + rng.below(2),
        };
        let mut name = String::from(letters[rng.below(62)] as char);
        name.extend((1..size).map(|_| letters[rng.below(63)] as char));
        if rng.chance(1, 30) {
            name = rng.pick(&NEARLY_RESERVED).to_string();
        }
        let reserved = ["SLOT", "WHEN", "IF", "THEN", "AND", "NOT", "TRUE", "NONE"].contains(&name.as_str());
        if !reserved && !taken.contains(&name) {
            return name;
        }
    }
}

/// Distinct names, as many as asked for.
pub fn names(rng: &mut Rng, count: usize) -> Vec<String> {
    let mut names = Vec::new();
    for _ in 0..count {
        let name = fresh_name(rng, &names);
        names.push(name);
    }
    names
}

/// Breaks one limit of a sketch, or comes up to it.
pub fn crowd(rng: &mut Rng, sketch: &mut Sketch) {
    let extra = rng.below(2);
    fill_up(rng, sketch, extra);
}

/// Fills one place of a sketch up to its limit, of the rules that of the program, and by so many more, or by one rule more than that.
pub fn fill_up(rng: &mut Rng, sketch: &mut Sketch, extra: usize) {
    let at = rng.below(sketch.rules.len().max(1));
    match rng.below(if sketch.rules.is_empty() { 2 } else { 5 }) {
        0 => {
            for _ in sketch.names.len()..32 + extra {
                let taken: Vec<String> = sketch.names.iter().map(|slot| slot.0.clone()).collect();
                sketch.names.push((fresh_name(rng, &taken), vec!["v".to_string()]));
                sketch.likely.push(0);
            }
        }
        1 => {
            let slot = rng.below(sketch.names.len());
            let values = &mut sketch.names[slot].1;
            for _ in values.len()..15 + extra {
                let name = fresh_name(rng, values);
                values.push(name);
            }
        }
        2 => {
            let rules = sketch.rules.clone();
            let more = extra * (1 + rng.below(2));
            sketch.rules = rules.into_iter().cycle().take(PROGRAM.rules + more).collect();
        }
        3 => {
            let literals = &mut sketch.rules[at].literals;
            let more = Literal { becomes: false, negated: rng.chance(1, 2), pair: (0, 1) };
            literals.resize(literals.len().max(8 + extra), more);
        }
        _ => {
            let count = sketch.names.len().min(4 + extra);
            sketch.rules[at].assignments = (0..count).map(|slot| (slot as u8, 1)).collect();
        }
    }
}

/// Declares or assigns something twice, or makes a name long.
pub fn double(rng: &mut Rng, sketch: &mut Sketch) {
    let (slot, other) = (rng.below(sketch.names.len()), rng.below(sketch.names.len()));
    let values = sketch.names[slot].1.len();
    let long = "n".repeat(24 + rng.below(3));
    match rng.below(5) {
        0 => sketch.names[slot].0 = sketch.names[other].0.clone(),
        1 => {
            let value = sketch.names[slot].1[rng.below(values)].clone();
            sketch.names[slot].1.insert(rng.below(values + 1), value);
        }
        2 => sketch.names[slot].0 = long,
        3 => sketch.names[slot].1[rng.below(values)] = long,
        _ => {
            let at = match sketch.rules.len().checked_sub(1).map(|last| rng.below(last + 1)) {
                Some(at) => at,
                _ => {
                    return;
                }
            };
            let assignments = &mut sketch.rules[at].assignments;
            assignments.insert(rng.below(assignments.len() + 1), assignments[rng.below(assignments.len())]);
        }
    }
}

/// The tokens of a slot line.
fn slot_tokens(slot: &(String, Vec<String>)) -> Vec<String> {
    let mut tokens = vec!["SLOT".to_string(), slot.0.clone(), "{".to_string()];
    for (at, value) in slot.1.iter().enumerate() {
        tokens.extend((at > 0).then(|| ",".to_string()));
        tokens.push(value.clone());
    }
    tokens.extend(["}".to_string(), ";".to_string()]);
    tokens
}

/// The tokens of a pair with a mark between.
fn pair_tokens(sketch: &Sketch, pair: Pair, mark: &str) -> Vec<String> {
    let slot = &sketch.names[pair.0 as usize];
    let value = match pair.1 {
        NONE => "NONE".to_string(),
        value => slot.1[value as usize - 1].clone(),
    };
    vec![slot.0.clone(), mark.to_string(), value]
}

/// The tokens of a condition: TRUE where it is empty and sometimes before literals, more NOTs than needed now and then.
fn condition_tokens(rng: &mut Rng, sketch: &Sketch, rule: &Rule) -> Vec<String> {
    let mut parts: Vec<Vec<String>> = Vec::new();
    if rule.literals.is_empty() || rng.chance(1, 5) {
        parts.push(vec!["TRUE".to_string()]);
    }
    for literal in &rule.literals {
        let pairs_of_nots = if rng.chance(1, 8) { 2 * (1 + rng.below(3)) } else { 0 };
        let mut tokens = vec!["NOT".to_string(); usize::from(literal.negated) + pairs_of_nots];
        tokens.extend(pair_tokens(sketch, literal.pair, if literal.becomes { "*=" } else { "|=" }));
        parts.push(tokens);
    }
    parts.join(&"AND".to_string())
}

/// The tokens of a rule.
fn rule_tokens(rng: &mut Rng, sketch: &Sketch, rule: &Rule) -> Vec<String> {
    let word = |word: &str| vec![word.to_string()];
    let assigned: Vec<Vec<String>> = rule.assignments.iter().map(|pair| pair_tokens(sketch, *pair, ":=")).collect();
    let braces = assigned.len() != 1 || rng.chance(1, 4);
    let list = assigned.join(&",".to_string());
    [
        word("WHEN"),
        pair_tokens(sketch, rule.trigger, "*="),
        word("IF"),
        condition_tokens(rng, sketch, rule),
        word("THEN"),
        if braces { [word("{"), list, word("}")].concat() } else { list },
        word(";"),
    ]
    .concat()
}

/// All tokens of a sketch.
pub fn sketch_tokens(rng: &mut Rng, sketch: &Sketch) -> Vec<String> {
    let mut tokens: Vec<String> = sketch.names.iter().flat_map(slot_tokens).collect();
    for rule in &sketch.rules {
        tokens.extend(rule_tokens(rng, sketch, rule));
    }
    tokens
}

/// Swaps, drops, doubles or replaces a token.
pub fn damage_tokens(rng: &mut Rng, tokens: &mut Vec<String>) {
    let words = ["SLOT", "WHEN", "IF", "THEN", "AND", "NOT", "TRUE", "NONE", "{", "}", ",", ";", "*=", "|=", ":="];
    let odd = ["(", "*", "=", "-", "#", "aaaaaaaaaaaaaaaaaaaaaaaa", "aaaaaaaaaaaaaaaaaaaaaaaab", "zz", "\u{7f}"];
    let (at, other) = (rng.below(tokens.len()), rng.below(tokens.len()));
    match rng.below(7) {
        0 => tokens.swap(at, other),
        1 if at + 1 < tokens.len() => tokens.swap(at, at + 1),
        2 => drop(tokens.remove(at)),
        3 => tokens.insert(at, tokens[at].clone()),
        4 => tokens[at] = rng.pick(&words).to_string(),
        5 => tokens[at] = rng.pick(&odd).to_string(),
        _ => tokens[at] = tokens[other].clone(),
    }
}

/// Puts TRUE after AND, or before the end of a condition.
pub fn damage_condition(rng: &mut Rng, tokens: &mut Vec<String>) {
    let places: Vec<usize> =
        (0..tokens.len()).filter(|at| ["AND", "THEN", "NOT"].contains(&tokens[*at].as_str())).collect();
    if places.is_empty() {
        return;
    }
    let at = *rng.pick(&places);
    let put: &[&str] = match tokens[at].as_str() {
        "AND" => &["AND", "TRUE"],
        "THEN" => &["AND", "TRUE"],
        _ => &["NOT", "TRUE", "AND"],
    };
    let words = put.iter().map(|word| word.to_string());
    tokens.splice(at..at, words);
}

/// Puts NONE in the place of a name, or of what may stand there: of a slot or a value in a slot line or in a rule; or another word in the place of NONE.
pub fn damage_none(rng: &mut Rng, tokens: &mut [String]) {
    let places = |fits: &dyn Fn(usize) -> bool| (1..tokens.len()).filter(|at| fits(*at)).collect::<Vec<usize>>();
    let nones = places(&|at| tokens[at] == "NONE");
    let last = *rng.pick(&["SLOT", "{", ",", "WHEN", "IF", "NOT", "AND", "THEN", "*=", "|=", ":="]);
    let after = places(&|at| tokens[at - 1] == last);
    if !nones.is_empty() && rng.chance(1, 2) {
        tokens[*rng.pick(&nones)] =
            rng.pick(&["none", "None", "NONE-", "NONEs", "NON", "TRUE", "NONE NONE"]).to_string();
    } else if !after.is_empty() {
        tokens[*rng.pick(&after)] = "NONE".to_string();
    }
}

/// Damages a token at the place where the reading is refused, or next to it.
pub fn damage_near(rng: &mut Rng, tokens: &mut Vec<String>) {
    let text = tokens.join(" ").into_bytes();
    let walk = walk(&text, GRAMMAR);
    let first = match refusals(&text, &walk, LIBRARY.rules).into_iter().min() {
        Some(first) => first,
        _ => {
            return;
        }
    };
    let at = first.position + rng.below(3);
    if at < tokens.len() {
        let odd = ["(", "TRUE", ";", "zz", "n".repeat(25).as_str(), "SLOT", "NOT", "AND", "NONE"].map(String::from);
        match rng.below(3) {
            0 => tokens.truncate(at),
            1 => tokens[at] = rng.pick(&odd).clone(),
            _ => tokens[at] = tokens[rng.below(at + 1)].clone(),
        }
    }
}

/// The text of tokens, white space between them where it must be and, so many times in six, elsewhere.
pub fn join(rng: &mut Rng, tokens: &[String], loose: usize) -> Vec<u8> {
    let mut text: Vec<u8> = Vec::new();
    for token in tokens {
        let runs_on = |byte: &u8| byte.is_ascii_alphanumeric() || *byte == b'-';
        let needed = text.last().map_or(false, |byte| runs_on(byte))
            && token.as_bytes().first().map_or(false, |byte| runs_on(byte));
        let extra = if loose > 0 && rng.chance(loose, 6) { 1 + rng.below(2) } else { 0 };
        let white = usize::from(needed).max(extra);
        text.extend((0..white).map(|_| *rng.pick(b"    \n\t\r")));
        text.extend(token.as_bytes());
    }
    if rng.chance(1, 2) {
        text.push(b'\n');
    }
    text
}

/// Flips, changes, inserts or removes a byte, or cuts the text.
pub fn damage_bytes(rng: &mut Rng, text: &mut Vec<u8>) {
    if text.is_empty() {
        return;
    }
    let at = rng.below(text.len());
    match rng.below(6) {
        0 => text[at] ^= 1 << rng.below(8),
        1 => text[at] = rng.below(256) as u8,
        2 => text.insert(at, rng.below(256) as u8),
        3 => drop(text.remove(at)),
        4 => text.truncate(at),
        _ => text[at] = *rng.pick(b"{},;*|:=-( "),
    }
}

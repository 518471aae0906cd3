//! Generated inputs: rule files, cards, slips and output lengths, good and damaged.

use crate::cards::{card_bytes, card_length, slip_bytes, slip_length};
use crate::gen_large::large_file;
use crate::gen_rules::{chain, sketch, Ranks, SHAPES};
use crate::gen_text::{crowd, damage_bytes, damage_condition, damage_near, damage_none, damage_tokens, double};
use crate::gen_text::{join, sketch_tokens, Sketch};
use crate::read::PROGRAM;
use crate::table::{Pair, NONE};

/// A seeded xorshift generator.
pub struct Rng(u64);

impl Rng {
    /// The generator of a seed.
    pub fn new(seed: u64) -> Rng {
        let mut rng = Rng(seed.wrapping_mul(0x9E37_79B9_7F4A_7C15) | 1);
        for _ in 0..4 {
            rng.next();
        }
        rng
    }

    /// The next 64 bits.
    fn next(&mut self) -> u64 {
        self.0 ^= self.0 << 13;
        self.0 ^= self.0 >> 7;
        self.0 ^= self.0 << 17;
        self.0.wrapping_mul(0x2545_F491_4F6C_DD1D)
    }

    /// A number below a bound above 0.
    pub fn below(&mut self, bound: usize) -> usize {
        ((self.next() >> 32) as usize) % bound
    }

    /// True so many times in so many.
    pub fn chance(&mut self, times: usize, of: usize) -> bool {
        self.below(of) < times
    }

    /// One of the items.
    pub fn pick<'a, T>(&mut self, items: &'a [T]) -> &'a T {
        &items[self.below(items.len())]
    }

    /// Puts the items in any order.
    pub fn shuffle<T>(&mut self, items: &mut [T]) {
        for at in (1..items.len()).rev() {
            items.swap(at, self.below(at + 1));
        }
    }
}

/// A generated rule file with the sketch it was made from.
pub struct File {
    pub text: Vec<u8>,
    pub sketch: Sketch,
}

/// The file of a sketch, undamaged.
pub fn plain_file(rng: &mut Rng, sketch: Sketch) -> File {
    let tokens = sketch_tokens(rng, &sketch);
    let loose = rng.below(4);
    File { text: join(rng, &tokens, loose), sketch }
}

/// Fills a text with white space up to a length about the limit of the program.
fn fill(rng: &mut Rng, text: &mut Vec<u8>) {
    let length = PROGRAM.bytes - 1 + rng.below(3);
    text.resize(length.max(text.len()), b' ');
}

/// A sketch of any shape, or a chain.
pub fn any_sketch(rng: &mut Rng) -> Sketch {
    if rng.chance(1, 120) {
        return chain(rng);
    }
    let size = *rng.pick(&[0, 0, 0, 0, 1, 1, 1, 1, 1, 1, 1, 1, 2, 2, 2, 2, 2, 2, 2, 2, 3, 3, 3, 3, 4]);
    let mut shape = SHAPES[size];
    if rng.chance(2, 3) {
        shape.ranks = *rng.pick(&[Ranks::Free, Ranks::Planted, Ranks::Below, Ranks::Below]);
    }
    sketch(rng, &shape)
}

/// Damages the tokens of a file in one of several ways, sometimes at two places close together.
fn damage_file(rng: &mut Rng, tokens: &mut Vec<String>, way: usize) {
    if tokens.is_empty() {
        return;
    }
    match way {
        2 | 3 => (0..1 + rng.below(2)).for_each(|_| damage_tokens(rng, tokens)),
        4 => damage_condition(rng, tokens),
        7 => damage_none(rng, tokens),
        _ => {}
    }
    if way < 5 && rng.chance(if way == 0 { 2 } else { 1 }, 3) {
        damage_near(rng, tokens);
    }
}

/// A file of any shape: most of them undamaged, others crowded, doubled, damaged or filled up to the limits of the program.
pub fn any_file(rng: &mut Rng) -> File {
    let mut sketch = any_sketch(rng);
    let way = rng.below(16);
    if way == 0 || way == 1 && rng.chance(1, 3) {
        crowd(rng, &mut sketch);
    }
    if way == 1 {
        double(rng, &mut sketch);
    }
    let mut tokens = sketch_tokens(rng, &sketch);
    damage_file(rng, &mut tokens, way);
    let loose = rng.below(4);
    let mut text = join(rng, &tokens, loose);
    if matches!(way, 5 | 6) {
        (0..1 + rng.below(2)).for_each(|_| damage_bytes(rng, &mut text));
    }
    if rng.chance(1, 150) {
        fill(rng, &mut text);
    }
    if rng.chance(1, 200) {
        text.retain(|byte| matches!(byte, 9 | 10 | 13 | 32));
    }
    File { text, sketch }
}

/// How many inputs of the program there are for one large file.
const TO_A_LARGE_FILE: u64 = 100;

/// A file for the program: of any shape, now and then a large one.
pub fn program_file(rng: &mut Rng, seed: u64) -> File {
    match seed % TO_A_LARGE_FILE {
        0 => large_file(rng, seed / TO_A_LARGE_FILE),
        _ => any_file(rng),
    }
}

/// A card near the likely one, or with anything in it.
pub fn card_values(rng: &mut Rng, sketch: &Sketch) -> Vec<u8> {
    let often = rng.pick(&[0, 1, 2, 6]).to_owned();
    let value = |(likely, last): (&u8, u8)| {
        if rng.chance(often, 6) {
            rng.below(last as usize + 1) as u8
        } else {
            *likely
        }
    };
    sketch.likely.iter().zip(sketch.lasts()).map(value).collect()
}

/// Changes of rising slots, often those that rules wait for, withdrawals among them; now and then one alone, if it can be one that no rule makes.
pub fn slip_changes(rng: &mut Rng, sketch: &Sketch) -> Vec<Pair> {
    let often = 1 + rng.below(6);
    let mut changes = Vec::new();
    for (slot, last) in sketch.lasts().into_iter().enumerate() {
        let awaited: Vec<u8> =
            sketch.rules.iter().filter(|rule| rule.trigger.0 == slot as u8).map(|rule| rule.trigger.1).collect();
        if rng.chance(often + usize::from(!awaited.is_empty()), 6) {
            let value = if awaited.is_empty() || rng.chance(1, 4) {
                rng.below(last as usize + 1) as u8
            } else {
                *rng.pick(&awaited)
            };
            changes.push((slot as u8, value));
        }
    }
    if rng.chance(1, 5) && !changes.is_empty() {
        let unmade = |change: &Pair| sketch.rules.iter().all(|rule| !rule.assignments.contains(change));
        let outside: Vec<Pair> = changes.iter().copied().filter(unmade).collect();
        changes = vec![*rng.pick(if outside.is_empty() { &changes } else { &outside })];
    }
    changes
}

/// Changes the length, a bit, the padding or the count of packed bytes, or gives any bytes of a right length.
fn damage_packed(rng: &mut Rng, bytes: &mut Vec<u8>, length: fn(usize) -> usize) {
    let at = rng.below(bytes.len());
    let end = bytes.len() - 1;
    match rng.below(8) {
        0 => bytes.truncate(at),
        1 => bytes.push(rng.below(256) as u8),
        2 => bytes[at] ^= 1 << rng.below(8),
        3 => bytes[end] ^= 1 << rng.below(4),
        4 => bytes[0] = bytes[0] & 3 | (rng.below(64) as u8) << 2,
        5 => {
            let count = rng.below(64);
            *bytes = (0..length(count)).map(|_| rng.below(256) as u8).collect();
            bytes[0] = bytes[0] & 3 | (count as u8) << 2;
        }
        6 => bytes.clear(),
        _ => bytes[at] = rng.below(256) as u8,
    }
}

/// The sketch that fits a table without slots or rules.
pub fn empty_sketch() -> Sketch {
    Sketch { names: Vec::new(), rules: Vec::new(), likely: Vec::new() }
}

/// A card's bytes, damaged now and then.
pub fn card(rng: &mut Rng, sketch: &Sketch) -> Vec<u8> {
    let mut values = card_values(rng, sketch);
    if rng.chance(1, 12) && !values.is_empty() {
        for _ in 0..1 + rng.below(2) {
            let at = rng.below(values.len());
            values[at] = 1 + rng.below(15) as u8;
        }
    }
    if rng.chance(1, 30) {
        values.push(0);
    }
    let mut bytes = card_bytes(&values);
    if rng.chance(1, 10) {
        damage_packed(rng, &mut bytes, card_length);
    }
    bytes
}

/// A slip's bytes, its changes or bytes damaged now and then.
pub fn slip(rng: &mut Rng, sketch: &Sketch) -> Vec<u8> {
    let mut changes = slip_changes(rng, sketch);
    if rng.chance(1, 5) {
        damage_changes(rng, &mut changes);
    }
    let mut bytes = slip_bytes(&changes);
    if rng.chance(1, 10) {
        damage_packed(rng, &mut bytes, slip_length);
    }
    bytes
}

/// Repeats, swaps or changes changes, or makes them withdrawals, once or more.
pub fn damage_changes(rng: &mut Rng, changes: &mut Vec<Pair>) {
    for _ in 0..1 + rng.below(3) {
        let (at, other) = (rng.below(changes.len().max(1)), rng.below(changes.len().max(1)));
        match rng.below(5) {
            _ if changes.is_empty() => changes.push((rng.below(32) as u8, rng.below(16) as u8)),
            0 => changes.insert(at, changes[at]),
            1 => changes.swap(at, other),
            2 => changes[at].0 = rng.below(32) as u8,
            3 => changes[at].1 = rng.below(16) as u8,
            _ => changes[at].1 = NONE,
        }
    }
}

/// Output lengths about those that are needed: mostly enough, sometimes one or more too short, or the last alone by one byte.
pub fn rooms(rng: &mut Rng, needed: [usize; 3]) -> [usize; 3] {
    let enough = rng.chance(3, 4);
    let mut rooms = needed.map(|length| {
        if enough || rng.chance(1, 2) {
            length + *rng.pick(&[0, 0, 1, 5])
        } else {
            *rng.pick(&[0, length.saturating_sub(1), length / 2, 2])
        }
    });
    if enough && rng.chance(1, 12) {
        rooms[2] = needed[2].saturating_sub(1);
    }
    rooms
}

/// An unpacked card for packing: fitting, or with a wrong count or value.
pub fn unpacked_card(rng: &mut Rng, sketch: &Sketch) -> Vec<u8> {
    let mut values = card_values(rng, sketch);
    if rng.chance(1, 4) && !values.is_empty() {
        let at = rng.below(values.len());
        values[at] = *rng.pick(&[1, 3, 15, 16, 200, 255]);
    }
    match rng.below(10) {
        0 => values.push(0),
        1 => drop(values.pop()),
        _ => {}
    }
    values
}

/// An unpacked slip for packing: fitting, or with faulty changes, or with too many.
pub fn unpacked_slip(rng: &mut Rng, sketch: &Sketch) -> Vec<Pair> {
    let mut changes = slip_changes(rng, sketch);
    if rng.chance(1, 3) {
        damage_changes(rng, &mut changes);
    }
    match rng.below(12) {
        0 => changes.resize(31 + rng.below(4), (0, 1)),
        1 => changes.push((*rng.pick(&[31, 32, 64, 255]), 1)),
        2 => changes.push((31, *rng.pick(&[16, 17, 128, 255]))),
        _ => {}
    }
    changes
}

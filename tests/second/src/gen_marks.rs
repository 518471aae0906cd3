//! Generated rules for the response by marks: circles through NOT and plain ones, which a slip or a card decides or leaves unknown, and rules that give a slot two values.

use std::collections::HashSet;

use crate::gen::{plain_file, File, Rng};
use crate::gen_rules::{chain, pairs_of, sketch, Ranks, Shape};
use crate::gen_text::{names, Sketch};
use crate::table::{Literal, Pair, Rule, LITERALS, VALUES};

/// What rules are made from: the pairs that start them, the pairs that they bring, and the likely card.
struct Ground {
    starts: Vec<Pair>,
    pairs: Vec<Pair>,
    likely: Vec<u8>,
}

/// A literal `*=`.
fn changes_to(negated: bool, pair: Pair) -> Literal {
    Literal { becomes: true, negated, pair }
}

impl Ground {
    /// The ground over slots with so many values: the first slot starts rules, and of five or more all but the last four; now and then so does a pair that rules bring.
    fn new(rng: &mut Rng, lasts: &[u8]) -> Ground {
        let empty = rng.below(3);
        let card = |last: &u8| if rng.chance(empty, 2) { 0 } else { rng.below(usize::from(*last) + 1) as u8 };
        let likely: Vec<u8> = lasts.iter().map(card).collect();
        let (mut starts, mut pairs): (Vec<Pair>, Vec<Pair>) =
            pairs_of(rng, lasts).into_iter().partition(|pair| pair.0 == 0 || usize::from(pair.0) + 4 < lasts.len());
        rng.shuffle(&mut pairs);
        if pairs.is_empty() {
            pairs = starts.clone();
        }
        starts.retain(|pair| likely[usize::from(pair.0)] != pair.1);
        starts.extend(pairs.iter().take(usize::from(starts.is_empty() || rng.chance(1, 3))));
        Ground { starts, pairs, likely }
    }

    /// A rule that waits for a pair, plainly or under NOT, and brings others.
    fn link(&self, rng: &mut Rng, awaited: Pair, negated: bool, brought: Vec<Pair>) -> Rule {
        let by_literal = negated || rng.chance(1, 3);
        Rule {
            trigger: if by_literal { *rng.pick(&self.starts) } else { awaited },
            literals: if by_literal { vec![changes_to(negated, awaited)] } else { Vec::new() },
            assignments: brought,
        }
    }

    /// Different pairs that rules bring, so many at most, mostly of different slots.
    fn some(&self, rng: &mut Rng, most: usize) -> Vec<Pair> {
        let mut pairs = self.pairs.clone();
        rng.shuffle(&mut pairs);
        if rng.chance(3, 4) {
            let mut slots = HashSet::new();
            pairs.retain(|pair| slots.insert(pair.0));
        }
        pairs.truncate(1 + rng.below(most));
        pairs
    }

    /// Rules each of which waits for a pair and brings the next, closed to a circle or not; so many times in four under NOT.
    fn round(&self, rng: &mut Rng, nots: usize, closed: bool) -> Vec<Rule> {
        let mut pairs = self.some(rng, 4);
        if closed || pairs.len() < 2 {
            pairs.push(pairs[0]);
        }
        let link = |two: &[Pair]| {
            let negated = rng.chance(nots, 4);
            self.link(rng, two[0], negated, vec![two[1]])
        };
        pairs.windows(2).map(link).collect()
    }

    /// Rules of one trigger that bring different values of a slot, perhaps unless a pair comes.
    fn rivals(&self, rng: &mut Rng) -> Vec<Rule> {
        let (trigger, values) = (*rng.pick(&self.starts), self.two_values(rng));
        let rule = |pair: Pair| {
            let unless = *rng.pick(&self.pairs);
            let literals = if rng.chance(1, 2) { vec![changes_to(true, unless)] } else { Vec::new() };
            Rule { trigger, literals, assignments: vec![pair] }
        };
        values.into_iter().map(rule).collect()
    }

    /// Two values of a slot that rules bring; the same one twice where no slot has two.
    fn two_values(&self, rng: &mut Rng) -> [Pair; 2] {
        let mut twos = Vec::new();
        for one in &self.pairs {
            let others = self.pairs.iter().filter(|other| other.0 == one.0 && *other != one);
            twos.extend(others.map(|other| [*one, *other]));
        }
        if twos.is_empty() {
            [self.pairs[0]; 2]
        } else {
            *rng.pick(&twos)
        }
    }

    /// A rule that brings a pair where another value of a slot came and a third did not, and one that brings this third unless the pair came.
    fn crossed(&self, rng: &mut Rng) -> Vec<Rule> {
        let [one, other] = self.two_values(rng);
        let elsewhere: Vec<Pair> = self.pairs.iter().copied().filter(|pair| pair.0 != one.0).collect();
        let brought = *rng.pick(if elsewhere.is_empty() { &self.pairs } else { &elsewhere });
        let first = Rule { trigger: one, literals: vec![changes_to(true, other)], assignments: vec![brought] };
        vec![first, self.link(rng, brought, true, vec![other])]
    }

    /// A plain circle, and rules of one trigger that bring two values of a slot where a pair of the circle does not come.
    fn barred(&self, rng: &mut Rng) -> Vec<Rule> {
        let mut rules = self.round(rng, 0, true);
        let (bar, trigger) = (rules[0].assignments[0], *rng.pick(&self.starts));
        for pair in self.two_values(rng) {
            rules.push(Rule { trigger, literals: vec![changes_to(true, bar)], assignments: vec![pair] });
        }
        rules
    }

    /// Adds a test to a rule: of the card, mostly one that holds, or of a change.
    fn test_more(&self, rng: &mut Rng, rule: &mut Rule) {
        let from = if rng.chance(1, 3) { &self.starts } else { &self.pairs };
        let pair = *rng.pick(from);
        let had = self.likely[usize::from(pair.0)] == pair.1;
        let holds = rng.chance(2, 3);
        rule.literals.push(match rng.below(3) {
            0 => changes_to(rng.chance(2, 3), pair),
            _ => Literal { becomes: false, negated: had != holds, pair },
        });
        rule.literals.truncate(LITERALS);
    }

    /// Rules of so many parts.
    fn rules(&self, rng: &mut Rng, parts: usize) -> Vec<Rule> {
        let mut rules = Vec::new();
        for _ in 0..parts {
            rules.extend(match rng.below(10) {
                0 | 1 => self.round(rng, 3, true),
                2 => self.round(rng, 0, true),
                3 | 4 => self.round(rng, 1, false),
                5 => self.rivals(rng),
                6 | 7 => self.crossed(rng),
                _ => self.barred(rng),
            });
        }
        let more = rng.below(3);
        for rule in &mut rules {
            if rng.chance(more, 6) {
                self.test_more(rng, rule);
            }
            let other = *rng.pick(&self.pairs);
            if rng.chance(more, 9) && rule.assignments.iter().all(|pair| pair.0 != other.0) {
                rule.assignments.push(other);
            }
        }
        rng.shuffle(&mut rules);
        rules
    }
}

/// A sketch of so many slots and values at most, its rules of so many parts.
fn woven(rng: &mut Rng, slots: usize, values: usize, parts: usize) -> Sketch {
    let count = if rng.chance(1, 10) { 1 + rng.below(2) } else { 3 + rng.below(slots - 2) };
    let lasts: Vec<u8> =
        (0..count).map(|_| if rng.chance(1, 5) { 1 } else { 2 + rng.below(values - 1) as u8 }).collect();
    let ground = Ground::new(rng, &lasts);
    let rules = ground.rules(rng, parts);
    let slot_names = names(rng, lasts.len());
    let named = slot_names.into_iter().zip(lasts).map(|(name, last)| (name, names(rng, usize::from(last))));
    Sketch { names: named.collect(), rules, likely: ground.likely }
}

/// The sketch of a small file: woven, or of a shape that is held to little.
pub fn small(rng: &mut Rng) -> Sketch {
    if rng.chance(2, 3) {
        let parts = *rng.pick(&[1, 1, 2, 3]);
        return woven(rng, 5, 3, parts);
    }
    let shape = Shape {
        slots: 2 + rng.below(3),
        values: 1 + rng.below(3),
        rules: 1 + rng.below(6),
        literals: rng.below(3),
        assignments: 1 + rng.below(2),
        ranks: *rng.pick(&[Ranks::Free, Ranks::Planted, Ranks::Level, Ranks::Below]),
    };
    sketch(rng, &shape)
}

/// A sketch whose rules share a trigger and are one chain, of which no slip need bring the first pair: pairs are ruled out one after another, or under NOT brought and ruled out in turn. In this order, in the other, or in any. Of each slot the pairs begin with a value or with NONE; the slots then have their last value, which no pair of the chain has.
fn fading(rng: &mut Rng) -> Sketch {
    let slots = 2 + rng.below(17);
    let trigger = (slots as u8 - 1, 1);
    let first = rng.below(2);
    let pair = |link: usize| ((link / VALUES) as u8, (link % VALUES + first) as u8);
    let nots = *rng.pick(&[0, 0, 1, 8]);
    let link = |link: usize| Rule {
        trigger,
        literals: vec![changes_to(rng.chance(nots, 8), pair(link))],
        assignments: vec![pair(link + 1)],
    };
    let mut rules: Vec<Rule> = (0..(slots - 1) * VALUES - 1).map(link).collect();
    match rng.below(3) {
        0 => rules.reverse(),
        1 => rng.shuffle(&mut rules),
        _ => {}
    }
    let slot_names = names(rng, slots);
    let names = slot_names.into_iter().map(|name| (name, names(rng, VALUES))).collect();
    let had = if first == 0 { VALUES } else { 0 };
    Sketch { names, rules, likely: vec![had as u8; slots] }
}

/// A file for the response by marks: small or large, seldom a chain.
pub fn file(rng: &mut Rng) -> File {
    let sketch = match rng.below(60) {
        0 => chain(rng),
        1 | 2 => fading(rng),
        3..=6 => {
            let parts = 1 + rng.below(80);
            woven(rng, 32, 15, parts)
        }
        7..=18 => {
            let parts = 1 + rng.below(12);
            woven(rng, 10, 4, parts)
        }
        _ => small(rng),
    };
    plain_file(rng, sketch)
}

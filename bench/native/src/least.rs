//! Whether the strata that a table carries are the least, in one pass over the rules and one along those that it leaves.

use crate::room::Room;
use crate::table::{place, Literal, Rule, LITERALS, PAIRS, RULES};

/// The places of a rule where it can wait for a pair: its trigger and its literals.
const PLACES: usize = LITERALS + 1;

/// For each pair the highest stratum of the rules that assign it, or of some of them; 0 where there is none.
pub type Numbers = [u16; PAIRS];

/// Raises the pairs that a rule assigns to its stratum.
#[inline]
pub fn raise(numbers: &mut Numbers, rule: &Rule) {
    for a in rule.assignments() {
        let number = &mut numbers[place(a.slot, a.value)];
        *number = (*number).max(rule.stratum);
    }
}

/// The least stratum that a rule can have: as high as the pairs that it tests plainly by `*=`, above those under NOT; without branches.
#[inline]
fn asked(high: &Numbers, rule: &Rule) -> u32 {
    let mut asked = u32::from(high[place(rule.slot, rule.value)]).max(1);
    for literal in rule.literals() {
        let number = u32::from(high[place(literal.slot, literal.value)]) + literal.negated as u32;
        asked = asked.max(number & (literal.becomes as u32).wrapping_neg());
    }
    asked
}

/// Whether a rule tests under NOT a pair whose number is one below its stratum.
#[inline]
fn is_above(high: &Numbers, rule: &Rule) -> bool {
    let is_below = |pair| high[pair] == rule.stratum - 1;
    rule.literals().iter().any(|l| l.becomes && l.negated && is_below(place(l.slot, l.value)))
}

/// Whether a rule tests plainly a pair whose number is its stratum.
#[inline]
fn is_level(numbers: &Numbers, rule: &Rule) -> bool {
    let is_same = |pair| numbers[pair] == rule.stratum;
    let tests = |l: &Literal| l.becomes && !l.negated && is_same(place(l.slot, l.value));
    is_same(place(rule.slot, rule.value)) || rule.literals().iter().any(tests)
}

/// Whether the strata are the least, given the highest number of each pair: each is as high as its tests ask, and none is higher than something holds it.
/// A stratum is held as the first, by a pair under NOT that is one lower, or by a pair of the same number that is tested plainly and that a held rule assigns.
pub fn are_least(rules: &[Rule], high: &Numbers) -> bool {
    let mut held = [0; PAIRS];
    let mut left = Room::<u16, RULES>::new();
    let left = left.filled(rules.len(), 0);
    let mut count = 0;
    for (at, rule) in rules.iter().enumerate() {
        if u32::from(rule.stratum) < asked(high, rule) {
            return false;
        }
        if rule.stratum == 1 {
            continue;
        }
        if is_above(high, rule) || is_level(&held, rule) {
            raise(&mut held, rule);
        } else {
            left[count] = at as u16;
            count += 1;
        }
    }
    count == 0 || hold(rules, &left[..count], high, held)
}

/// Whether the rules left are held, given the highest numbers of held rules so far.
/// A rule left stands in a chain for each pair that can hold it; a chain is followed once, when a held rule assigns its pair.
fn hold(rules: &[Rule], left: &[u16], high: &Numbers, mut held: Numbers) -> bool {
    let mut heads = [0u16; PAIRS];
    let mut nexts = Room::<u16, { RULES * PLACES }>::new();
    let nexts = nexts.filled(rules.len() * PLACES, 0);
    let mut is_held = Room::<bool, RULES>::new();
    let is_held = is_held.filled(rules.len(), true);
    let mut line = Room::<u16, RULES>::new();
    let line = line.filled(left.len(), 0);
    let mut count = 0;
    for at in left {
        let rule = &rules[*at as usize];
        if is_level(&held, rule) {
            line[count] = *at;
            count += 1;
            continue;
        }
        is_held[*at as usize] = false;
        let mut chain = |k: usize, pair: usize| {
            if high[pair] == rule.stratum {
                let link = *at as usize * PLACES + k;
                nexts[link] = std::mem::replace(&mut heads[pair], link as u16 + 1);
            }
        };
        chain(0, place(rule.slot, rule.value));
        for (k, l) in rule.literals().iter().enumerate() {
            if l.becomes && !l.negated {
                chain(k + 1, place(l.slot, l.value));
            }
        }
    }
    let mut done = 0;
    while done < count {
        let rule = &rules[line[done] as usize];
        done += 1;
        for a in rule.assignments() {
            let pair = place(a.slot, a.value);
            if held[pair] >= rule.stratum {
                continue;
            }
            held[pair] = rule.stratum;
            let mut link = if high[pair] == rule.stratum { heads[pair] } else { 0 };
            while link != 0 {
                let at = (link as usize - 1) / PLACES;
                link = nexts[link as usize - 1];
                if !is_held[at] {
                    is_held[at] = true;
                    line[count] = at as u16;
                    count += 1;
                }
            }
        }
    }
    count == left.len()
}

//! Strata: the least numbers, by raising them from 1, and the rules on a circle of dependence through a NOT.

use std::collections::{BTreeSet, HashMap};

use crate::rule_set::RuleSet;
use crate::table::{Pair, Rule};

/// The pairs that a rule's literals test by `*=`, plainly or under NOT.
fn literal_pairs(rule: &Rule, negated: bool) -> impl Iterator<Item = Pair> + '_ {
    let tests = rule.literals.iter().filter(move |literal| literal.becomes && literal.negated == negated);
    tests.map(|literal| literal.pair)
}

/// The pairs that a rule tests by `*=` plainly: the trigger's, and those of literals without NOT.
pub fn plain_pairs(rule: &Rule) -> Vec<Pair> {
    std::iter::once(rule.trigger).chain(literal_pairs(rule, false)).collect()
}

/// The pairs that a rule tests by `*=` under NOT.
pub fn negated_pairs(rule: &Rule) -> Vec<Pair> {
    literal_pairs(rule, true).collect()
}

/// The rules that a rule waits for: those that assign a pair it tests by `*=`, plainly or under NOT.
#[derive(Clone, PartialEq, Eq, Debug, Default)]
pub struct Waits {
    pub plain: RuleSet,
    pub negated: RuleSet,
}

impl Waits {
    /// All rules waited for.
    pub fn all(&self) -> RuleSet {
        self.plain.with(&self.negated)
    }
}

/// For each pair the rules that assign it.
fn assigning(rules: &[Rule]) -> HashMap<Pair, RuleSet> {
    let mut assigning: HashMap<Pair, RuleSet> = HashMap::new();
    for (at, rule) in rules.iter().enumerate() {
        rule.assignments.iter().for_each(|pair| assigning.entry(*pair).or_default().put(at));
    }
    assigning
}

/// For each rule the rules it waits for.
pub fn waits(rules: &[Rule]) -> Vec<Waits> {
    let assigning = assigning(rules);
    let of = |pairs: Vec<Pair>| {
        let mut all = RuleSet::default();
        pairs.iter().filter_map(|pair| assigning.get(pair)).for_each(|set| all.add(set));
        all
    };
    rules.iter().map(|rule| Waits { plain: of(plain_pairs(rule)), negated: of(negated_pairs(rule)) }).collect()
}

/// The number that a rule needs by those of some others: at least 1, no lower than a rule it waits for plainly, above each it waits for under NOT.
fn asked_by(waits: &Waits, others: &RuleSet, numbers: &[usize]) -> usize {
    let level = waits.plain.shared(others).map(|at| numbers[at]);
    let above = waits.negated.shared(others).map(|at| numbers[at] + 1);
    level.chain(above).fold(1, usize::max)
}

/// The number that a rule needs by those of all others.
pub fn asked(waits: &Waits, numbers: &[usize]) -> usize {
    asked_by(waits, &(0..numbers.len()).collect(), numbers)
}

/// The most NOTs that strata can fall by: rules that a walk meets wait under NOT for different sets, since with one set twice the walk would lead into a circle.
fn most_nots(waits: &[Waits]) -> usize {
    let sets: BTreeSet<&RuleSet> = waits.iter().map(|waits| &waits.negated).filter(|set| !set.is_empty()).collect();
    sets.len()
}

/// Raises each number that is below what its rule needs until none is: the least strata from those numbers up; None where there are none.
pub fn raised(waits: &[Waits], numbers: Vec<usize>) -> Option<Vec<usize>> {
    let mut numbers: Vec<usize> = numbers.into_iter().map(|number| number.max(1)).collect();
    let highest = numbers.iter().max().unwrap_or(&1) + most_nots(waits);
    let mut higher: RuleSet = (0..waits.len()).collect();
    while !higher.is_empty() {
        let mut seen = std::mem::take(&mut higher);
        for at in 0..waits.len() {
            let asked = asked_by(&waits[at], &seen, &numbers);
            if asked > highest {
                return None;
            }
            if asked > numbers[at] {
                numbers[at] = asked;
                higher.put(at);
                seen.put(at);
            }
        }
    }
    Some(numbers)
}

/// The least strata; None where there are none.
pub fn least(waits: &[Waits]) -> Option<Vec<u16>> {
    let numbers = raised(waits, vec![1; waits.len()])?;
    Some(numbers.into_iter().map(|number| number as u16).collect())
}

/// For each rule the rules it comes to by steps of dependence, itself by none.
pub fn reached(waits: &[Waits]) -> Vec<RuleSet> {
    let mut reached: Vec<RuleSet> = waits.iter().map(Waits::all).collect();
    (0..reached.len()).for_each(|at| reached[at].put(at));
    for middle in 0..reached.len() {
        let beyond = reached[middle].clone();
        reached.iter_mut().filter(|set| set.has(middle)).for_each(|set| set.add(&beyond));
    }
    reached
}

/// The positions of the rules on a circle through a NOT, rising: steps come from such a rule to one that waits under NOT for another which comes back to it, and from that one back.
pub fn on_circle(waits: &[Waits]) -> Vec<usize> {
    let reached = reached(waits);
    let comes_back = |from: &usize| waits[*from].negated.positions().any(|to| reached[to].has(*from));
    let through: Vec<usize> = (0..waits.len()).filter(comes_back).collect();
    let on = |at: &usize| through.iter().any(|from| reached[*at].has(*from) && reached[*from].has(*at));
    (0..waits.len()).filter(on).collect()
}

/// The least strata, or the lowest rule on a circle through a NOT, by its number from 1.
pub fn strata(rules: &[Rule]) -> Result<Vec<u16>, usize> {
    let waits = waits(rules);
    least(&waits)
        .ok_or_else(|| on_circle(&waits).first().expect("rules without strata have a circle through a NOT") + 1)
}

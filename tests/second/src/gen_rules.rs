//! Generated rules: by shapes up to the limits, and without circles, with plain ones, or with any.

use std::collections::HashSet;

use crate::gen::Rng;
use crate::gen_text::{names, Sketch};
use crate::read::PROGRAM;
use crate::table::{Literal, Pair, Rule, NONE, SLOTS, VALUES};

/// What the ranks of pairs hold the rules of a file to.
#[derive(Clone, Copy, PartialEq, Eq, Debug)]
pub enum Ranks {
    /// Nothing: any circle can come.
    Free,
    /// A rule tests by `*=` no higher pairs than it assigns, and lower ones under NOT: only plain circles can come.
    Level,
    /// The same but for circles through a NOT that are put among the rules.
    Planted,
    /// A rule tests by `*=` lower pairs than it assigns: no circle can come.
    Below,
}

/// The most slots, values, rules, literals and assignments of a generated file, and what its ranks hold rules to.
#[derive(Clone, Copy, Debug)]
pub struct Shape {
    pub slots: usize,
    pub values: usize,
    pub rules: usize,
    pub literals: usize,
    pub assignments: usize,
    pub ranks: Ranks,
}

/// Shapes from the smallest to the limits, of the rules that of the program.
pub const SHAPES: [Shape; 5] = [
    Shape { slots: 2, values: 2, rules: 3, literals: 2, assignments: 2, ranks: Ranks::Free },
    Shape { slots: 4, values: 2, rules: 6, literals: 2, assignments: 2, ranks: Ranks::Level },
    Shape { slots: 6, values: 3, rules: 12, literals: 4, assignments: 3, ranks: Ranks::Level },
    Shape { slots: 12, values: 6, rules: 40, literals: 8, assignments: 4, ranks: Ranks::Level },
    Shape { slots: 32, values: 15, rules: PROGRAM.rules, literals: 8, assignments: 4, ranks: Ranks::Level },
];

/// The pairs of slots and values that rules are made of, by slot and value: of so many slots in four also the pair with NONE.
pub fn pairs_of(rng: &mut Rng, lasts: &[u8]) -> Vec<Pair> {
    let often = *rng.pick(&[0, 1, 2, 4]);
    let mut pairs: Vec<Pair> = Vec::new();
    for (slot, last) in lasts.iter().enumerate() {
        let first = if rng.chance(often, 4) { NONE } else { NONE + 1 };
        pairs.extend((first..=*last).map(|value| (slot as u8, value)));
    }
    pairs
}

/// A few of the pairs, in their order, for many rules to meet at.
fn busy_pairs(rng: &mut Rng, pairs: &[Pair]) -> Vec<Pair> {
    let count = pairs.len().min(2 + rng.below(8));
    let mut kept: Vec<usize> = (0..pairs.len()).collect();
    rng.shuffle(&mut kept);
    kept.truncate(count);
    kept.sort_unstable();
    kept.into_iter().map(|at| pairs[at]).collect()
}

/// The ranks of pairs by slot and value, rising with their order: each pair has its own or, where rules may stay level, a few ranks are shared by all.
fn ranks_of(rng: &mut Rng, pairs: &[Pair], ranks: Ranks) -> Vec<[usize; VALUES + 1]> {
    let most = match ranks {
        Ranks::Level => pairs.len().min(*rng.pick(&[1, 2, 2, 3, 3, 4, 6])),
        Ranks::Planted => pairs.len().min(1 + rng.below(3)),
        _ => pairs.len(),
    };
    let mut found = vec![[0; VALUES + 1]; SLOTS];
    for (at, (slot, value)) in pairs.iter().enumerate() {
        found[usize::from(*slot)][usize::from(*value)] = at * most / pairs.len();
    }
    found
}

/// What rules are made from: the shape, all pairs and those that many rules meet at, both by rising ranks, these ranks, and the likely card.
struct Ground {
    shape: Shape,
    all: Vec<Pair>,
    busy: Vec<Pair>,
    ranks: Vec<[usize; VALUES + 1]>,
    likely: Vec<u8>,
}

impl Ground {
    /// The rank of a pair.
    fn rank(&self, pair: &Pair) -> usize {
        self.ranks[usize::from(pair.0)][usize::from(pair.1)]
    }

    /// Whether a rule that assigns no pair below a rank may test a pair by `*=`.
    fn may_test(&self, rank: usize, negated: bool, pair: &Pair) -> bool {
        match self.shape.ranks {
            Ranks::Free => true,
            Ranks::Level | Ranks::Planted if !negated => self.rank(pair) <= rank,
            _ => self.rank(pair) < rank,
        }
    }

    /// The pairs of a list that a rule may assign.
    fn assignable(&self, rank: usize, list: &[Pair]) -> Vec<Pair> {
        let free = self.shape.ranks == Ranks::Free;
        list.iter().copied().filter(|pair| free || self.rank(pair) >= rank).collect()
    }

    /// A pair that may be tested: often one that an earlier rule assigns.
    fn awaited(&self, rng: &mut Rng, list: &[Pair], before: &[Rule], may: impl Fn(&Pair) -> bool) -> Option<Pair> {
        let assigned: Vec<Pair> =
            before.iter().flat_map(|rule| rule.assignments.iter().copied()).filter(&may).collect();
        let testable: Vec<Pair> = list.iter().copied().filter(&may).collect();
        let from = if assigned.is_empty() || rng.chance(1, 2) { testable } else { assigned };
        (!from.is_empty()).then(|| *rng.pick(&from))
    }

    /// A literal `|=`, mostly one that holds on the likely card.
    fn card_test(&self, rng: &mut Rng) -> Literal {
        let pair = *rng.pick(&self.all);
        let had = self.likely[pair.0 as usize] == pair.1;
        Literal { becomes: false, negated: if rng.chance(3, 4) { !had } else { had }, pair }
    }

    /// A literal by the pairs that may be tested by `*=`, plainly or under NOT.
    fn literal(&self, rng: &mut Rng, list: &[Pair], before: &[Rule], may: impl Fn(bool, &Pair) -> bool) -> Literal {
        let (becomes, negated) = (rng.chance(1, 2), rng.chance(3, 4));
        match self.awaited(rng, list, before, |pair| becomes && may(negated, pair)) {
            Some(pair) => Literal { becomes, negated, pair },
            None => self.card_test(rng),
        }
    }

    /// A rule over the pairs of a list, held by its rank; seldom one that tests what it assigns.
    fn rule(&self, rng: &mut Rng, list: &[Pair], before: &[Rule]) -> Rule {
        let lowest = usize::from(self.shape.ranks == Ranks::Below && list.len() > 1);
        let [one, other] = [(); 2].map(|_| lowest + rng.below(list.len() - lowest));
        let rank = self.rank(&list[if self.shape.ranks == Ranks::Below { one } else { one.max(other) }]);
        let assignments = assignments(rng, &self.assignable(rank, list), self.shape.assignments);
        let own = rng.chance(1, 6);
        let may =
            |negated: bool, pair: &Pair| self.may_test(rank, negated, pair) && (own || !assignments.contains(pair));
        let most = self.shape.literals;
        let few = if rng.chance(1, 6) { most } else { most.min(2) };
        let count = if rng.chance(1, 12) { most } else { rng.below(few + 1) };
        let narrow = self.awaited(rng, list, before, |pair| may(false, pair));
        let trigger = narrow.or_else(|| self.awaited(rng, &self.all, &[], |pair| may(false, pair)));
        Rule {
            trigger: trigger.unwrap_or(list[0]),
            literals: (0..count).map(|_| self.literal(rng, list, before, may)).collect(),
            assignments,
        }
    }

    /// A rule with the trigger of an earlier rule of few literals that asks under NOT for what that rule assigns, and assigns pairs of higher rank.
    fn rival(&self, rng: &mut Rng, list: &[Pair], before: &[Rule]) -> Option<Rule> {
        let tried = [(); 3].map(|_| before.get(rng.below(before.len().max(1))));
        let other = tried.into_iter().flatten().min_by_key(|rule| rule.literals.len())?;
        let highest = *other.assignments.iter().max_by_key(|pair| self.rank(pair))?;
        let above: Vec<Pair> = list.iter().copied().filter(|pair| self.rank(pair) > self.rank(&highest)).collect();
        (!above.is_empty() && self.shape.literals > 0).then(|| Rule {
            trigger: other.trigger,
            literals: vec![Literal { becomes: true, negated: true, pair: highest }],
            assignments: assignments(rng, &above, self.shape.assignments),
        })
    }

    /// A rule that waits for a pair, in its trigger or in a literal, and assigns another; where rules are held, with a literal more now and then.
    fn link(&self, rng: &mut Rng, awaited: Pair, negated: bool, assigned: Pair) -> Rule {
        let by_literal = self.shape.literals > 0 && (negated || rng.chance(1, 5));
        let may = |negated: bool, pair: &Pair| self.may_test(self.rank(&assigned), negated, pair);
        let other = self.awaited(rng, &self.all, &[], |pair| may(false, pair));
        let mut literals =
            if by_literal { vec![Literal { becomes: true, negated, pair: awaited }] } else { Vec::new() };
        if self.shape.ranks != Ranks::Free && rng.chance(1, 5) {
            literals.push(self.literal(rng, &self.busy, &[], may));
            literals.truncate(self.shape.literals);
        }
        Rule {
            trigger: if by_literal { other.unwrap_or(awaited) } else { awaited },
            literals,
            assignments: vec![assigned],
        }
    }

    /// Rules over pairs, each of which waits for one pair and assigns the next.
    fn links(&self, rng: &mut Rng, pairs: &[Pair]) -> Vec<Rule> {
        pairs.windows(2).map(|two| self.link(rng, two[0], false, two[1])).collect()
    }

    /// Takes pairs for a circle from those left: any, or such of one rank, of different slots where a response is to come to them.
    fn circle_pairs(&self, rng: &mut Rng, left: &mut Vec<Pair>) -> Vec<Pair> {
        let tried = [(); 3].map(|_| self.rank(rng.pick(left)));
        let shared = |rank: &usize| (left.iter().filter(|pair| self.rank(pair) == *rank).count(), *rank);
        let rank = tried.into_iter().max_by_key(shared).expect("there are three");
        let (free, level) = (self.shape.ranks == Ranks::Free, self.shape.ranks == Ranks::Level);
        let mut slots = HashSet::new();
        rng.shuffle(left);
        let fit = |pair: &&Pair| (free || self.rank(pair) == rank) && (slots.insert(pair.0) || !level);
        let pairs: Vec<Pair> = left.iter().filter(fit).take(2 + rng.below(6)).copied().collect();
        left.retain(|pair| !pairs.contains(pair));
        pairs
    }

    /// Rules in a plain circle, a rule by itself among them.
    fn plain_circle(&self, rng: &mut Rng, pairs: &[Pair]) -> Vec<Rule> {
        self.links(rng, &[pairs, &pairs[..1]].concat())
    }

    /// A rule that waits for a pair outside a circle and assigns one of its pairs.
    fn cause(&self, rng: &mut Rng, pairs: &[Pair]) -> Option<Rule> {
        let may = |pair: &Pair| !pairs.contains(pair) && self.may_test(self.rank(&pairs[0]), false, pair);
        let awaited = self.awaited(rng, &self.busy, &[], may)?;
        Some(self.link(rng, awaited, false, pairs[0]))
    }

    /// Rules in a plain circle whose first rule is on a circle through a NOT too.
    fn mixed_circle(&self, rng: &mut Rng, pairs: &[Pair]) -> Vec<Rule> {
        let (round, rest) = pairs.split_at(2 + rng.below(pairs.len() - 2));
        let mut rules = self.plain_circle(rng, round);
        rules[0].literals.truncate(self.shape.literals - 1);
        rules[0].literals.push(Literal { becomes: true, negated: true, pair: rest[rest.len() - 1] });
        rules.extend(self.links(rng, &[&round[1..2], rest].concat()));
        rules.rotate_left(1);
        rules
    }

    /// Makes the first of some rules ask under NOT for a pair of lower rank than it assigns, and adds a rule that assigns that pair.
    fn lift(&self, rng: &mut Rng, rules: &mut Vec<Rule>) -> Option<()> {
        let first = rules.first_mut().filter(|rule| rule.literals.len() < self.shape.literals)?;
        let rank = self.rank(&first.assignments[0]);
        let low = self.awaited(rng, &self.busy, &[], |pair| self.rank(pair) < rank)?;
        let below = self.awaited(rng, &self.all, &[], |pair| self.may_test(self.rank(&low), false, pair))?;
        first.literals.push(Literal { becomes: true, negated: true, pair: low });
        rules.push(self.link(rng, below, false, low));
        Some(())
    }

    /// Rules in a circle: a plain one or now and then an open one, and where nothing forbids it one through a NOT, or both at once; often a cause from outside, or a NOT on something lower.
    fn circle(&self, rng: &mut Rng, pairs: &[Pair]) -> Vec<Rule> {
        let cause = if rng.chance(1, 2) { self.cause(rng, pairs) } else { None };
        let through_not = matches!(self.shape.ranks, Ranks::Free | Ranks::Planted) && self.shape.literals > 0;
        let mut rules = match rng.below(8) {
            0..=3 if through_not && pairs.len() > 2 => self.mixed_circle(rng, pairs),
            4 if through_not => {
                let mut rules = self.plain_circle(rng, pairs);
                rules[0] = self.link(rng, pairs[0], true, rules[0].assignments[0]);
                rules
            }
            5 => self.links(rng, pairs),
            _ => self.plain_circle(rng, pairs),
        };
        if self.shape.ranks != Ranks::Free && rng.chance(2, 3) {
            self.lift(rng, &mut rules);
        }
        rules.extend(cause);
        rules
    }

    /// Rules in the order of their making, in the other or in any, so many or, where circles are among them, as many as these have.
    fn rules(&self, rng: &mut Rng, mut wanted: usize) -> Vec<Rule> {
        let (mut rules, mut left) = (Vec::new(), self.busy.clone());
        let circles = if self.shape.ranks == Ranks::Below { 0 } else { *rng.pick(&[0, 0, 1, 1, 2]) };
        for _ in 0..circles {
            if !left.is_empty() {
                let pairs = self.circle_pairs(rng, &mut left);
                rules.extend(self.circle(rng, &pairs));
            }
        }
        rules.truncate(self.shape.rules);
        if !rules.is_empty() && rng.chance(1, 2) {
            wanted = rules.len();
        }
        while rules.len() < wanted {
            let list = if rng.chance(4, 5) { &self.busy } else { &self.all };
            let rival = if rng.chance(1, 3) { self.rival(rng, list, &rules) } else { None };
            let made = rival.unwrap_or_else(|| self.rule(rng, list, &rules));
            rules.push(made);
        }
        match rng.below(4) {
            0 => {}
            1 => rules.reverse(),
            _ => rng.shuffle(&mut rules),
        }
        rules
    }
}

/// Assignments to distinct slots.
fn assignments(rng: &mut Rng, assignable: &[Pair], most: usize) -> Vec<Pair> {
    let mut found: Vec<Pair> = Vec::new();
    let wanted = if rng.chance(1, 4) { most } else { 1 + rng.below(most.min(2)) };
    for _ in 0..8 * wanted {
        let pair = *rng.pick(assignable);
        if found.len() < wanted && found.iter().all(|other| other.0 != pair.0) {
            found.push(pair);
        }
    }
    found
}

/// The most rules of one chain: its pairs go round the slots and leave each of them a value.
pub const CHAIN: usize = SLOTS * (VALUES - 1) - 1;

/// A sketch of a shape.
pub fn sketch(rng: &mut Rng, shape: &Shape) -> Sketch {
    let count = |rng: &mut Rng, most: usize| if rng.chance(1, 4) { most } else { 1 + rng.below(most) };
    let slots = count(rng, shape.slots);
    let slot_names = names(rng, slots);
    let named = slot_names.into_iter().map(|name| {
        let values = count(rng, shape.values);
        (name, names(rng, values))
    });
    let names: Vec<(String, Vec<String>)> = named.collect();
    let lasts: Vec<u8> = names.iter().map(|slot| slot.1.len() as u8).collect();
    let likely: Vec<u8> = lasts.iter().map(|last| rng.below(*last as usize + 1) as u8).collect();
    let mut all = pairs_of(rng, &lasts);
    rng.shuffle(&mut all);
    let changing: Vec<Pair> = all.iter().copied().filter(|pair| likely[pair.0 as usize] != pair.1).collect();
    let busy = busy_pairs(rng, if changing.len() > 1 { &changing } else { &all });
    let ranks = ranks_of(rng, &all, shape.ranks);
    let wanted = count(rng, shape.rules);
    let ground = Ground { shape: *shape, all, busy, ranks, likely };
    let rules = if rng.chance(1, 20) { Vec::new() } else { ground.rules(rng, wanted) };
    Sketch { names, rules, likely: ground.likely }
}

/// A sketch whose rules are one chain, up to the program's limit of rules, plain, under NOT, or the one or the other; now and then closed to a circle.
pub fn chain(rng: &mut Rng) -> Sketch {
    let count = *rng.pick(&[8, SLOTS - 2, SLOTS - 2, SLOTS - 2, 120, PROGRAM.rules]);
    let nots = *rng.pick(&[0, 1, 2, 2]);
    let closed = rng.chance(1, 6);
    chain_of(rng, count, nots, closed)
}

/// A sketch whose rules are one chain of so many, at most `CHAIN`, closed to a circle or not: each waits for what the one before assigns, plainly or, so many times in two, under NOT with one trigger for all; in this order, in the other, or in any. Its pairs begin with a value or with NONE, of slots that then have a value which no pair of the chain has.
pub fn chain_of(rng: &mut Rng, count: usize, nots: usize, closed: bool) -> Sketch {
    let first = rng.below(2);
    let pair = |at: usize| ((at % SLOTS) as u8, (at / SLOTS + first) as u8);
    let values = count / SLOTS + 2;
    let trigger = (SLOTS as u8 - 1, values as u8);
    let mut rules: Vec<Rule> = Vec::new();
    for at in 0..count {
        let under_not = rng.chance(nots, 2);
        let test = Literal { becomes: true, negated: under_not, pair: pair(at) };
        rules.push(Rule {
            trigger: if under_not { trigger } else { pair(at) },
            literals: if under_not { vec![test] } else { Vec::new() },
            assignments: vec![if closed && at + 1 == count { pair(0) } else { pair(at + 1) }],
        });
    }
    match rng.below(3) {
        0 => rules.reverse(),
        1 => rng.shuffle(&mut rules),
        _ => {}
    }
    let slot_names = names(rng, SLOTS);
    let names = slot_names.into_iter().map(|name| (name, names(rng, values))).collect();
    let had = if first == 0 { values - 1 } else { 0 };
    Sketch { names, rules, likely: vec![had as u8; SLOTS] }
}

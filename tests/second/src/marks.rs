//! The response by marks: every slot's pairs with its values and with NONE are positive, negative or unknown, by section 6 of the RL paper and sections 3 and 6 of document 02.

use std::collections::BTreeSet;

use crate::editors::Caller;
use crate::response::{answered, counted, outcome, Answer, Changes, Firing, Outputs};
use crate::table::{Literal, Pair, Program, Rule, Table, NONE};
use crate::table31::tested_for_marks;
use crate::{refusal, Refusal};

/// The mark of a pair.
#[derive(Clone, Copy, PartialEq, Eq, PartialOrd, Ord, Debug)]
pub enum Mark {
    Positive,
    Negative,
    Unknown,
}

/// The truth of a test.
#[derive(Clone, Copy, PartialEq, Eq, Debug)]
pub enum Truth {
    True,
    False,
    Unknown,
}

/// A pair would be both positive and negative.
#[derive(Clone, Copy, PartialEq, Eq, Debug)]
pub struct Clash;

/// The mark of every pair, by slot and value, NONE first.
#[derive(Clone, PartialEq, Eq, PartialOrd, Ord, Debug)]
pub struct Marks(Vec<Vec<Mark>>);

impl Marks {
    /// Every pair of a program unknown.
    pub fn unknown(program: &Program) -> Marks {
        Marks(program.lasts.iter().map(|last| vec![Mark::Unknown; usize::from(*last) + 1]).collect())
    }

    /// The mark of a pair.
    pub fn of(&self, pair: Pair) -> Mark {
        self.0[usize::from(pair.0)][usize::from(pair.1)]
    }

    /// The pairs of a slot.
    pub fn slot(&self, slot: u8) -> Vec<Pair> {
        (NONE..self.0[usize::from(slot)].len() as u8).map(|value| (slot, value)).collect()
    }

    /// The pairs with a mark, by slot and value.
    pub fn with(&self, mark: Mark) -> Vec<Pair> {
        let all = (0..self.0.len() as u8).flat_map(|slot| self.slot(slot));
        all.filter(|pair| self.of(*pair) == mark).collect()
    }

    /// Marks a pair, which may be marked so already; a mark changes only from unknown.
    pub fn update(&mut self, pair: Pair, mark: Mark) -> Result<(), Clash> {
        let old = &mut self.0[usize::from(pair.0)][usize::from(pair.1)];
        if *old != Mark::Unknown && *old != mark {
            return Err(Clash);
        }
        *old = mark;
        Ok(())
    }

    /// Marks a pair positive and the other pairs of its slot negative.
    pub fn bring(&mut self, pair: Pair) -> Result<(), Clash> {
        let mark = |other: &Pair| if *other == pair { Mark::Positive } else { Mark::Negative };
        self.slot(pair.0).iter().try_for_each(|other| self.update(*other, mark(other)))
    }
}

/// The truth of `s |= v`.
pub fn had(card: &[u8], pair: Pair) -> Truth {
    if card[usize::from(pair.0)] == pair.1 {
        Truth::True
    } else {
        Truth::False
    }
}

/// The truth of `s *= v`.
pub fn becomes(card: &[u8], marks: &Marks, pair: Pair) -> Truth {
    match (had(card, pair), marks.of(pair)) {
        (Truth::True, _) | (_, Mark::Negative) => Truth::False,
        (_, Mark::Positive) => Truth::True,
        (_, Mark::Unknown) => Truth::Unknown,
    }
}

/// The truth of what stands under NOT.
pub fn not(truth: Truth) -> Truth {
    match truth {
        Truth::True => Truth::False,
        Truth::False => Truth::True,
        Truth::Unknown => Truth::Unknown,
    }
}

/// The truth of a literal.
pub fn truth(card: &[u8], marks: &Marks, literal: &Literal) -> Truth {
    let plain = if literal.becomes { becomes(card, marks, literal.pair) } else { had(card, literal.pair) };
    if literal.negated {
        not(plain)
    } else {
        plain
    }
}

/// What truths come to that AND joins: true where all of them are, false where one of them is, and unknown otherwise.
pub fn and(truths: impl IntoIterator<Item = Truth>) -> Truth {
    let mut unknown = false;
    for truth in truths {
        match truth {
            Truth::True => {}
            Truth::False => return Truth::False,
            Truth::Unknown => unknown = true,
        }
    }
    if unknown {
        Truth::Unknown
    } else {
        Truth::True
    }
}

/// The truth of a rule: its trigger and its literals joined by AND.
fn rule_truth(card: &[u8], marks: &Marks, rule: &Rule) -> Truth {
    let literals = rule.literals.iter().map(|literal| truth(card, marks, literal));
    and(std::iter::once(becomes(card, marks, rule.trigger)).chain(literals))
}

/// Whether a rule is 3-enabled.
pub fn is_true(card: &[u8], marks: &Marks, rule: &Rule) -> bool {
    rule_truth(card, marks, rule) == Truth::True
}

/// Whether a rule is 3-non-enabled.
pub fn is_false(card: &[u8], marks: &Marks, rule: &Rule) -> bool {
    rule_truth(card, marks, rule) == Truth::False
}

/// Whether a pair may be ruled out: it is unknown, and no rule assigns it, or every rule that does is false.
pub fn may_rule_out(rules: &[Rule], card: &[u8], marks: &Marks, pair: Pair) -> bool {
    let mut assigning = rules.iter().filter(|rule| rule.assignments.contains(&pair));
    marks.of(pair) == Mark::Unknown && assigning.all(|rule| is_false(card, marks, rule))
}

/// A moment of an order of selection: the marks, the positions of the fired rules in their order, and whether a pair came to be both positive and negative.
#[derive(Clone, PartialEq, Eq, Debug)]
pub struct Moment {
    pub marks: Marks,
    pub fired: Vec<usize>,
    pub clash: bool,
}

impl Moment {
    /// The start of every order: the pairs of the slip positive, the other pairs of their slots negative, nothing fired.
    pub fn start(program: &Program, slip: &[Pair]) -> Moment {
        let mut moment = Moment { marks: Marks::unknown(program), fired: Vec::new(), clash: false };
        moment.bring(slip);
        moment
    }

    /// Marks pairs positive; a clash is noted.
    fn bring(&mut self, pairs: &[Pair]) {
        self.clash |= pairs.iter().try_for_each(|pair| self.marks.bring(*pair)).is_err();
    }

    /// Whether a rule may be fired: nothing clashed, and the rule is unfired and true.
    pub fn may_fire(&self, rules: &[Rule], card: &[u8], at: usize) -> bool {
        !self.clash && is_true(card, &self.marks, &rules[at]) && !self.fired.contains(&at)
    }

    /// Fires a rule.
    pub fn fire(&mut self, rules: &[Rule], at: usize) {
        self.bring(&rules[at].assignments);
        self.fired.push(at);
    }

    /// Rules a pair out; it is unknown, so that nothing can clash.
    pub fn rule_out(&mut self, pair: Pair) {
        self.clash |= self.marks.update(pair, Mark::Negative).is_err();
    }
}

/// The pairs that may be ruled out: the unknown ones but for those that a rule assigns which is not false.
pub fn open_pairs(rules: &[Rule], card: &[u8], marks: &Marks) -> Vec<Pair> {
    let live: BTreeSet<Pair> =
        rules.iter().filter(|rule| !is_false(card, marks, rule)).flat_map(|rule| rule.assignments.clone()).collect();
    marks.with(Mark::Unknown).into_iter().filter(|pair| !live.contains(pair)).collect()
}

/// The end of one order of selection: the pairs that may be ruled out are, which takes none of them back; then each rule is fired, the lowest first, that may be; and so on.
pub fn selection(program: &Program, card: &[u8], slip: &[Pair]) -> Moment {
    let rules = &program.rules;
    let mut moment = Moment::start(program, slip);
    loop {
        let before = moment.clone();
        open_pairs(rules, card, &moment.marks).into_iter().for_each(|pair| moment.rule_out(pair));
        for at in 0..rules.len() {
            if moment.may_fire(rules, card, at) {
                moment.fire(rules, at);
            }
        }
        if moment == before {
            return moment;
        }
    }
}

/// What the end of an order comes to: its positive pairs and fired rules; 41 where a pair came to be both, 42 where one stays unknown.
pub fn decided(end: &Moment) -> Result<Firing, Refusal> {
    if end.clash {
        return Err(refusal(41, 0));
    }
    if !end.marks.with(Mark::Unknown).is_empty() {
        return Err(refusal(42, 0));
    }
    let changes: Changes = end.marks.with(Mark::Positive).into_iter().collect();
    Ok(Firing { changes, fired: end.fired.clone() })
}

/// The answer by marks to a card and a slip, or the refusal 31, 20 to 28, 30, 41 or 42.
pub fn answer(table: &Table, card: &[u8], slip: &[u8], rooms: [usize; 3]) -> Result<Answer, Refusal> {
    answered(tested_for_marks(table)?, card, slip, rooms, |program, card, slip| {
        outcome(program, card, &decided(&selection(program, card, slip))?)
    })
}

/// The response by marks: the changes' length or the refusal; 44 comes first and is not counted.
pub fn respond(table: &Table, caller: Caller, card: &[u8], slip: &[u8], outputs: Outputs) -> Result<usize, Refusal> {
    counted(caller.own()?, outputs, |rooms| answer(table, card, slip, rooms))
}

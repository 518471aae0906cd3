//! Inputs of rules in chains and circles of dependence: the same rules in the order of dependence, which suits passes best, last first, which suits them least, and shuffled.

use crate::input::{card_bytes, filled, slip_bytes, Input};
use crate::rng::Rng;
use crate::table::RULES;

/// The slots.
const SLOTS: usize = 32;

/// How many values a slot has, through how many links a chain goes, a rule from each to the next, and how many rules there are in all: those of a link differ in a literal.
#[derive(Clone, Copy)]
struct Size {
    values: usize,
    links: usize,
    rules: usize,
}

/// A rule for each link, and about four for each.
const SIZES: [Size; 2] =
    [Size { values: 8, links: 255, rules: 255 }, Size { values: 15, links: 15 * SLOTS - 1, rules: RULES }];

/// The slot and the value of a link where neighbours have different slots.
fn across(link: usize) -> (usize, usize) {
    (link % SLOTS, link / SLOTS)
}

/// A slot, a mark and a value in a rule.
fn pair((slot, value): (usize, usize), mark: &str) -> String {
    format!("s{slot} {mark} v{value}")
}

/// The trigger of a rule, its literals, and its assignment.
struct Rule {
    when: String,
    literals: Vec<String>,
    then: String,
}

impl Rule {
    /// A rule that waits for a link and brings another.
    fn plain(from: usize, to: usize) -> Rule {
        Rule { when: pair(across(from), "*="), literals: vec![], then: pair(across(to), ":=") }
    }

    /// A rule that waits for a link, unless another one came, and brings a third.
    fn unless(from: usize, barred: usize, to: usize) -> Rule {
        Rule { literals: vec![format!("NOT {}", pair(across(barred), "*="))], ..Rule::plain(from, to) }
    }

    /// The text of a copy of the rule: all but the first have one more literal, which holds, at their end.
    fn text(&self, copy: usize) -> String {
        let more = (copy > 0).then(|| format!("NOT {}", pair((0, copy + 1), "|=")));
        let literals: Vec<String> = self.literals.iter().cloned().chain(more).collect();
        let condition = if literals.is_empty() { "TRUE".to_string() } else { literals.join(" AND ") };
        format!("WHEN {} IF {condition} THEN {};", self.when, self.then)
    }
}

impl Size {
    /// The slot and the value of a link where as many neighbours as there are values share a slot.
    fn along(&self, link: usize) -> (usize, usize) {
        (link / self.values, link % self.values)
    }

    /// A chain of plain tests: all rules are in stratum 1, and the slip's link makes all of them fire.
    fn plain_chain(&self) -> Vec<Rule> {
        (0..self.links).map(|link| Rule::plain(link, link + 1)).collect()
    }

    /// A chain of plain tests whose first rule tests under NOT what a rule before it assigns, which stays idle: the chain is in stratum 2, and all of it fires.
    fn chain_behind_not(&self) -> Vec<Rule> {
        let idle = Rule { literals: vec![pair((0, 0), "|=")], ..Rule::plain(0, self.links) };
        let chain = (1..self.links - 1).map(|link| Rule::plain(link, link + 1));
        [idle, Rule::unless(0, self.links, 1)].into_iter().chain(chain).collect()
    }

    /// A chain under NOT: the rules of each link are in a stratum of their own and fire where the link before did not come and the card has the second value.
    /// It has that at the first link of each slot; those after it are stopped by their NOT, the others by the card. So no slot gets two values.
    fn chain_under_not(&self) -> Vec<Rule> {
        let rule = |link: usize| {
            let (slot, value) = self.along(link + 1);
            let not = format!("NOT {}", pair(self.along(link), "*="));
            let card = pair((slot, (value + 1) % self.values), "|=");
            Rule { when: pair((0, 0), "*="), literals: vec![not, card], then: pair((slot, value), ":=") }
        };
        (0..self.links).map(rule).collect()
    }

    /// A circle of plain tests: all rules are in stratum 1, and the slip's link makes all of them fire.
    fn plain_circle(&self) -> Vec<Rule> {
        (0..self.links).map(|link| Rule::plain(link, (link + 1) % self.links)).collect()
    }

    /// The same circle with one of its tests under NOT.
    fn circle_through_not(&self) -> Vec<Rule> {
        let last = self.links - 1;
        (0..last).map(|link| Rule::plain(link, link + 1)).chain([Rule::unless(self.links, last, 0)]).collect()
    }

    /// Plain circles tied by NOTs, the last one of fewer links: the first rule of each also tests under NOT a pair of the circle before. So each circle is in a stratum of its own, and the slip's link makes the rules of the first fire.
    fn tied_circles(&self) -> Vec<Rule> {
        let rule = |link: usize| {
            let first = link / ROUND * ROUND;
            let next = if link + 1 == self.links.min(first + ROUND) { first } else { link + 1 };
            if link == first && first > 0 {
                Rule::unless(link, link - ROUND, next)
            } else {
                Rule::plain(link, next)
            }
        };
        (0..self.links).map(rule).collect()
    }

    /// The texts of rules, each as often as there are rules for a link, the first ones once more where some are left.
    fn texts(&self, rules: Vec<Rule>) -> Vec<String> {
        let copies = |at: usize| self.rules / rules.len() + usize::from(at < self.rules % rules.len());
        rules.iter().enumerate().flat_map(|(at, rule)| (0..copies(at)).map(|copy| rule.text(copy))).collect()
    }

    /// The input of rules in an order, with one value, or none, in every slot of the card; the slip brings the first link.
    fn input(&self, name: &str, rules: Vec<Rule>, order: Order, card: usize) -> Input {
        let values: Vec<String> = (0..self.values).map(|value| format!("v{value}")).collect();
        let slots = (0..SLOTS).map(|slot| format!("SLOT s{slot} {{{}}};", values.join(", ")));
        let lines: Vec<String> = slots.chain(order(self.texts(rules))).collect();
        Input {
            name: format!("{} rules, {name}", self.rules),
            text: filled(&lines, 0),
            card: card_bytes(&[card; SLOTS]),
            slip: slip_bytes(&[(0, 1)]),
            series: None,
        }
    }

    /// All chains and circles. Where all links come, slots get two values and the response ends in 40, after all rules fired.
    fn inputs(&self) -> Vec<Input> {
        vec![
            self.input("plain chain, in order (40)", self.plain_chain(), in_order, 0),
            self.input("plain chain, last first (40)", self.plain_chain(), last_first, 0),
            self.input("plain chain behind a NOT, in order (40)", self.chain_behind_not(), in_order, 0),
            self.input("plain chain behind a NOT, last first (40)", self.chain_behind_not(), last_first, 0),
            self.input("chain under NOT, in order", self.chain_under_not(), in_order, 2),
            self.input("chain under NOT, last first", self.chain_under_not(), last_first, 2),
            self.input("plain circle, last first (40)", self.plain_circle(), last_first, 0),
            self.input("plain circles tied by NOTs, in order", self.tied_circles(), in_order, 0),
            self.input("plain circles tied by NOTs, last first", self.tied_circles(), last_first, 0),
            self.input("plain circles tied by NOTs, shuffled", self.tied_circles(), shuffled, 0),
            self.input("circle through a NOT, last first (18)", self.circle_through_not(), last_first, 0),
        ]
    }
}

/// How many links a plain circle has where there are several.
const ROUND: usize = 10;

/// What puts rules in an order.
type Order = fn(Vec<String>) -> Vec<String>;

/// Rules in the order of dependence.
fn in_order(rules: Vec<String>) -> Vec<String> {
    rules
}

/// Rules with the last first.
fn last_first(mut rules: Vec<String>) -> Vec<String> {
    rules.reverse();
    rules
}

/// Rules in an order that follows no dependence.
fn shuffled(mut rules: Vec<String>) -> Vec<String> {
    Rng(255).shuffle(&mut rules);
    rules
}

/// All chains and circles in all sizes.
pub fn chains() -> Vec<Input> {
    SIZES.iter().flat_map(Size::inputs).collect()
}

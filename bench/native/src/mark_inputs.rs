//! Inputs for the response by marks: rules by chance, growing, and chains and circles in several orders.

use crate::input::{card_bytes, filled, slip_bytes, Input, Series};
use crate::rng::Rng;
use crate::table::RULES;

/// The slots; the last is the slip's, and its first value starts all rules.
const SLOTS: usize = 32;
const START: usize = SLOTS - 1;

/// How many values a slot has where rules are by chance.
const VALUES: usize = 8;

/// How many values a slot has in chains and circles, and how many rules there are for each link: of a chain over slots that comes, of one under NOT, and of those through all values; and how many circles of two links.
struct Size {
    values: usize,
    coming: usize,
    under_not: usize,
    along: usize,
    circles: usize,
}

/// At most 255 rules.
const SMALL: Size = Size { values: VALUES, coming: 8, under_not: 8, along: 1, circles: 120 };

/// At most 2,000 rules.
const LARGE: Size = Size { values: 15, coming: 64, under_not: 66, along: 4, circles: 232 };

/// A slot, a mark and a value in a rule.
fn pair((slot, value): (usize, usize), mark: &str) -> String {
    format!("s{slot} {mark} v{value}")
}

/// A rule that the slip starts.
fn rule(literals: &[String], brought: &[(usize, usize)]) -> String {
    let condition = if literals.is_empty() { "TRUE".to_string() } else { literals.join(" AND ") };
    let list: Vec<String> = brought.iter().map(|of| pair(*of, ":=")).collect();
    format!("WHEN {} IF {condition} THEN {{{}}};", pair((START, 0), "*="), list.join(", "))
}

/// A test by `*=`, plain or under NOT.
fn test(negated: bool, of: (usize, usize)) -> String {
    format!("{}{}", if negated { "NOT " } else { "" }, pair(of, "*="))
}

/// Rules by chance with so many literals in a condition: they bring the first value of a slot or of two, so that no slot gets another, and test by `*=` pairs of lower slots, or of any, so that there are circles; a third of the tests are plain, a third under NOT, a third under NOT of values that no rule brings.
fn by_chance(rules: usize, literals: usize, circled: bool) -> Vec<String> {
    let mut rng = Rng((1000 * rules + literals) as u64);
    let made = |at: usize| {
        let slot = at * 7 % (START - 1);
        let mut tested = |_| {
            let other = rng.below(if circled { START } else { slot });
            match rng.below(3) {
                0 => test(false, (other, 0)),
                1 => test(true, (other, 0)),
                _ => test(true, (other, 1 + rng.below(VALUES - 1))),
            }
        };
        let tests: Vec<String> = (0..if slot == 0 { 0 } else { literals }).map(&mut tested).collect();
        rule(&tests, &[(slot, 0), (slot + 1, 0)][..1 + at % 2])
    };
    (0..rules).map(made).collect()
}

/// Rules that test a link of a chain over slots, plainly or under NOT, and bring the next.
fn step(link: usize, negated: bool, count: usize) -> impl Iterator<Item = String> {
    (0..count).map(move |_| rule(&[test(negated, (link, 0))], &[(link + 1, 0)]))
}

impl Size {
    /// A chain over slots, each link tested under NOT by the rules of the next: every other link comes.
    fn not_chain(&self) -> Vec<String> {
        (0..START - 1).flat_map(|link| step(link, true, self.under_not)).collect()
    }

    /// A chain of plain tests over slots that begins: all of it comes.
    fn coming_chain(&self) -> Vec<String> {
        let first = (0..self.coming).map(|_| rule(&[], &[(0, 0)]));
        first.chain((0..START - 1).flat_map(|link| step(link, false, self.coming))).collect()
    }

    /// How many links a chain through all values of one slot after another has.
    fn links(&self) -> usize {
        START * self.values
    }

    /// The slot and the value of a link of such a chain.
    fn link(&self, link: usize) -> (usize, usize) {
        (link / self.values, link % self.values)
    }

    /// The rules that test a link by `*=` and bring another, for each of some tested and brought.
    fn rules(&self, negated: bool, links: impl Iterator<Item = ((usize, usize), (usize, usize))>) -> Vec<String> {
        let rules = |(tested, brought)| vec![rule(&[test(negated, tested)], &[brought]); self.along];
        links.flat_map(rules).collect()
    }

    /// A chain of plain tests that nothing begins: one link after another is ruled out.
    fn fading_chain(&self) -> Vec<String> {
        self.rules(false, (1..self.links()).map(|link| (self.link(link - 1), self.link(link))))
    }

    /// The same chain of which each rule waits for the next.
    fn fading_back(&self) -> Vec<String> {
        self.rules(false, (1..self.links()).map(|link| (self.link(link), self.link(link - 1))))
    }

    /// A circle of plain tests, which nothing begins.
    fn circle(&self) -> Vec<String> {
        let next = |link: usize| self.link((link + 1) % self.links());
        self.rules(false, (0..self.links()).map(|link| (self.link(link), next(link))))
    }

    /// Circles of two links each through two NOTs.
    fn circles_through_not(&self) -> Vec<String> {
        let two = |circle: usize| {
            let [one, other] = [2 * circle, 2 * circle + 1].map(|at| (at % START, 2 * circle / START));
            [(one, other), (other, one)]
        };
        self.rules(true, (0..self.circles).flat_map(two))
    }

    /// The input of rules with a card without values and the slip that starts them.
    fn input(&self, name: String, rules: Vec<String>) -> Input {
        let values: Vec<String> = (0..self.values).map(|value| format!("v{value}")).collect();
        let slots = (0..SLOTS).map(|slot| format!("SLOT s{slot} {{{}}};", values.join(", ")));
        let lines: Vec<String> = slots.chain(rules).collect();
        let (card, slip) = (card_bytes(&[0; SLOTS]), slip_bytes(&[(START, 1)]));
        Input { name, text: filled(&lines, 0), card, slip, series: None }
    }

    /// Rules in their order, the last first, and shuffled.
    fn orders(&self, name: &str, rules: Vec<String>) -> [Input; 3] {
        let (mut back, mut shuffled) = (rules.clone(), rules.clone());
        back.reverse();
        Rng(7).shuffle(&mut shuffled);
        [("in order", rules), ("last first", back), ("shuffled", shuffled)]
            .map(|(order, rules)| self.input(format!("{} rules, {name}, {order}", rules.len()), rules))
    }

    /// All chains and circles in all orders.
    fn inputs(&self) -> Vec<Input> {
        [
            self.orders("NOT-chain over 31 slots", self.not_chain()),
            self.orders("plain chain that comes", self.coming_chain()),
            self.orders("plain chain that fades", self.fading_chain()),
            self.orders("plain chain that fades, backward", self.fading_back()),
            self.orders("plain circle without a cause", self.circle()),
            self.orders("circles through NOT", self.circles_through_not()),
        ]
        .into_iter()
        .flatten()
        .collect()
    }
}

/// Rules of four assignments and eight literals, of which the last is false or not.
fn many_assignments(rules: usize, idle: bool) -> Vec<String> {
    let made = |at: usize| {
        let mut tests: Vec<String> = (0..7).map(|k| test(true, ((at + k) % START, 1 + k))).collect();
        tests.push(test(idle, (START, 0)));
        rule(&tests, &[0, 1, 2, 3].map(|k| ((at + k) % START, 0)))
    };
    (0..rules).map(made).collect()
}

/// The input of so many rules by chance.
fn chance_input(rules: usize, literals: usize) -> Input {
    let word = if rules == 1 { "rule" } else { "rules" };
    let name = format!("{rules} {word} by chance, {literals} in a condition");
    Input { series: Some(Series::Growing), ..SMALL.input(name, by_chance(rules, literals, false)) }
}

/// The input of so many rules by chance among which there are circles.
fn circled_input(rules: usize) -> Input {
    SMALL.input(format!("{rules} rules by chance, any circles"), by_chance(rules, 4, true))
}

/// The inputs of so many rules of eight literals and four assignments.
fn full_inputs(rules: usize) -> [Input; 2] {
    [("", false), (", all false", true)].map(|(more, idle)| {
        let name = format!("{rules} rules, 8 literals, 4 assignments{more}");
        SMALL.input(name, many_assignments(rules, idle))
    })
}

/// All inputs for the response by marks, the growing ones first. With eight literals and four assignments there are 1,000 rules at the most: 2,000 would be too many bytes.
pub fn mark_inputs() -> Vec<Input> {
    let growing = [1, 2, 4, 8, 16, 32, 64, 128, 255, 500, 1000, RULES].map(|rules| (rules, 4));
    let wider = [(255, 1), (255, 2), (255, 8), (RULES, 1), (RULES, 2)];
    let mut inputs: Vec<Input> =
        growing.into_iter().chain(wider).map(|(rules, literals)| chance_input(rules, literals)).collect();
    inputs.extend([255, RULES].map(circled_input));
    inputs.extend([255, 1000].into_iter().flat_map(full_inputs));
    inputs.extend([SMALL, LARGE].iter().flat_map(Size::inputs));
    inputs
}

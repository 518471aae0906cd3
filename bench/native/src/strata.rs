//! The least strata in one search of the dependences, and the lowest rule on a circle through a NOT.

use crate::table::{place, Rule, Table, ASSIGNMENTS, PAIRS, RULES};

/// The nodes of the search: the pairs, then the rules.
const NODES: usize = PAIRS + RULES;

/// The low of a node whose set is closed.
const CLOSED: u16 = u16::MAX;

/// The least number of a set with a NOT inside it.
const CIRCLED: u16 = 1 << 15;

/// The dependences of a table's rules, kept from one reading to the next: a rule waits for the pairs that it tests by `*=`, a pair for the rules that assign it.
/// The search is Tarjan's: of the nodes that wait for each other it makes sets, and closes each after those that it waits for, so that its number is known then.
pub struct Graph {
    /// Of each pair the first assignment of it, four to a rule, from 1; 0 is none.
    heads: [u16; PAIRS],
    /// Of each assignment the next of the same pair.
    nexts: [u16; RULES * ASSIGNMENTS],
    /// Of each node 0 before it is met; then when the earliest node known to be in its set was met; then CLOSED.
    lows: [u16; NODES],
    /// Of each node met the highest number that its set is known to need, and the set's number once that is closed.
    numbers: [u16; NODES],
    /// The nodes of open sets in the order they were met.
    open: [u16; NODES],
    /// How many nodes are in open sets.
    top: usize,
    /// How many nodes were met.
    met: u16,
    /// The lowest rule, from 0, of the closed sets with a NOT inside; RULES where there is none.
    lowest: usize,
}

/// What is known of the set of a node while the node is visited.
struct Visit {
    node: usize,
    met: u16,
    low: u16,
    high: u16,
}

impl Graph {
    /// No dependences.
    pub fn new() -> Graph {
        Graph {
            heads: [0; PAIRS],
            nexts: [0; RULES * ASSIGNMENTS],
            lows: [0; NODES],
            numbers: [0; NODES],
            open: [0; NODES],
            top: 0,
            met: 0,
            lowest: RULES,
        }
    }

    /// Lists who assigns each pair, and forgets the last search.
    fn build(&mut self, rules: &[Rule]) {
        self.heads = [0; PAIRS];
        self.lows[..PAIRS + rules.len()].fill(0);
        (self.top, self.met, self.lowest) = (0, 0, RULES);
        for (at, rule) in rules.iter().enumerate() {
            for (k, a) in rule.assignments().iter().enumerate() {
                let (head, link) = (&mut self.heads[place(a.slot, a.value)], at * ASSIGNMENTS + k);
                self.nexts[link] = *head;
                *head = link as u16 + 1;
            }
        }
    }

    /// Begins the visit of a node that was not met, whose set needs a number at least.
    #[inline]
    fn enter(&mut self, node: usize, least: u16) -> Visit {
        self.met += 1;
        self.lows[node] = self.met;
        self.numbers[node] = least;
        self.open[self.top] = node as u16;
        self.top += 1;
        Visit { node, met: self.met, low: self.met, high: least }
    }

    /// Takes in what is known of a node that the visited one waits for, plainly or under NOT.
    #[inline]
    fn take(&self, visit: &mut Visit, node: usize, negated: bool) {
        let (low, number) = (self.lows[node], self.numbers[node]);
        let needed = match (negated, low) {
            (false, _) => number,
            (true, CLOSED) => number + 1,
            (true, _) => CIRCLED,
        };
        visit.low = visit.low.min(low);
        visit.high = visit.high.max(needed);
    }

    /// Ends a visit: where no node met before belongs to the set it is closed, with the nodes met since.
    #[inline]
    fn leave(&mut self, visit: Visit) {
        if visit.low < visit.met {
            self.lows[visit.node] = visit.low;
            self.numbers[visit.node] = visit.high;
            return;
        }
        let mut node = NODES;
        while node != visit.node {
            self.top -= 1;
            node = self.open[self.top] as usize;
            self.lows[node] = CLOSED;
            self.numbers[node] = visit.high % CIRCLED;
            if visit.high >= CIRCLED && node >= PAIRS {
                self.lowest = self.lowest.min(node - PAIRS);
            }
        }
    }

    /// Visits a pair that was not met, and the rules that assign it.
    fn visit_pair(&mut self, rules: &[Rule], pair: usize) {
        let mut visit = self.enter(pair, 0);
        let mut link = self.heads[pair];
        while link != 0 {
            let at = (link as usize - 1) / ASSIGNMENTS;
            link = self.nexts[link as usize - 1];
            if self.lows[PAIRS + at] == 0 {
                self.visit_rule(rules, at);
            }
            self.take(&mut visit, PAIRS + at, false);
        }
        self.leave(visit);
    }

    /// Visits a rule that was not met, and the pairs that it tests by `*=`; no visit is more than 1,024 deep in others, since each is of another node, rules and pairs take turns, and there are 512 pairs.
    fn visit_rule(&mut self, rules: &[Rule], at: usize) {
        let rule = &rules[at];
        let mut visit = self.enter(PAIRS + at, 1);
        let mut test = |pair: usize, negated: bool| {
            if self.lows[pair] == 0 {
                self.visit_pair(rules, pair);
            }
            self.take(&mut visit, pair, negated);
        };
        test(place(rule.slot, rule.value), false);
        for literal in rule.literals() {
            if literal.becomes {
                test(place(literal.slot, literal.value), literal.negated);
            }
        }
        self.leave(visit);
    }
}

impl Default for Graph {
    fn default() -> Graph {
        Graph::new()
    }
}

/// Writes the least strata into a table that was just read, or gives the lowest rule on a circle through a NOT, from 1.
pub fn layer(table: &mut Table, graph: &mut Graph) -> Result<(), usize> {
    let rules = &mut table.rules[..table.count as usize];
    graph.build(rules);
    for at in 0..rules.len() {
        if graph.lows[PAIRS + at] == 0 {
            graph.visit_rule(rules, at);
        }
    }
    if graph.lowest < RULES {
        return Err(graph.lowest + 1);
    }
    rules.iter_mut().zip(&graph.numbers[PAIRS..]).for_each(|(rule, number)| rule.stratum = *number);
    Ok(())
}

//! The pairs marked positive or negative and the rules fired by that: each test, each assignment and each pair handled once.

use crate::cards::Changes;
use crate::firing::Fired;
use crate::room::Room;
use crate::table::{place, Rule, LITERALS, PAIRS, ROW, RULES, SLOTS};
use crate::test31::Lasts;

/// The places of a rule where it can test a pair by `*=`: its trigger and its literals.
const PLACES: usize = LITERALS + 1;

/// How many tests a rule is said to wait for that has a false one; what is taken off leaves it above every true count.
const FALSE: u8 = 0x80;
const MOST: u8 = 0x40;

/// A slot, a bit for NONE and for each of its values: those that it has, the card's, those positive, those negative.
#[derive(Clone, Copy, Default)]
struct Slot {
    declared: u16,
    had: u16,
    positive: u16,
    negative: u16,
}

/// Marks under way. Its lists of tests have a first test, and for each test the next; from 1, and 0 is none.
struct Marking<'a> {
    rules: &'a [Rule],
    slots: [Slot; SLOTS],
    /// The lists of the tests of each unknown pair, the plain ones and those under NOT.
    tests: [[u16; PAIRS]; 2],
    nexts: &'a mut [u16],
    /// For each rule how many of its tests are not yet true, or FALSE.
    waits: &'a mut [u8],
    /// For each pair how many rules assign it that are not false.
    live: [u16; PAIRS],
    /// The pairs just marked that have tests, and how many were put there.
    line: [u16; PAIRS],
    count: usize,
    fired: Fired,
}

/// A pair would be both positive and negative.
struct Clash;

impl Marking<'_> {
    /// Puts a pair in line if it has tests.
    #[inline]
    fn put(&mut self, pair: usize) {
        if self.tests[0][pair] | self.tests[1][pair] != 0 {
            self.line[self.count % PAIRS] = pair as u16;
            self.count += 1;
        }
    }

    /// Marks values of a slot negative that are unknown.
    #[inline]
    fn rule_out(&mut self, slot: usize, mut values: u16) {
        self.slots[slot].negative |= values;
        while values != 0 {
            self.put(slot * ROW + values.trailing_zeros() as usize);
            values &= values - 1;
        }
    }

    /// Marks a pair positive, and the other values of its slot negative.
    #[inline]
    fn bring(&mut self, slot: usize, bit: u16) -> Result<(), Clash> {
        let marks = self.slots[slot];
        if marks.negative & bit != 0 {
            return Err(Clash);
        }
        if marks.positive & bit == 0 {
            self.slots[slot].positive = bit;
            self.put(slot * ROW + bit.trailing_zeros() as usize);
            self.rule_out(slot, marks.declared & !bit & !marks.negative);
        }
        Ok(())
    }

    /// Fires a rule.
    #[inline]
    fn fire(&mut self, at: usize) -> Result<(), Clash> {
        self.fired[at / 64] |= 1 << (63 - at % 64);
        let rules = self.rules;
        rules[at].assignments().iter().try_for_each(|a| self.bring(a.slot as usize % SLOTS, 1 << (a.value & 15)))
    }

    /// Makes a rule false that was not, and rules out the pairs that no other rule is left for.
    #[inline]
    fn come_false(&mut self, at: usize) {
        if self.waits[at] > MOST {
            return;
        }
        self.waits[at] = FALSE;
        let rules = self.rules;
        for a in rules[at].assignments() {
            let live = &mut self.live[place(a.slot, a.value)];
            *live -= 1;
            if *live == 0 {
                let slot = a.slot as usize % SLOTS;
                let marks = self.slots[slot];
                self.rule_out(slot, 1 << (a.value & 15) & !marks.positive & !marks.negative);
            }
        }
    }

    /// Whether a test by `*=` is true, and whether it is false, by the marks so far.
    #[inline]
    fn turns(&self, slot: u8, value: u8) -> (bool, bool) {
        let marks = &self.slots[slot as usize % SLOTS];
        let has = |bits: u16| bits >> (value & 15) & 1 == 1;
        (has(marks.positive & !marks.had), has(marks.negative | marks.had))
    }

    /// Looks at a rule: what the card and the marks so far leave unknown of its tests stands in lists; it fires where nothing is left, and is out at a false test.
    #[inline]
    fn look(&mut self, at: usize) -> Result<(), Clash> {
        let rules = self.rules;
        let rule = &rules[at];
        let mut waits = 0;
        let (is_true, is_false) = self.turns(rule.slot, rule.value);
        if is_false {
            self.come_false(at);
            return Ok(());
        }
        if !is_true {
            self.chain(at * PLACES, false, place(rule.slot, rule.value));
            waits += 1;
        }
        for (k, l) in rule.literals().iter().enumerate() {
            let (is_true, is_false) = if l.becomes {
                self.turns(l.slot, l.value)
            } else {
                let had = self.slots[l.slot as usize % SLOTS].had >> (l.value & 15) & 1 == 1;
                (had, !had)
            };
            if if l.negated { is_true } else { is_false } {
                self.come_false(at);
                return Ok(());
            }
            if !(is_true | is_false) {
                self.chain(at * PLACES + k + 1, l.negated, place(l.slot, l.value));
                waits += 1;
            }
        }
        self.waits[at] = waits;
        if waits == 0 {
            self.fire(at)?;
        }
        Ok(())
    }

    /// Puts a test in its pair's list.
    #[inline]
    fn chain(&mut self, link: usize, negated: bool, pair: usize) {
        self.nexts[link] = std::mem::replace(&mut self.tests[negated as usize][pair], link as u16 + 1);
    }

    /// Goes through the line: the tests of each pair come true or false; a rule fires when its last test does.
    #[inline]
    fn run(&mut self) -> Result<(), Clash> {
        let mut done = 0;
        while done < self.count {
            let pair = self.line[done % PAIRS] as usize % PAIRS;
            done += 1;
            let positive = self.slots[pair / ROW].positive >> (pair % ROW) & 1 == 1;
            let mut link = self.tests[!positive as usize][pair] as usize;
            while link != 0 {
                let at = (link - 1) / PLACES;
                self.waits[at] -= 1;
                if self.waits[at] == 0 {
                    self.fire(at)?;
                }
                link = self.nexts[link - 1] as usize;
            }
            link = self.tests[positive as usize][pair] as usize;
            while link != 0 {
                self.come_false((link - 1) / PLACES);
                link = self.nexts[link - 1] as usize;
            }
        }
        Ok(())
    }

    /// Marks the slip's pairs and the pairs that no rule assigns, looks at every rule, and goes through the line.
    #[inline]
    fn mark(&mut self, slip: &Changes) -> Result<(), Clash> {
        let mut assigned = [0; SLOTS];
        for a in self.rules.iter().flat_map(|rule| rule.assignments()) {
            self.live[place(a.slot, a.value)] += 1;
            assigned[a.slot as usize % SLOTS] |= 1 << (a.value & 15);
        }
        for slot in 0..SLOTS {
            let declared = self.slots[slot].declared;
            self.slots[slot].positive = slip[slot];
            self.slots[slot].negative = declared & !if slip[slot] != 0 { slip[slot] } else { assigned[slot] };
        }
        (0..self.rules.len()).try_for_each(|at| self.look(at))?;
        self.run()
    }
}

/// Marks the pairs of a table in order on a card's values, from the slip's changes on, to which the positive pairs are added; gives the fired rules, or 41 or 42.
#[inline]
pub fn mark(rules: &[Rule], lasts: &Lasts, values: &[u8; SLOTS], changes: &mut Changes) -> Result<Fired, u8> {
    let slot = |slot: usize| {
        let declared = if lasts[slot] == 0 { 0 } else { ((2u32 << lasts[slot]) - 1) as u16 };
        Slot { declared, had: 1 << values[slot], ..Slot::default() }
    };
    let mut nexts = Room::<u16, { RULES * PLACES }>::new();
    let mut waits = Room::<u8, RULES>::new();
    let mut marking = Marking {
        rules,
        slots: std::array::from_fn(slot),
        tests: [[0; PAIRS]; 2],
        nexts: nexts.filled(rules.len() * PLACES, 0),
        waits: waits.filled(rules.len(), 0),
        live: [0; PAIRS],
        line: [0; PAIRS],
        count: 0,
        fired: Fired::default(),
    };
    marking.mark(changes).map_err(|Clash| 41)?;
    *changes = marking.slots.map(|marks| marks.positive);
    if marking.slots.iter().all(|marks| marks.positive | marks.negative == marks.declared) {
        Ok(marking.fired)
    } else {
        Err(42)
    }
}

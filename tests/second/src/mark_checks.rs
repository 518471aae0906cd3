//! Sections 3 and 5 of document 02 by experiment: all orders of selection end alike and as the response by marks does; firing orders, the strata response, rearranged files and files with their literals in another order agree with it.

use std::collections::{BTreeMap, BTreeSet};

use crate::cards::{card_bytes, slip_bytes, unpack_slip};
use crate::engine::{Engine, Way};
use crate::firing_checks::{check_rearranged, fired_positions, given, given_by, Given};
use crate::gen::{card_values, plain_file, slip_changes, File, Rng};
use crate::gen_marks::small;
use crate::gen_text::Sketch;
use crate::kinds::Kind;
use crate::mark_kinds::mark_kinds;
use crate::marks::{decided, Mark, Moment};
use crate::orders::{complete_orders, complete_sets, consistent_ends};
use crate::other_strata::falling;
use crate::raw::{CARD_BYTES, FIRED_BYTES};
use crate::response::{outcome, Changes};
use crate::selections::{chance_selection, complete_selections, end};
use crate::strata::{least, strata, waits};
use crate::table::{Pair, Program, Table};
use crate::table31::unlayered;
use crate::Refusal;

/// The most moments of all orders of selection, and how many orders are tried by chance where there are more.
const MOMENTS: usize = 3_000;
const CHANCES: usize = 30;

/// How often a response by marks was an answer, 41 and 42.
#[derive(Default, Debug)]
pub struct Outcomes {
    pub answers: usize,
    pub clashes: usize,
    pub unknowns: usize,
}

impl Outcomes {
    /// Counts a response.
    fn count(&mut self, given: &Given) {
        match given.refused.map(|why| why.number) {
            None => self.answers += 1,
            Some(41) => self.clashes += 1,
            _ => self.unknowns += 1,
        }
    }
}

/// What was counted over many checks: responses of files that 18 refuses, of files with strata, and of those with strata in which plain tests fall too; how often all orders of selection were tried, and how often some by chance; of the answers those where a firing order comes to a conflict; of those with 41 those that leave a pair unknown; those with 42 where the strata response answers, and where it gives 40; the files whose literals came into another order; the kinds of responses.
#[derive(Default, Debug)]
pub struct MarkCounts {
    pub circled: Outcomes,
    pub layered: Outcomes,
    pub strict: Outcomes,
    pub all_orders: usize,
    pub by_chance: usize,
    pub conflicting_orders: usize,
    pub clashes_with_unknown: usize,
    pub unknown_answered: usize,
    pub unknown_conflicts: usize,
    pub moved: usize,
    pub kinds: BTreeMap<Kind, usize>,
}

/// A file with what is asked of it: its sketch, its program, its table as read without test 18, and a card and a slip.
struct Asked<'a> {
    text: &'a [u8],
    sketch: &'a Sketch,
    program: &'a Program,
    table: &'a Table,
    card: &'a [u8],
    slip: &'a [Pair],
}

impl Asked<'_> {
    /// The packed card and slip.
    fn packed(&self) -> (Vec<u8>, Vec<u8>) {
        (card_bytes(self.card), slip_bytes(self.slip))
    }
}

/// Fails with what is said.
fn demand(holds: bool, why: impl FnOnce() -> String) -> Result<(), String> {
    if holds {
        Ok(())
    } else {
        Err(why())
    }
}

/// The ends of all orders of selection, or of some by chance where they are too many.
fn selections(asked: &Asked, rng: &mut Rng, counts: &mut MarkCounts) -> Vec<Moment> {
    let Asked { program, card, slip, .. } = asked;
    match complete_selections(program, card, slip, MOMENTS) {
        Some(ends) => {
            counts.all_orders += 1;
            ends
        }
        None => {
            counts.by_chance += 1;
            (0..CHANCES).map(|_| chance_selection(rng, program, card, slip)).collect()
        }
    }
}

/// What a response gives that comes to the end of an order of selection.
fn wanted(asked: &Asked, moment: &Moment) -> Given {
    let answer = decided(moment).and_then(|firing| outcome(asked.program, asked.card, &firing));
    let padded = |bytes: &[u8], size: usize| [bytes, &vec![0; size - bytes.len()]].concat();
    match answer {
        Ok(answer) => Given {
            refused: None,
            card: padded(&answer.card, CARD_BYTES),
            changes: answer.changes,
            fired: padded(&answer.fired, FIRED_BYTES),
        },
        Err(why) => {
            Given { refused: Some(why), card: vec![0; CARD_BYTES], changes: Vec::new(), fired: vec![0; FIRED_BYTES] }
        }
    }
}

/// Checks that all orders of selection end in the same marks and fired rules, or all in a clash, and as the response gave.
fn check_selections(asked: &Asked, given: &Given, rng: &mut Rng, counts: &mut MarkCounts) -> Result<(), String> {
    let ends = selections(asked, rng, counts);
    let different: BTreeSet<_> = ends.iter().map(end).collect();
    demand(different.len() == 1, || format!("orders of selection differ: {different:?}"))?;
    let wanted = wanted(asked, &ends[0]);
    demand(*given == wanted, || format!("by marks {given:?}, the orders of selection {wanted:?}"))?;
    let left = ends.iter().all(|moment| !moment.marks.with(Mark::Unknown).is_empty());
    counts.clashes_with_unknown += usize::from(ends[0].clash && left);
    Ok(())
}

/// Checks the complete and consistent firing orders that end with no slot holding two values: where the response answers there is one at least, and each has its changes and fired rules; where it gives 41 there is none.
fn check_firing(asked: &Asked, given: &Given, counts: &mut MarkCounts) -> Result<(), String> {
    let Asked { program, card, slip, .. } = asked;
    let rules = &program.rules;
    let moments = complete_orders(rules, card, slip, MOMENTS).or_else(|| complete_sets(rules, card, slip, MOMENTS));
    let ends = match moments {
        Some(moments) => consistent_ends(rules, card, &moments),
        None => return Ok(()),
    };
    let single: Vec<(Changes, BTreeSet<usize>)> =
        ends.iter().filter(|end| end.conflict.is_none()).map(|end| (end.changes.clone(), end.fired.clone())).collect();
    match given.refused.map(|why| why.number) {
        None => {
            let slip = unpack_slip(program, &given.changes).map_err(|why| format!("{why:?}"))?;
            let ours = (slip.into_iter().collect(), fired_positions(&given.fired));
            counts.conflicting_orders += usize::from(ends.len() > single.len());
            demand(single == [ours], || format!("by marks {given:?}, the firing orders {single:?}"))
        }
        Some(41) => demand(single.is_empty(), || format!("41, and yet firing orders end in {single:?}")),
        _ => Ok(()),
    }
}

/// Checks what the strata response and this one have to do with each other: a table with strata gives here what it gives with zeros; two answers are equal; an answer here is none of a conflict there; and where plain tests can fall too, 42 does not come and 41 stands for 40.
fn check_strata(engine: &mut dyn Engine, asked: &Asked, ours: &Given, counts: &mut MarkCounts) -> Result<(), String> {
    let (card, slip) = asked.packed();
    let by_strata_of_zeros = given(engine, asked.table, &card, &slip).refused.map(|why| why.number);
    let is_31 = by_strata_of_zeros == Some(31);
    demand(is_31 == (asked.table.count > 0), || format!("by strata, stratum 0 gives {by_strata_of_zeros:?}"))?;
    let (refused, table) = engine.read(asked.text);
    let has_strata = strata(&asked.program.rules).is_ok();
    demand(refused.is_none() == has_strata, || format!("reading gives {refused:?}"))?;
    if !has_strata {
        counts.circled.count(ours);
        return Ok(());
    }
    counts.layered.count(ours);
    let layered = given_by(engine, Way::Marks, &table, &card, &slip);
    demand(layered == *ours, || format!("by marks with strata {layered:?}, with zeros {ours:?}"))?;
    let theirs = given(engine, &table, &card, &slip);
    let [number, other] = [ours, &theirs].map(|given| given.refused.map_or(0, |why: Refusal| why.number));
    demand(number != 0 || *ours == theirs, || format!("by marks {ours:?}, by strata {theirs:?}"))?;
    counts.unknown_answered += usize::from((number, other) == (42, 0));
    counts.unknown_conflicts += usize::from((number, other) == (42, 40));
    if least(&falling(&waits(&asked.program.rules))).is_some() {
        counts.strict.count(ours);
        let agree = matches!((number, other), (0, 0) | (41, 40));
        demand(agree, || format!("strict strata: by marks {ours:?}, by strata {theirs:?}"))?;
    }
    Ok(())
}

/// A file with the literals of each condition in an order by chance.
fn moved_literals(rng: &mut Rng, sketch: &Sketch) -> File {
    let mut moved = sketch.clone();
    moved.rules.iter_mut().for_each(|rule| rng.shuffle(&mut rule.literals));
    plain_file(rng, moved)
}

/// Checks that the file with its literals in another order gives the same.
fn check_moved(
    engine: &mut dyn Engine,
    asked: &Asked,
    given: &Given,
    rng: &mut Rng,
    counts: &mut MarkCounts,
) -> Result<(), String> {
    let moved = moved_literals(rng, asked.sketch);
    counts.moved += usize::from(moved.sketch.rules != asked.sketch.rules);
    let (refused, table) = engine.read_unlayered(&moved.text);
    let (card, slip) = asked.packed();
    let other = given_by(engine, Way::Marks, &table, &card, &slip);
    let same = refused.is_none() && other == *given;
    let text = String::from_utf8_lossy(&moved.text);
    demand(same, || format!("with literals in another order {refused:?} {other:?}, not {given:?}\n{text}"))
}

/// Checks one card and slip of a file; what fails is said.
fn check(engine: &mut dyn Engine, asked: &Asked, rng: &mut Rng, counts: &mut MarkCounts) -> Result<(), String> {
    let (card, slip) = asked.packed();
    let given = given_by(engine, Way::Marks, asked.table, &card, &slip);
    mark_kinds(asked.table, &card, &slip).into_iter().for_each(|kind| *counts.kinds.entry(kind).or_default() += 1);
    check_selections(asked, &given, rng, counts)?;
    check_firing(asked, &given, counts)?;
    check_strata(engine, asked, &given, counts)?;
    check_moved(engine, asked, &given, rng, counts)?;
    check_rearranged(engine, Way::Marks, asked.text, asked.table, (&card, &slip), rng)
}

/// The program of a small file as an engine reads it without test 18, and its table; what is wrong with them is said.
fn read(engine: &mut dyn Engine, file: &File) -> Result<(Program, Box<Table>), String> {
    let (refused, table) = engine.read_unlayered(&file.text);
    demand(refused.is_none(), || format!("reading without test 18 gives {refused:?}"))?;
    let program = unlayered(&table).map_err(|why| format!("reading without test 18 gives a table with {why:?}"))?;
    let zeros = vec![0; program.rules.len()];
    demand(program.strata == zeros && program.rules == file.sketch.rules, || format!("read as {program:?}"))?;
    Ok((program, table))
}

/// Checks a generated small file on several cards and slips; what fails is said.
pub fn check_small(engine: &mut dyn Engine, seed: u64, counts: &mut MarkCounts) -> Result<(), String> {
    let mut rng = Rng::new(seed);
    let sketch = small(&mut rng);
    let file = plain_file(&mut rng, sketch);
    let said = |why: String| format!("seed {seed}: {why}\n{}", String::from_utf8_lossy(&file.text));
    let (program, table) = read(engine, &file).map_err(said)?;
    for _ in 0..4 {
        let card = card_values(&mut rng, &file.sketch);
        let slip = slip_changes(&mut rng, &file.sketch);
        let File { text, sketch } = &file;
        let asked = Asked { text, sketch, program: &program, table: &table, card: &card, slip: &slip };
        let checked = check(engine, &asked, &mut rng, counts);
        checked.map_err(|why| format!("{}\ncard {card:?} slip {slip:?}", said(why)))?;
    }
    Ok(())
}

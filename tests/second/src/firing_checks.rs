//! Demand 3 by experiment: every complete and consistent firing order ends as the response does, and rearranged files agree.

use std::collections::{BTreeMap, BTreeSet};

use crate::cards::{card_bytes, slip_bytes, unpack_card, unpack_slip};
use crate::editors::{fresh, Caller};
use crate::engine::{Engine, Way};
use crate::gen::{card_values, plain_file, slip_changes, Rng};
use crate::gen_rules::{sketch, Ranks, Shape};
use crate::kinds::{response_kinds, text_kinds, Kind};
use crate::orders::{complete_orders, complete_sets, consistent_ends, end, End, Moment};
use crate::raw::{CARD_BYTES, FIRED_BYTES, SLIP_BYTES};
use crate::response::{Changes, Outputs};
use crate::strata::strata;
use crate::table::Table;
use crate::table31::tested;
use crate::text::pieces;
use crate::Refusal;

/// What a response gave: its refusal or the bytes it wrote.
#[derive(Clone, PartialEq, Eq, Debug)]
pub struct Given {
    pub refused: Option<Refusal>,
    pub card: Vec<u8>,
    pub changes: Vec<u8>,
    pub fired: Vec<u8>,
}

/// The response of an engine by a way to a caller, with long outputs.
pub fn given_to(engine: &mut dyn Engine, way: Way, table: &Table, caller: Caller, card: &[u8], slip: &[u8]) -> Given {
    let (mut new, mut changes, mut fired) = (vec![0; CARD_BYTES], vec![0; SLIP_BYTES], vec![0; FIRED_BYTES]);
    let outputs = Outputs { card: &mut new, changes: &mut changes, fired: &mut fired };
    let result = engine.respond(way, table, caller, card, slip, outputs);
    changes.truncate(result.unwrap_or(0));
    Given { refused: result.err(), card: new, changes, fired }
}

/// The response of an engine by a way to editor 1 on fresh records.
pub fn given_by(engine: &mut dyn Engine, way: Way, table: &Table, card: &[u8], slip: &[u8]) -> Given {
    given_to(engine, way, table, Caller { records: &mut fresh(), editor: 1 }, card, slip)
}

/// The strata response of an engine to editor 1 on fresh records.
pub fn given(engine: &mut dyn Engine, table: &Table, card: &[u8], slip: &[u8]) -> Given {
    given_by(engine, Way::Strata, table, card, slip)
}

/// The positions of the one bits of a fired record.
pub fn fired_positions(record: &[u8]) -> BTreeSet<usize> {
    (0..record.len() * 8).filter(|at| record[at / 8] >> (7 - at % 8) & 1 == 1).collect()
}

/// What was counted over many checks: files refused and accepted; responses answered and in conflict; complete orders; responses where several rules fire; responses where some complete order is not consistent; the longest order; rearranged files; the kinds of files and responses.
#[derive(Default, Debug)]
pub struct Counts {
    pub refused: usize,
    pub files: usize,
    pub answered: usize,
    pub conflicts: usize,
    pub orders: usize,
    pub several: usize,
    pub inconsistent: usize,
    pub longest: usize,
    pub rearranged: usize,
    pub kinds: BTreeMap<Kind, usize>,
}

impl Counts {
    /// Counts kinds.
    fn meet(&mut self, kinds: Vec<Kind>) {
        kinds.into_iter().for_each(|kind| *self.kinds.entry(kind).or_default() += 1);
    }
}

/// The complete orders, each by itself where they are few, else one for each set of fired rules; None where even those are too many.
fn complete(table: &Table, card: &[u8], slip: &[u8]) -> Option<(Vec<Moment>, BTreeSet<End>)> {
    let program = tested(table).ok()?;
    let card = unpack_card(&program, card).ok()?;
    let slip = unpack_slip(&program, slip).ok()?;
    let moments = complete_orders(&program.rules, &card, &slip, 3_000)
        .or_else(|| complete_sets(&program.rules, &card, &slip, 3_000))?;
    let ends = consistent_ends(&program.rules, &card, &moments);
    Some((moments, ends))
}

/// Whether a response is what an order's end says.
fn agrees(table: &Table, given: &Given, end: &End) -> bool {
    match (given.refused, end.conflict) {
        (Some(why), Some(slot)) => (why.number, why.second) == (40, usize::from(slot)),
        (None, None) => {
            let program = tested(table).expect("the table was read");
            let changes: Changes = unpack_slip(&program, &given.changes).unwrap_or_default().into_iter().collect();
            changes == end.changes && fired_positions(&given.fired) == end.fired
        }
        _ => false,
    }
}

/// Checks all firing orders of an accepted file on a good card and slip; what fails is said.
pub fn check_orders(
    engine: &mut dyn Engine,
    table: &Table,
    card: &[u8],
    slip: &[u8],
    counts: &mut Counts,
) -> Result<(), String> {
    let given = given(engine, table, card, slip);
    let (complete, ends) = match complete(table, card, slip) {
        Some((complete, ends)) => (complete, ends),
        _ => {
            return Ok(());
        }
    };
    counts.answered += usize::from(given.refused.is_none());
    counts.conflicts += usize::from(given.refused.is_some());
    counts.orders += complete.len();
    let longest = complete.iter().map(|moment| moment.order.len()).max().unwrap_or(0);
    counts.several += usize::from(longest > 1);
    counts.inconsistent += usize::from(complete.iter().map(end).collect::<BTreeSet<End>>().len() > ends.len());
    counts.longest = counts.longest.max(longest);
    match ends.iter().collect::<Vec<&End>>()[..] {
        [] => Err("no complete order is consistent".to_string()),
        [end] if agrees(table, &given, end) => Ok(()),
        [end] => Err(format!("the response gave {given:?}, the orders {end:?}")),
        _ => Err(format!("consistent orders differ: {ends:?}")),
    }
}

/// The file with its rule pieces in another order, and for each new position the old one.
pub fn rearranged(text: &[u8], slots: usize, rules: usize, rng: &mut Rng) -> (Vec<u8>, Vec<usize>) {
    let pieces = pieces(text);
    let mut order: Vec<usize> = (0..rules).collect();
    for at in (1..rules).rev() {
        order.swap(at, rng.below(at + 1));
    }
    let moved = order.iter().map(|at| pieces[slots + at]);
    let parts: Vec<&[u8]> =
        pieces[..slots].iter().copied().chain(moved).chain(pieces[slots + rules..].iter().copied()).collect();
    (parts.concat(), order)
}

/// Checks that a rearranged file is accepted for a response and gives the same, each rule's bit in its new place.
pub fn check_rearranged(
    engine: &mut dyn Engine,
    way: Way,
    text: &[u8],
    table: &Table,
    entry: (&[u8], &[u8]),
    rng: &mut Rng,
) -> Result<(), String> {
    let (moved, order) = rearranged(text, table.width as usize, table.count.into(), rng);
    let (refused, other) = engine.read_for(way, &moved);
    if let Some(why) = refused {
        return Err(format!("a rearranged file is refused: {why:?}"));
    }
    let old = given_by(engine, way, table, entry.0, entry.1);
    let new = given_by(engine, way, &other, entry.0, entry.1);
    let (was, is) = (fired_positions(&old.fired), fired_positions(&new.fired));
    let bits = order.iter().enumerate().all(|(to, from)| was.contains(from) == is.contains(&to));
    let same = old.refused == new.refused && old.card == new.card && old.changes == new.changes;
    if same && bits && was.len() == is.len() {
        Ok(())
    } else {
        Err(format!("a rearranged file gives {new:?}, not {old:?}"))
    }
}

/// The shape of a small file: few pairs, so that rules meet each other.
fn small(rng: &mut Rng) -> Shape {
    Shape {
        slots: 2 + rng.below(4),
        values: 1 + rng.below(3),
        rules: 1 + rng.below(9),
        literals: rng.below(4),
        assignments: 1 + rng.below(2),
        ranks: *rng.pick(&[Ranks::Free, Ranks::Below, Ranks::Below, Ranks::Level, Ranks::Level, Ranks::Level]),
    }
}

/// Checks a generated small file: that it is accepted where its rules have strata, and then on several cards and slips all firing orders, and the file rearranged; what fails is said.
pub fn check_small(engine: &mut dyn Engine, seed: u64, counts: &mut Counts) -> Result<(), String> {
    let mut rng = Rng::new(seed);
    let shape = small(&mut rng);
    let sketch = sketch(&mut rng, &shape);
    let file = plain_file(&mut rng, sketch);
    let (refused, table) = engine.read(&file.text);
    match (refused, strata(&file.sketch.rules)) {
        (None, Ok(_)) => {}
        (Some(_), Err(_)) => {
            counts.refused += 1;
            return Ok(());
        }
        (_, wanted) => return Err(format!("seed {seed}: reading gives {refused:?} where strata are {wanted:?}")),
    }
    counts.files += 1;
    counts.meet(text_kinds(&file.text));
    for _ in 0..5 {
        let card = card_bytes(&card_values(&mut rng, &file.sketch));
        let slip = slip_bytes(&slip_changes(&mut rng, &file.sketch));
        counts.meet(response_kinds(&table, &card, &slip));
        let orders = check_orders(engine, &table, &card, &slip, counts);
        let moved =
            orders.and_then(|_| check_rearranged(engine, Way::Strata, &file.text, &table, (&card, &slip), &mut rng));
        moved.map_err(|why| {
            let text = String::from_utf8_lossy(&file.text);
            format!("seed {seed}: {why}\n{text}\ncard {card:02X?} slip {slip:02X?}")
        })?;
        counts.rearranged += 1;
    }
    Ok(())
}

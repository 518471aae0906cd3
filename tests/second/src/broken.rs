//! An engine with one fault, for the comparison to find.

use crate::broken_firing::fire;
use crate::cards::{
    card_bytes, card_fields, card_length, faulty_changes, pack_card, pack_slip, put, slip_bytes, slip_fields,
    unpack_card, unpack_slip,
};
use crate::editors::{Caller, Tally, FULL};
use crate::engine::{parts, Engine, Second, Way};
use crate::fault::Fault;
use crate::raw::FIRED_BYTES;
use crate::response::{conflict, fired_count, needed, new_card, outcome, record, short_output};
use crate::response::{Answer, Changes, Outputs};
use crate::table::{Name, Pair, Program, Table, NONE};
use crate::table31::{tested, tested_for_marks};
use crate::{broken_editors, broken_marks, broken_print, broken_reading, broken_strata, refusal, Refusal};

/// The second engine with one fault, and the responses it has given.
pub struct Broken {
    pub fault: Fault,
    responses: usize,
}

/// The bits of each byte in the other order.
fn bits_reversed(bytes: &[u8]) -> Vec<u8> {
    bytes.iter().map(|byte| byte.reverse_bits()).collect()
}

/// Takes a result in place of a refusal of one number.
fn instead_of<T>(
    result: Result<T, Refusal>,
    number: u8,
    other: impl FnOnce() -> Result<T, Refusal>,
) -> Result<T, Refusal> {
    match result {
        Err(why) if why.number == number => other(),
        result => result,
    }
}

/// The positions of the withdrawals among changes.
fn withdrawals(changes: &[Pair]) -> impl Iterator<Item = usize> + '_ {
    (0..changes.len()).filter(|at| changes[*at].1 == NONE)
}

/// Packed changes, those that a test keeps.
fn kept_changes(changes: &Changes, keeps: impl Fn(&Pair) -> bool) -> Vec<u8> {
    slip_bytes(&changes.iter().copied().filter(keeps).collect::<Vec<Pair>>())
}

impl Broken {
    /// The engine with a fault.
    pub fn new(fault: Fault) -> Broken {
        Broken { fault, responses: 0 }
    }

    /// The values of a card.
    fn card(&self, program: &Program, card: &[u8]) -> Result<Vec<u8>, Refusal> {
        let sound = unpack_card(program, card);
        match self.fault {
            Fault::LeastBitFirst => unpack_card(program, &bits_reversed(card)),
            Fault::CardPadding => instead_of(sound, 23, || Ok(card_fields(card)?.0)),
            Fault::LengthByTable if card.len() != card_length(program.lasts.len()) => Err(refusal(20, 0)),
            Fault::LastFaultyValue => instead_of(sound, 22, || {
                let values = card_fields(card)?.0;
                let slot = values.iter().zip(&program.lasts).rposition(|(value, last)| value > last);
                Err(refusal(22, slot.unwrap_or(0)))
            }),
            Fault::PaddingBeforeValue => instead_of(sound, 22, || {
                if card_fields(card)?.1 {
                    unpack_card(program, card)
                } else {
                    Err(refusal(23, 0))
                }
            }),
            Fault::EmptyAsFirst => sound.map(|values| values.into_iter().map(|value| value.max(1)).collect()),
            _ => sound,
        }
    }

    /// The changes of a slip.
    fn slip(&self, program: &Program, slip: &[u8]) -> Result<Vec<Pair>, Refusal> {
        if self.fault == Fault::LeastBitFirst {
            return unpack_slip(program, &bits_reversed(slip));
        }
        let (changes, padded) = slip_fields(slip)?;
        self.changes(program, &changes)?;
        if padded || self.fault == Fault::SlipPadding {
            Ok(changes)
        } else {
            Err(refusal(28, 0))
        }
    }

    /// Refuses faulty changes by 25, 26 and 27.
    fn changes(&self, program: &Program, changes: &[Pair]) -> Result<(), Refusal> {
        let level = |at: usize| at > 0 && changes[at].0 == changes[at - 1].0;
        let mut faulty = faulty_changes(program, changes);
        match self.fault {
            Fault::SlotNotBelow => faulty.retain(|(at, number)| *number != 26 || !level(*at)),
            Fault::WithdrawalRefused => {
                faulty.extend(withdrawals(changes).map(|at| (at, 27)));
                faulty.sort_unstable();
            }
            Fault::NumberBeforePosition => faulty.sort_by_key(|(at, number)| (*number, *at)),
            _ => {}
        }
        match faulty.first() {
            Some((at, number)) => Err(refusal(*number, *at)),
            None => Ok(()),
        }
    }

    /// The slot that came into conflict first.
    fn first_conflict(program: &Program, slip: &[Pair], fired: &[usize]) -> Option<u8> {
        let mut changes: Changes = slip.iter().copied().collect();
        for pair in fired.iter().flat_map(|at| &program.rules[*at].assignments) {
            changes.insert(*pair);
            if let Some(slot) = conflict(&changes) {
                return Some(slot);
            }
        }
        None
    }

    /// The answer that firing comes to, or 40.
    fn outcome(&self, program: &Program, card: &[u8], slip: &[Pair]) -> Result<Answer, Refusal> {
        let mut firing = fire(self.fault, program, card, slip);
        match self.fault {
            Fault::RecordReversed => firing.fired.iter_mut().for_each(|at| *at = program.rules.len() - 1 - *at),
            Fault::NoConflict => {
                let later = firing.changes.clone();
                firing.changes.retain(|pair| later.range((pair.0, pair.1 + 1)..(pair.0 + 1, 0)).next().is_none());
            }
            Fault::WithdrawalOverruled => {
                let all = firing.changes.clone();
                let values = |slot: u8| all.range((slot, NONE + 1)..=(slot, u8::MAX)).count();
                firing.changes.retain(|pair| pair.1 != NONE || values(pair.0) == 0);
            }
            Fault::WithdrawalOverrules => {
                let all = firing.changes.clone();
                firing.changes.retain(|pair| pair.1 == NONE || !all.contains(&(pair.0, NONE)));
            }
            Fault::ConflictByOrder => {
                if let Some(slot) = Broken::first_conflict(program, slip, &firing.fired) {
                    return Err(refusal(40, slot as usize));
                }
            }
            _ => {}
        }
        let mut answer = outcome(program, card, &firing)?;
        let repeats = |pair: &Pair| card[pair.0 as usize] == pair.1;
        match self.fault {
            Fault::RecordPadding => {
                let padded = (program.rules.len() + 7) / 8 * 8;
                firing.fired.extend(program.rules.len()..padded);
                answer.fired = record(padded, &firing.fired);
            }
            Fault::RecordCut => answer.fired.truncate(32),
            Fault::CardReturned => answer.card = card_bytes(card),
            Fault::WithdrawnKept => {
                let brought = firing.changes.iter().copied().filter(|pair| pair.1 != NONE).collect();
                answer.card = card_bytes(&new_card(card, &brought));
            }
            Fault::RepeatsLeftOut => answer.changes = kept_changes(&firing.changes, |pair| !repeats(pair)),
            Fault::WithdrawalsLeftOut => answer.changes = kept_changes(&firing.changes, |pair| pair.1 != NONE),
            Fault::EmptyWithdrawalsLeftOut => {
                answer.changes = kept_changes(&firing.changes, |pair| pair.1 != NONE || !repeats(pair));
            }
            Fault::LeastBitFirst => {
                answer.card = bits_reversed(&answer.card);
                answer.changes = bits_reversed(&answer.changes);
            }
            _ => {}
        }
        Ok(answer)
    }

    /// The first output that is too short.
    fn short(&self, program: &Program, rooms: [usize; 3], changes: usize) -> Option<usize> {
        let mut needed = needed(program);
        match self.fault {
            Fault::RoomByChanges => needed[1] = changes,
            Fault::RecordRoom => needed[2] = needed[2].min(32),
            Fault::LastShortOutput => return (0..3).rev().find(|at| rooms[*at] < needed[*at]).map(|at| at + 1),
            _ => {}
        }
        short_output(needed, rooms)
    }

    /// The answer to a card and a slip, or the refusal.
    fn answer(&mut self, table: &Table, card: &[u8], slip: &[u8], rooms: [usize; 3]) -> Result<Answer, Refusal> {
        let program = broken_strata::program(self.fault, table)?;
        if self.fault == Fault::SlipFirst {
            self.slip(&program, slip)?;
        }
        let values = self.card(&program, card)?;
        let changes = instead_of(self.slip(&program, slip), 28, || match short_output(needed(&program), rooms) {
            Some(which) if self.fault == Fault::RoomBeforePadding => Err(refusal(30, which)),
            _ => Err(refusal(28, 0)),
        })?;
        let outcome = self.outcome(&program, &values, &changes);
        let length = outcome.as_ref().map_or(37, |answer| answer.changes.len());
        let conflict_first = self.fault == Fault::ConflictBeforeRoom && outcome.is_err();
        if let (Some(which), false) = (self.short(&program, rooms, length), conflict_first) {
            return Err(refusal(30, which));
        }
        self.responses += 1;
        if self.fault == Fault::FirstOfDay && self.responses > 1 {
            let fired = vec![0; (program.rules.len() + 7) / 8];
            return Ok(Answer { card: card.to_vec(), changes: slip.to_vec(), fired });
        }
        outcome
    }

    /// Whether a record is full.
    fn full(&self, tally: Tally) -> bool {
        let full = |count: u32| match self.fault {
            Fault::FullEarly => count >= FULL - 1,
            Fault::FullExactly => count == FULL,
            _ => count >= FULL,
        };
        full(tally.answered) || full(tally.refused) && self.fault != Fault::RefusedNeverFull
    }

    /// Clears an output beyond what was written.
    fn clear_tails(&self, outputs: &mut Outputs, answer: &Answer) {
        if self.fault == Fault::TailCleared {
            outputs.card[answer.card.len()..].fill(0);
            outputs.changes[answer.changes.len()..].fill(0);
            outputs.fired[answer.fired.len()..].fill(0);
        }
    }

    /// The response at one record.
    fn respond_at(
        &mut self,
        table: &Table,
        tally: &mut Tally,
        card: &[u8],
        slip: &[u8],
        mut outputs: Outputs,
    ) -> Result<usize, Refusal> {
        if self.fault == Fault::TableBeforeTally && tested(table).is_err() {
            tally.add(false);
            return Err(refusal(31, 0));
        }
        if self.full(*tally) {
            if self.fault == Fault::CountedOnFull {
                tally.add(false);
            }
            return Err(refusal(32, 0));
        }
        let answer = self.answer(table, card, slip, outputs.rooms());
        let conflict = answer.as_ref().map_or_else(|why| why.number == 40, |_| false);
        if !(conflict && self.fault == Fault::ConflictUncounted) {
            tally.add(answer.is_ok());
        }
        if conflict && self.fault == Fault::WrittenOnConflict {
            outputs.card[..card.len()].copy_from_slice(card);
        }
        let mut answer = answer?;
        if self.fault == Fault::RecordRoom {
            answer.fired.truncate(outputs.fired.len());
        }
        outputs.write(&answer);
        self.clear_tails(&mut outputs, &answer);
        Ok(answer.changes.len())
    }
}

impl Engine for Broken {
    fn read(&mut self, text: &[u8]) -> (Option<Refusal>, Box<Table>) {
        broken_reading::read(self.fault, text)
    }

    fn read_unlayered(&mut self, text: &[u8]) -> (Option<Refusal>, Box<Table>) {
        parts(broken_marks::reading(self.fault, text))
    }

    fn print(&mut self, text: &[u8], output: &mut [u8]) -> Result<usize, Refusal> {
        broken_print::print(self.fault, text, output)
    }

    fn strata(&mut self, table: &Table) -> Result<Vec<u16>, Refusal> {
        let program = crate::table31::unlayered(table)?;
        broken_strata::strata(self.fault, &program.rules).map_err(|rule| refusal(18, rule))
    }

    fn slot_name(&mut self, text: &[u8], table: &Table, slot: u8) -> Result<Name, Refusal> {
        let name = Second.slot_name(text, table, slot)?;
        match self.fault {
            Fault::NameAtEnd if name.range().end == text.len() => Err(refusal(31, 0)),
            Fault::NameTested => tested(table).map(|_| name),
            _ => Ok(name),
        }
    }

    fn value_name(&mut self, text: &[u8], table: &Table, slot: u8, value: u8) -> Result<Name, Refusal> {
        let shown = if self.fault == Fault::NoneShown { value.max(1) } else { value };
        Second.value_name(text, table, slot, shown)
    }

    fn unpack_card(&mut self, table: &Table, card: &[u8]) -> Result<Vec<u8>, Refusal> {
        self.card(&broken_strata::program(self.fault, table)?, card)
    }

    fn unpack_slip(&mut self, table: &Table, slip: &[u8]) -> Result<Vec<Pair>, Refusal> {
        self.slip(&broken_strata::program(self.fault, table)?, slip)
    }

    fn pack_card(&mut self, table: &Table, values: &[u8], output: &mut [u8]) -> Result<usize, Refusal> {
        put(&pack_card(&broken_strata::program(self.fault, table)?, values)?, output, 1)
    }

    fn pack_slip(&mut self, table: &Table, changes: &[Pair], output: &mut [u8]) -> Result<usize, Refusal> {
        let program = broken_strata::program(self.fault, table)?;
        let packed = instead_of(pack_slip(&program, changes), 24, || match self.fault {
            Fault::ManyChanges => self.changes(&program, changes).map(|_| Vec::new()),
            _ => Err(refusal(24, 0)),
        })?;
        if let (Fault::PackedWithdrawalRefused, Some(at)) = (self.fault, withdrawals(changes).next()) {
            return Err(refusal(27, at));
        }
        if self.fault == Fault::PackingRoom && output.len() < 37 {
            return Err(refusal(30, 2));
        }
        put(&packed, output, 2)
    }

    fn respond(
        &mut self,
        way: Way,
        table: &Table,
        caller: Caller,
        card: &[u8],
        slip: &[u8],
        outputs: Outputs,
    ) -> Result<usize, Refusal> {
        let is_31 = || match way {
            Way::Strata => tested(table).is_err(),
            Way::Marks => tested_for_marks(table).is_err(),
        };
        broken_editors::respond(self.fault, caller, outputs, is_31, |tally, outputs| match way {
            Way::Strata => self.respond_at(table, tally, card, slip, outputs),
            Way::Marks => broken_marks::respond_at(self.fault, table, tally, card, slip, outputs),
        })
    }

    fn fired_count(&mut self, record: &[u8]) -> usize {
        let counted = match self.fault {
            Fault::LastByteUncounted => FIRED_BYTES - 1,
            Fault::HighBytesUncounted => 32,
            _ => record.len(),
        };
        let fired = fired_count(&record[..counted.min(record.len())]);
        if self.fault == Fault::FiredCut {
            fired % 256
        } else {
            fired
        }
    }
}

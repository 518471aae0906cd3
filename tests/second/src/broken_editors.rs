//! The records of editors with one fault: which is the caller's, which of them is looked at for 32, and what is counted where.

use crate::editors::{is_editor, Caller, Tally, EDITORS, FULL};
use crate::fault::Fault;
use crate::response::Outputs;
use crate::{refusal, Refusal};

/// The place of the caller's record in a table of some length, by the fault.
fn place(fault: Fault, length: usize, editor: usize) -> Option<usize> {
    let fits = match fault {
        Fault::LongerTaken => length >= EDITORS,
        Fault::ShorterTaken => length <= EDITORS,
        _ => length == EDITORS,
    };
    let number = match fault {
        Fault::NoNumberAsFirst => editor.max(1),
        Fault::NumbersAround if editor > EDITORS => (editor - 1) % EDITORS + 1,
        Fault::NumberCut => editor % 256,
        Fault::NumbersFromNone => editor.wrapping_add(1),
        Fault::LastNumberRefused if editor == EDITORS => 0,
        _ => editor,
    };
    (fits && is_editor(number) && number <= length).then(|| number - 1)
}

/// The response where the caller has no record, by the fault: 44, unless something else comes before it.
fn without_record(fault: Fault, caller: Caller, outputs: Outputs, is_31: bool) -> Result<usize, Refusal> {
    let Caller { records, editor } = caller;
    let counted = editor.checked_sub(1).filter(|at| *at < records.len());
    match (fault, counted.or(records.first().map(|_| 0))) {
        (Fault::EditorAfterFull, Some(at)) if records[at].is_full() => return Err(refusal(32, 0)),
        (Fault::EditorAfterTable, _) if is_31 => return Err(refusal(31, 0)),
        (Fault::EditorNamed, _) => return Err(refusal(44, editor)),
        (Fault::NoEditorCounted, Some(at)) => records[at].add(false),
        (Fault::ClearedWithoutEditor, _) => outputs.card.fill(0),
        _ => {}
    }
    Err(refusal(44, 0))
}

/// Whether the records are full by the fault, where it is not the caller's own that decides.
fn full_by_others(fault: Fault, records: &[Tally], place: usize) -> Option<bool> {
    let together = |count: fn(&Tally) -> u32| records.iter().map(count).sum::<u32>() >= FULL;
    match fault {
        Fault::FullByFirst => Some(records[0].is_full()),
        Fault::FullByNext => Some(records[(place + 1) % records.len()].is_full()),
        Fault::FullByAny => Some(records.iter().any(Tally::is_full)),
        Fault::FullByAll => Some(records.iter().all(Tally::is_full)),
        Fault::FullTogether => Some(together(|record| record.answered) || together(|record| record.refused)),
        _ => None,
    }
}

/// The places of the records in which a slip is counted, by the fault.
fn counted_places(fault: Fault, records: usize, place: usize) -> Vec<usize> {
    let next = (place + 1) % records;
    match fault {
        Fault::FirstCounted => vec![0],
        Fault::NextCounted => vec![next],
        Fault::NextCountedToo => vec![place, next],
        Fault::AllCounted => (0..records).collect(),
        _ => vec![place],
    }
}

/// The response over a table of records with a fault, by the response at one record; and whether the rule table is 31.
pub fn respond(
    fault: Fault,
    caller: Caller,
    outputs: Outputs,
    is_31: impl FnOnce() -> bool,
    at: impl FnOnce(&mut Tally, Outputs) -> Result<usize, Refusal>,
) -> Result<usize, Refusal> {
    let place = match place(fault, caller.records.len(), caller.editor) {
        Some(place) => place,
        None => return without_record(fault, caller, outputs, is_31()),
    };
    let records = caller.records;
    if fault == Fault::ClearedOnFull && records[place].is_full() {
        outputs.card.fill(0);
    }
    let before = match full_by_others(fault, records, place) {
        Some(true) => return Err(refusal(32, 0)),
        Some(false) => Tally::default(),
        None => records[place],
    };
    let mut after = before;
    let result = at(&mut after, outputs);
    let (answered, refused) = (after.answered - before.answered, after.refused - before.refused);
    let counted = if fault == Fault::RefusedAsAnswered { (answered + refused, 0) } else { (answered, refused) };
    for at in counted_places(fault, records.len(), place) {
        records[at].answered += counted.0;
        records[at].refused += counted.1;
    }
    if fault == Fault::FullStartsAnew && result == Err(refusal(32, 0)) {
        records[place] = Tally::default();
    }
    result
}

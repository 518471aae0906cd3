//! The kinds of a call by its editor and the lent records.

use crate::editors::{is_editor, Tally, EDITORS, FULL};
use crate::kinds::{holding, Kind};
use crate::Refusal;

/// The kinds of a call: by the records before it, the editor's number, what it came to, and whether its table is 31.
pub fn call_kinds(records: &[Tally], editor: usize, result: &Result<usize, Refusal>, is_31: bool) -> Vec<Kind> {
    let number = result.map_or_else(|why| why.number, |_| 0);
    let placed = editor.checked_sub(1).and_then(|at| records.get(at)).copied();
    let own = placed.unwrap_or_default();
    let full = records.iter().filter(|record| record.is_full()).count();
    if number == 44 {
        return holding(&[
            (Kind::NoNumber, editor == 0),
            (Kind::NumberAbove, editor == EDITORS + 1),
            (Kind::NumberCut, !is_editor(editor) && is_editor(editor % 256)),
            (Kind::NoRecords, records.is_empty()),
            (Kind::OneFewer, records.len() + 1 == EDITORS && placed.is_some()),
            (Kind::OneMore, records.len() == EDITORS + 1 && is_editor(editor)),
            (Kind::FullWithout, own.is_full()),
            (Kind::UnsoundWithout, is_31),
            (Kind::NeitherFits, !is_editor(editor) && records.len() != EDITORS),
        ]);
    }
    let counted = number != 32;
    holding(&[
        (Kind::FirstEditor, counted && editor == 1),
        (Kind::LastEditor, counted && editor == EDITORS),
        (Kind::OwnFull, own.is_full() && full == 1),
        (Kind::OthersFull, counted && full + 1 == records.len()),
        (Kind::FirstFull, counted && records[0].is_full()),
        (Kind::LastAnswered, number == 0 && own.answered + 1 == FULL),
        (Kind::LastRefused, counted && number != 0 && own.refused + 1 == FULL),
    ])
}

//! The comparison of an engine with the second engine over generated inputs.

use std::collections::{BTreeMap, BTreeSet};
use std::path::Path;

use crate::days::{compare_day, compare_response, entry, fitting, respond, Entry, Seen};
use crate::engine::{Engine, Second, Way};
use crate::gen::{any_file, File, Rng};
use crate::gen_editors::Day;
use crate::gen_large::large_file;
use crate::gen_marks;
use crate::gen_tables::{circled_table, damaged};
use crate::lent::{lend, same, Difference};
use crate::print::{print_of, put};
use crate::raw::PRINT_BYTES;
use crate::read::{read_rules, LIBRARY};
use crate::table::{table_of, Table};
use crate::text::pieces;
use crate::Refusal;

/// Compares readings for a response: refusals, and tables place by place; after a refusal only that there are no slots or rules.
fn compare_read(other: &mut dyn Engine, way: Way, text: &[u8]) -> Result<(Option<Refusal>, Box<Table>), Difference> {
    let (ours, table) = Second.read_for(way, text);
    let (theirs, given) = other.read_for(way, text);
    same("reading, the refusal", &ours, &theirs)?;
    same("reading, the slot count", &table.width, &given.width)?;
    same("reading, the rule count", &table.count, &given.count)?;
    if ours.is_none() {
        for at in 0..table.slots.len() {
            same("reading, a slot", &table.slots[at], &given.slots[at])?;
        }
        for at in 0..table.rules.len() {
            same("reading, a rule", &table.rules[at], &given.rules[at])?;
        }
    }
    Ok((ours, table))
}

/// Compares the print of a text, given its reading's refusal, into outputs exactly long enough, one byte short, longer and empty; of a refused text into one as long as the text and an empty one.
fn compare_print(other: &mut dyn Engine, text: &[u8], refused: Option<Refusal>) -> Result<(), Difference> {
    let print = refused.map_or_else(|| print_of(text), Err);
    let about = |length: usize| vec![length, length.saturating_sub(1), length + 5, 0];
    let rooms = match &print {
        Ok(print) => about(print.len()),
        Err(why) if why.number == 34 => about(PRINT_BYTES + 1),
        Err(_) => vec![text.len(), 0],
    };
    for room in rooms {
        let ours = lend([room], |[output]| print.as_ref().map_err(|why| *why).and_then(|print| put(print, output)));
        same("the print", &ours, &lend([room], |[output]| other.print(text, output)))?;
    }
    Ok(())
}

/// Compares the strata of the file's rules, those of a file refused with 18 too.
fn compare_strata(other: &mut dyn Engine, text: &[u8]) -> Result<(), Difference> {
    if let Ok((lines, rules)) = read_rules(LIBRARY, text) {
        let table = table_of(&lines, &rules, &vec![0; rules.len()]);
        same("strata", &Second.strata(&table), &other.strata(&table))?;
    }
    Ok(())
}

/// Compares the names shown of slots and values that a table has or lacks, of each those about the ends.
fn compare_names(other: &mut dyn Engine, text: &[u8], table: &Table) -> Result<(), Difference> {
    let width = table.width.min(34) as u8;
    let slots = BTreeSet::from([0, 1, width / 2, width.saturating_sub(1), width, width + 1, 255]);
    for slot in slots {
        let ours = Second.slot_name(text, table, slot);
        same("a slot's name", &ours, &other.slot_name(text, table, slot))?;
        let count = table.slots.get(slot as usize).map_or(0, |place| place.count.min(16) as u8);
        for value in [0, 1, count / 2, count, count + 1, 255] {
            let ours = Second.value_name(text, table, slot, value);
            same("a value's name", &ours, &other.value_name(text, table, slot, value))?;
        }
    }
    Ok(())
}

/// A table for the test 31: the one that was read, changed; for a file refused with 18 often its rules with numbers that are no strata, changed or not.
fn changed_table(rng: &mut Rng, text: &[u8], refused: Option<Refusal>, table: &Table) -> Box<Table> {
    let circled = refused.map_or(false, |why| why.number == 18) && rng.chance(1, 2);
    match circled.then(|| read_rules(LIBRARY, text)) {
        Some(Ok((lines, rules))) => {
            let circled = circled_table(rng, &lines, &rules);
            if rng.chance(1, 2) {
                circled
            } else {
                damaged(rng, &circled, text.len())
            }
        }
        _ => damaged(rng, table, text.len()),
    }
}

/// What inputs are made from: a number, for files of any kind or for a large one.
#[derive(Clone, Copy, Debug)]
pub enum Seed {
    Any(u64),
    Large(u64),
}

impl Seed {
    /// The file of the seed, and the generator after it.
    fn file(self) -> (Rng, File) {
        let (Seed::Any(number) | Seed::Large(number)) = self;
        let mut rng = Rng::new(number);
        let file = match self {
            Seed::Any(_) => any_file(&mut rng),
            Seed::Large(_) => large_file(&mut rng, number),
        };
        (rng, file)
    }
}

/// An input that showed a difference: the way of the response asked or read for, the rule text and the entry, if one was reached.
#[derive(Clone, Debug)]
pub struct Failing {
    pub seed: Seed,
    pub way: Way,
    pub text: Vec<u8>,
    pub entry: Option<Entry>,
    pub difference: Difference,
}

/// A difference seen without an entry.
fn no_entry(difference: Difference) -> Box<Seen> {
    Box::new(Seen { entry: None, difference })
}

/// Says that a difference was seen on a changed table.
fn on_changed(mut seen: Box<Seen>) -> Box<Seen> {
    seen.difference.place += " (on a changed table)";
    seen
}

/// Compares the strata response with all that belongs to reading, on a file and on a changed table of it; gives the file's table.
fn compare_by_strata(other: &mut dyn Engine, file: &File, rng: &mut Rng) -> Result<Box<Table>, Box<Seen>> {
    let (refused, table) = compare_read(other, Way::Strata, &file.text).map_err(no_entry)?;
    compare_print(other, &file.text, refused).map_err(no_entry)?;
    compare_strata(other, &file.text).map_err(no_entry)?;
    compare_names(other, &file.text, &table).map_err(no_entry)?;
    let sketch = fitting(rng, file, &table);
    compare_day(other, &[(Way::Strata, &table)], &sketch, rng)?;
    let changed = changed_table(rng, &file.text, refused, &table);
    compare_names(other, &file.text, &changed).map_err(no_entry).map_err(on_changed)?;
    let sketch = fitting(rng, file, &changed);
    compare_day(other, &[(Way::Strata, &changed)], &sketch, rng).map_err(on_changed)?;
    Ok(table)
}

/// Compares the response by marks on a file as read without test 18, then both responses on that table and on the one with strata, and the response by marks on a changed table.
fn compare_by_marks(other: &mut dyn Engine, file: &File, layered: &Table, rng: &mut Rng) -> Result<(), Box<Seen>> {
    let (_, table) = compare_read(other, Way::Marks, &file.text).map_err(no_entry)?;
    let sketch = fitting(rng, file, &table);
    compare_day(other, &[(Way::Marks, &table)], &sketch, rng)?;
    let both = [(Way::Marks, layered), (Way::Strata, &*table), (Way::Strata, layered), (Way::Marks, &*table)];
    compare_day(other, &both, &sketch, rng).map_err(on_changed)?;
    let either = if rng.chance(1, 2) { layered } else { &table };
    let changed = damaged(rng, either, file.text.len());
    let sketch = fitting(rng, file, &changed);
    compare_day(other, &[(Way::Marks, &changed)], &sketch, rng).map_err(on_changed)
}

/// A failing input by its seed and file, and what was seen with it.
fn failing(seed: Seed, way: Way, file: &File, seen: Box<Seen>) -> Box<Failing> {
    let Seen { entry, difference } = *seen;
    Box::new(Failing { seed, way, text: file.text.clone(), entry, difference })
}

/// Compares an engine with the second on a file by both ways.
fn compare_file(other: &mut dyn Engine, seed: Seed, file: &File, rng: &mut Rng) -> Result<(), Box<Failing>> {
    let compared = compare_by_strata(other, file, rng);
    let table = compared.map_err(|seen| failing(seed, Way::Strata, file, seen))?;
    compare_by_marks(other, file, &table, rng).map_err(|seen| failing(seed, Way::Marks, file, seen))
}

/// Compares an engine with the second on the inputs of a seed: a file of any kind by both ways, and one made for the response by marks; or a large file by both ways.
fn compare_seed(other: &mut dyn Engine, seed: Seed) -> Result<(), Box<Failing>> {
    let (mut rng, file) = seed.file();
    compare_file(other, seed, &file, &mut rng)?;
    if let Seed::Large(_) = seed {
        return Ok(());
    }
    let woven = gen_marks::file(&mut rng);
    let read = compare_read(other, Way::Strata, &woven.text).map_err(no_entry);
    let (_, table) = read.map_err(|seen| failing(seed, Way::Strata, &woven, seen))?;
    compare_by_marks(other, &woven, &table, &mut rng).map_err(|seen| failing(seed, Way::Marks, &woven, seen))
}

/// Compares over so many seeds of a kind from a first on: the first failing input and the number of seeds tried.
pub fn compare_seeds(
    other: &mut dyn Engine,
    kind: fn(u64) -> Seed,
    first: u64,
    rounds: u64,
) -> (Option<Box<Failing>>, u64) {
    for number in first..first + rounds {
        if let Err(failing) = compare_seed(other, kind(number)) {
            return (Some(failing), number - first + 1);
        }
    }
    (None, rounds)
}

/// Whether an engine differs from the second on one text and entry alone, by a way.
fn differs(other: &mut dyn Engine, way: Way, text: &[u8], entry: Option<&Entry>) -> bool {
    match (compare_read(other, way, text), entry) {
        (Err(_), _) => true,
        (Ok((_, table)), Some(entry)) => compare_response(other, way, &table, entry).is_err(),
        (Ok((refused, _)), None) => way == Way::Strata && compare_print(other, text, refused).is_err(),
    }
}

/// Leaves out statements of a failing input, one after another, while the engines still differ.
pub fn shrunk(other: &mut dyn Engine, failing: &Failing) -> Failing {
    let mut smaller = failing.clone();
    if !differs(other, smaller.way, &smaller.text, smaller.entry.as_ref()) {
        return smaller;
    }
    let mut at = pieces(&smaller.text).len();
    while at > 0 {
        at -= 1;
        let kept = pieces(&smaller.text).into_iter().enumerate().filter(|(piece, _)| *piece != at);
        let text = kept.map(|(_, piece)| piece).collect::<Vec<&[u8]>>().concat();
        if differs(other, smaller.way, &text, smaller.entry.as_ref()) {
            smaller.text = text;
        }
    }
    smaller
}

/// What a call was made with besides its card and slip.
fn call(entry: &Entry) -> String {
    let records: Vec<(u32, u32)> = entry.records.iter().map(|record| (record.answered, record.refused)).collect();
    format!("editor {} with {} records {records:?}\noutput lengths {:?}\n", entry.editor, records.len(), entry.rooms)
}

/// Writes a failing input into a folder: rules.txt, card.bin, slip.bin, editor.bin where the number is a byte, and what was seen.
pub fn store(folder: &Path, failing: &Failing) -> std::io::Result<()> {
    std::fs::create_dir_all(folder)?;
    let entry = failing.entry.as_ref();
    std::fs::write(folder.join("rules.txt"), &failing.text)?;
    std::fs::write(folder.join("card.bin"), entry.map_or(&[0][..], |entry| &entry.card))?;
    std::fs::write(folder.join("slip.bin"), entry.map_or(&[0][..], |entry| &entry.slip))?;
    if let Ok(editor) = u8::try_from(entry.map_or(1, |entry| entry.editor)) {
        std::fs::write(folder.join("editor.bin"), [editor])?;
    }
    let Difference { place, second, other } = &failing.difference;
    let call = entry.map_or(String::new(), call);
    let Failing { seed, way, .. } = failing;
    let seen = format!("seed {seed:?} by {way:?}\n{place}\n{call}second engine: {second}\nother engine: {other}\n");
    std::fs::write(folder.join("seen.txt"), seen)
}

/// How many of some seeds give which refusal by a way, to see that all are met: the refusal's number, 0 for none.
pub fn refusals_met(way: Way, seeds: impl Iterator<Item = Seed>) -> BTreeMap<u8, usize> {
    let mut met = BTreeMap::new();
    for seed in seeds {
        let (mut rng, file) = seed.file();
        let (refused, table) = Second.read_for(way, &file.text);
        *met.entry(refused.map_or(0, |why| why.number)).or_default() += 1;
        if way == Way::Strata {
            let print = Second.print(&file.text, &mut [0; 40]);
            *met.entry(print.err().map_or(0, |why| why.number)).or_default() += 1;
        }
        for changed in [None, Some(changed_table(&mut rng, &file.text, refused, &table))] {
            let day = Day::new(&mut rng);
            let table = changed.as_ref().unwrap_or(&table);
            let sketch = fitting(&mut rng, &file, table);
            let entry = entry(&mut rng, &sketch, table, &day);
            let result = respond(&mut Second, way, table, &entry).result;
            *met.entry(result.err().map_or(0, |why| why.number)).or_default() += 1;
        }
    }
    met
}

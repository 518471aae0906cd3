//! A desk in Rust: reads rules.txt, card.bin, slip.bin and editor.bin in a folder, asks for the response and prints what changes, by name. With the word `marks` after the folder it reads without test 18 and asks for the response by marks.

mod folder;
mod rl;

use rl::Refusal;

/// Prints a slot's name and a value's name, each a part of the rule text; value 0 has no name there and is printed as a word: a card's 0 is no value, a change's NONE.
fn print_pair(
    what: &str,
    none: &str,
    text: &[u8],
    table: &rl::Table,
    slot: usize,
    value: usize,
) -> Result<(), Refusal> {
    let name = String::from_utf8_lossy(rl::slot_name(text, table, slot)?);
    if value == 0 {
        println!("{what} {name} {none}");
    } else {
        println!("{what} {name} {}", String::from_utf8_lossy(rl::value_name(text, table, slot, value)?));
    }
    Ok(())
}

/// Reads the rules, shows the card, asks for the response and shows it.
fn run(by_marks: bool, text: &[u8], card: &[u8], slip: &[u8], editor: usize) -> Result<(), Refusal> {
    let table = if by_marks { rl::read_unlayered(text)? } else { rl::read(text)? };
    let respond = if by_marks { rl::respond_by_marks } else { rl::respond };
    // The same slots without rules, by which cards and slips unpack whatever the strata are.
    let slots = Box::new(rl::Table { count: 0, ..*table });

    let before = rl::unpack_card(&slots, card)?;
    for (slot, value) in before.values[..before.count].iter().enumerate() {
        print_pair("has", "-", text, &table, slot, (*value).into())?;
    }

    let (mut new_card, mut changes, mut fired) = ([0; rl::CARD_BYTES], [0; rl::SLIP_BYTES], [0; rl::FIRED_BYTES]);
    let mut records = [rl::Tally::default(); rl::EDITORS];
    let answer = respond(&table, &mut records, editor, card, slip, &mut new_card, &mut changes, &mut fired)?;

    let changed = rl::unpack_slip(&slots, &changes[..answer.length])?;
    for change in &changed.changes[..changed.count] {
        print_pair("change", "NONE", text, &table, change.slot.into(), change.value.into())?;
    }
    for rule in (1..=table.count as usize).filter(|rule| rl::has_fired(&fired, *rule)) {
        println!("fired {rule}");
    }
    println!("rules fired {}", answer.fired);
    let own = records[editor - 1];
    println!("tally {editor} {} {}", own.answered, own.refused);
    Ok(())
}

fn main() {
    let folder = folder::named();
    let by_marks = std::env::args().nth(2).as_deref() == Some("marks");
    let [text, card, slip, editor] =
        ["rules.txt", "card.bin", "slip.bin", "editor.bin"].map(|name| folder::load(&folder, name));
    // The editor's number is the one byte of its file; a file of another length has none, and 0 is no editor's.
    let editor = if let [number] = editor[..] { number.into() } else { 0 };
    folder::given(run(by_marks, &text, &card, &slip, editor));
}

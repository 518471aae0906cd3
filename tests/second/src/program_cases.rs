//! The stored cases of the project's program: four files for each, some of which may be missing or be folders, and what the program prints.

use crate::cards::{card_bytes, slip_bytes};
use crate::editors::EDITORS;
use crate::listing::listing;

/// The slots of the lettered cases, and their rules.
pub const SLOTS: &str = "SLOT x {0,1}; SLOT y {0,1}; SLOT z {0,1};";
pub const A: &str = "WHEN x *= 1 IF y |= 0 THEN z := 1;";
pub const B: &str = "WHEN z *= 1 IF y |= 0 THEN y := 1;";
pub const C: &str = "WHEN z *= 1 IF y |= 0 THEN x := 1;";
pub const D: &str = "WHEN y *= 1 IF NOT x *= 1 THEN z := 1;";
pub const E: &str = "WHEN y *= 1 IF x |= 0 THEN x := 1;";
pub const H: &str = "WHEN x *= 1 IF TRUE THEN x := 0;";

/// Rules of which the first waits for the second, the second for the first and under NOT for the third, the third for the second.
pub const MIXED: [&str; 3] =
    ["WHEN x *= 1 IF TRUE THEN y := 1;", "WHEN y *= 1 IF NOT z *= 1 THEN x := 1;", "WHEN x *= 1 IF TRUE THEN z := 1;"];

/// The card on which the three slots are 0, and the slips that change x, y or z to 1.
pub const ZEROS: [u8; 3] = [0x0C, 0x44, 0x40];
pub const X_TO_1: [u8; 2] = [0x04, 0x04];
pub const Y_TO_1: [u8; 2] = [0x04, 0x24];
pub const Z_TO_1: [u8; 2] = [0x04, 0x44];

/// What stands under the name of a file: its bytes, nothing, or a folder, which opens but cannot be read.
#[derive(Clone)]
pub enum Kept {
    Bytes(Vec<u8>),
    Nothing,
    Folder,
}

/// The names of the files, in the order in which the program opens them.
pub const NAMES: [&str; 4] = ["rules.txt", "card.bin", "slip.bin", "editor.bin"];

/// The rules, the card and the slip of a case.
type Asked = [Kept; 3];

/// The files of a case, in the order of their names.
pub type Case = [Kept; 4];

/// What is asked with all its files.
fn asked(text: &str, card: &[u8], slip: &[u8]) -> Asked {
    [text.as_bytes(), card, slip].map(|bytes| Kept::Bytes(bytes.to_vec()))
}

/// What is asked over the slots x, y and z.
fn rules(rules: &[&str], card: &[u8], slip: &[u8]) -> Asked {
    asked(&format!("{SLOTS} {}", rules.join(" ")), card, slip)
}

/// The lettered cases.
fn lettered() -> Vec<Asked> {
    vec![
        rules(&[A], &ZEROS, &X_TO_1),
        rules(&[B], &ZEROS, &X_TO_1),
        rules(&[A, B], &ZEROS, &X_TO_1),
        rules(&[A, C], &ZEROS, &Y_TO_1),
        rules(&[D, E], &ZEROS, &Y_TO_1),
        rules(&[A, B], &[0x0C, 0, 0], &X_TO_1),
        rules(&[A], &ZEROS, &slip_bytes(&[(0, 1)])),
        rules(&[H], &ZEROS, &X_TO_1),
        rules(&["WHEN x *= 1 IF TRUE AND y |= 0 THEN z := 1;"], &ZEROS, &X_TO_1),
        rules(&["WHEN x *= 1 IF y |= 0 AND TRUE THEN z := 1;"], &ZEROS, &X_TO_1),
        rules(&[A, B], &[0x0C, 0x44, 0xC0], &X_TO_1),
        rules(&[A, B], &[0x0C, 0x44, 0x41], &X_TO_1),
    ]
}

/// The limits of a text, each kept and broken.
fn limits() -> Vec<Asked> {
    let named =
        |size: usize| asked(&format!("SLOT {} {{v}};", "n".repeat(size)), &card_bytes(&[0]), &slip_bytes(&[(0, 1)]));
    let many = |count: usize| rules(&vec![A; count], &ZEROS, &X_TO_1);
    let tests = |count: usize| {
        let rule = format!("WHEN x *= 1 IF {} THEN z := 1;", vec!["y |= 0"; count].join(" AND "));
        rules(&[&rule], &ZEROS, &X_TO_1)
    };
    let long = |size: usize| asked(&" ".repeat(size), &[0], &[0]);
    let pairs = [named(24), named(25), many(255), many(256), tests(8), tests(9), long(65_535), long(65_536)];
    pairs.into_iter().chain([rules(&["("], &ZEROS, &X_TO_1), asked("", &[0], &[0])]).collect()
}

/// What the library takes and the program does not: more rules, with a fault behind them or a circle, at the end of the longest text and in one byte more; and what may follow 255 rules.
fn beyond() -> Vec<Asked> {
    let after = |end: &str| rules(&[vec![A; 255], vec![end]].concat(), &ZEROS, &X_TO_1);
    let filled = |count: usize, size: usize| {
        let text = format!("{SLOTS} {}", vec![A; count].join(" "));
        asked(&format!("{text}{}", " ".repeat(size - text.len())), &ZEROS, &X_TO_1)
    };
    let circle = "WHEN x *= 1 IF NOT z *= 1 THEN z := 1;";
    let behind = [" \n", "WHEN", "WHEN (", "SLOT w {0};", "x", ";", "("].map(after);
    let more = [
        rules(&vec![A; 257], &ZEROS, &X_TO_1),
        rules(&[vec![A; 256], vec!["("]].concat(), &ZEROS, &X_TO_1),
        rules(&[vec![A; 254], vec![circle]].concat(), &ZEROS, &X_TO_1),
        rules(&[vec![A; 255], vec![circle]].concat(), &ZEROS, &X_TO_1),
        filled(1_800, 65_535),
        filled(1_800, 65_536),
    ];
    behind.into_iter().chain(more).collect()
}

/// Every refusal of a card and of a slip, and the longest that their counts allow.
fn entries() -> Vec<Asked> {
    let cards: [&[u8]; 6] = [&[], &[0x0C, 0x44], &[0x08, 0x44], &[0xFC], &[0x0C, 0x44, 0x40, 0], &[0x0C, 0xC4, 0x41]];
    let longest = [vec![0xFC], vec![0; 32]].concat();
    let slips: [&[u8]; 5] = [&[], &[0x04], &[0x00, 0x00], &[0x04, 0x05], &[0x04, 0x00]];
    let changes: [&[(u8, u8)]; 6] =
        [&[], &[(3, 1)], &[(1, 1), (1, 1)], &[(1, 1), (0, 1)], &[(0, 3)], &[(0, 2), (1, 2), (2, 2)]];
    let by_card = cards.iter().map(|card| rules(&[A, B], card, &X_TO_1));
    let by_slip = slips.iter().map(|slip| rules(&[A, B], &ZEROS, slip));
    let by_changes = changes.iter().map(|changes| rules(&[A, B], &ZEROS, &slip_bytes(changes)));
    let slip_of_63 = [vec![0xFC], vec![0; 71]].concat();
    let ends = [rules(&[A, B], &longest, &X_TO_1), rules(&[A, B], &ZEROS, &slip_of_63)];
    by_card.chain(by_slip).chain(by_changes).chain(ends).collect()
}

/// Case C with files that are not there, and with folders in the place of files.
fn without(gone: &[usize], folders: &[usize]) -> Asked {
    let mut files = rules(&[A, B], &ZEROS, &X_TO_1);
    gone.iter().for_each(|at| files[*at] = Kept::Nothing);
    folders.iter().for_each(|at| files[*at] = Kept::Folder);
    files
}

/// Files that are not there: the first of them in the order of opening is named.
fn missing() -> Vec<Asked> {
    [&[0][..], &[1], &[2], &[1, 2], &[0, 1, 2]].map(|gone| without(gone, &[])).into()
}

/// Folders in the place of files: the first of them is named, unless a file is not there, which shows before any is read.
fn folders() -> Vec<Asked> {
    let alone = [&[0][..], &[1], &[2], &[1, 2], &[0, 1, 2]].map(|folders| without(&[], folders));
    alone.into_iter().chain([without(&[2], &[0])]).collect()
}

/// The example of a dialect dictionary: an undated slot stays undated, and a word last heard before 1800 is labelled.
fn dialect() -> Asked {
    let folder = std::path::Path::new(env!("CARGO_MANIFEST_DIR")).join("../../examples/dialect");
    let file = |name: &str| std::fs::read(folder.join(name)).map_or(Kept::Nothing, Kept::Bytes);
    ["rules.txt", "card.bin", "slip.bin"].map(file)
}

/// Circles: case D with a cause, from the slip or from a rule; a rule that tests what it assigns, plainly and under NOT, with a cause and without; circles through a NOT, one of which meets a rule twice; a plain circle above a NOT and one kept plain by cancelled NOTs.
fn circles() -> Vec<Asked> {
    let own = |nots: &str| format!("WHEN x *= 1 IF {nots}y *= 1 THEN y := 1;");
    let back = "WHEN y *= 1 IF NOT NOT z *= 1 THEN x := 1;";
    let above = ["WHEN x *= 1 IF NOT y *= 1 THEN z := 1;", C, "WHEN y *= 0 IF TRUE THEN y := 1;"];
    vec![
        rules(&[A, C], &ZEROS, &X_TO_1),
        rules(&[C, A], &ZEROS, &Z_TO_1),
        rules(&[A, C, "WHEN y *= 1 IF TRUE THEN z := 1;"], &ZEROS, &Y_TO_1),
        rules(&["WHEN x *= 1 IF TRUE THEN x := 1;"], &ZEROS, &X_TO_1),
        rules(&["WHEN x *= 1 IF TRUE THEN x := 1;"], &ZEROS, &Y_TO_1),
        rules(&[&own("")], &ZEROS, &X_TO_1),
        rules(&[&own("NOT ")], &ZEROS, &X_TO_1),
        rules(&[&own("NOT NOT ")], &ZEROS, &slip_bytes(&[(0, 2), (1, 2)])),
        rules(&MIXED, &ZEROS, &X_TO_1),
        rules(&[E, D, "WHEN x *= 1 IF NOT z *= 0 THEN y := 0;", "WHEN z *= 1 IF TRUE THEN x := 1;"], &ZEROS, &X_TO_1),
        rules(&["WHEN x *= 1 IF TRUE THEN z := 1;", back], &ZEROS, &slip_bytes(&[(0, 2), (1, 2)])),
        rules(&above, &ZEROS, &X_TO_1),
        rules(&above, &ZEROS, &slip_bytes(&[(0, 2), (1, 2)])),
    ]
}

/// As much as a file may have, in names of 24 bytes: 32 slots that all change, half by the slip and half by rules that wait for each other; and of 255 rules the last 192 as a chain under NOT, the highest stratum first, that never begins.
fn full() -> Asked {
    let name = |kind: char, at: usize| format!("{kind}{at:023}");
    let pair = |slot: usize, sign: &str, value: usize| format!("{} {sign} {}", name('s', slot), name('v', value));
    let values = (1..=9).map(|value| name('v', value)).collect::<Vec<_>>().join(",");
    let slots = (0..32).map(|slot| format!("SLOT {} {{{values}}};\n", name('s', slot)));
    let link = |at: usize, sign: &str| pair(at % 32, sign, 3 + at / 32);
    let waiting = |at: usize| {
        let (before, after) = (pair(15 + at % 16, "*=", 2), pair(16 + at % 16, ":=", 2));
        format!("WHEN {before} IF NOT {} THEN {after};\n", link(191, "*="))
    };
    let chained = |at: usize| {
        let condition = if at == 0 { "TRUE".to_string() } else { format!("NOT {}", link(at - 1, "*=")) };
        format!("WHEN {} IF {condition} THEN {};\n", pair(0, "*=", 9), link(at, ":="))
    };
    let text: String = slots.chain((0..63).map(waiting)).chain((0..192).rev().map(chained)).collect();
    let changes: Vec<(u8, u8)> = (0..16).map(|slot| (slot, 2)).collect();
    asked(&text, &card_bytes(&[1; 32]), &slip_bytes(&changes))
}

/// A card of 32 slots, the longest that is answered, and one rule.
fn wide() -> Asked {
    let slots: String = (0..32).map(|slot| format!("SLOT s{slot} {{a,b}};\n")).collect();
    asked(&format!("{slots}WHEN s31 *= b IF s0 |= a THEN s15 := b;"), &card_bytes(&[1; 32]), &slip_bytes(&[(31, 2)]))
}

/// A case of what is asked and what stands under the name of the editor's file.
fn by_editor(asked: Asked, editor: Kept) -> Case {
    let [text, card, slip] = asked;
    [text, card, slip, editor]
}

/// Case C with an editor's file of some bytes.
fn by_bytes(editor: &[u8]) -> Case {
    by_editor(rules(&[A, B], &ZEROS, &X_TO_1), Kept::Bytes(editor.to_vec()))
}

/// The editor's file: the first and the last editor; no byte, two, one and a newline, many, none of an editor, a digit; where the text or the card would be refused; missing, a folder, alone and beside another file.
fn editors() -> Vec<Case> {
    let files: [&[u8]; 12] =
        [&[1], &[40], &[], &[7, 7], &[7, b'\n'], &[7; 40], &[0], &[41], b"1", &[128], &[255], b"15\n"];
    let no_editor = || Kept::Bytes(vec![41]);
    let refused = [
        by_editor(rules(&["("], &ZEROS, &X_TO_1), no_editor()),
        by_editor(rules(&["WHEN x *= 1 IF y |= 0 AND TRUE THEN z := 1;"], &ZEROS, &X_TO_1), no_editor()),
        by_editor(rules(&[A, B], &[], &X_TO_1), no_editor()),
        by_editor(rules(&[A, B], &ZEROS, &[]), Kept::Bytes(Vec::new())),
        by_editor(rules(&[H], &ZEROS, &X_TO_1), Kept::Bytes(vec![0])),
    ];
    let unread = [
        by_editor(without(&[], &[]), Kept::Nothing),
        by_editor(without(&[], &[]), Kept::Folder),
        by_editor(without(&[2], &[]), Kept::Nothing),
        by_editor(without(&[], &[2]), Kept::Nothing),
        by_editor(without(&[], &[2]), Kept::Folder),
        by_editor(without(&[0], &[]), no_editor()),
        by_editor(without(&[], &[0]), no_editor()),
        by_editor(rules(&["("], &ZEROS, &X_TO_1), Kept::Nothing),
    ];
    files.into_iter().map(by_bytes).chain(refused).chain(unread).collect()
}

/// Withdrawals: by the slip, which wakes a rule, or does not where there is nothing to withdraw; tests of a slot with a value and without one; by a rule, which wakes another, or beside a value of the slip or of another rule; strata and a circle by NONE; NONE out of place, and names like it.
fn withdrawn() -> Vec<Asked> {
    let (without_x, without_y) = (card_bytes(&[0, 1, 1]), card_bytes(&[1, 0, 1]));
    let (no_x, no_y) = (slip_bytes(&[(0, 0)]), slip_bytes(&[(1, 0)]));
    let woken = "WHEN x *= NONE IF TRUE THEN z := 1;";
    let [has, lacks] = ["WHEN x *= 1 IF NOT y |= NONE THEN z := 1;", "WHEN x *= 1 IF y |= NONE THEN z := 1;"];
    let [empties, barred] = ["WHEN x *= 1 IF TRUE THEN y := NONE;", "WHEN x *= 1 IF NOT y *= NONE THEN z := 1;"];
    let like = "SLOT none {None, NONE-}; WHEN none *= NONE IF none |= None THEN none := NONE;";
    vec![
        rules(&[woken], &ZEROS, &no_x),
        rules(&[woken], &without_x, &no_x),
        rules(&[woken], &ZEROS, &slip_bytes(&[(0, 0), (1, 0), (2, 0)])),
        rules(&[], &ZEROS, &slip_bytes(&[(0, 0), (1, 0), (2, 0)])),
        rules(&[has, lacks], &ZEROS, &X_TO_1),
        rules(&[has, lacks], &without_y, &X_TO_1),
        rules(&[has, lacks], &ZEROS, &slip_bytes(&[(0, 2), (1, 0)])),
        rules(&[empties, "WHEN y *= NONE IF TRUE THEN z := 1;"], &ZEROS, &X_TO_1),
        rules(&[empties, "WHEN y *= NONE IF TRUE THEN z := 1;"], &without_y, &X_TO_1),
        rules(&["WHEN x *= 1 IF TRUE THEN x := NONE;"], &ZEROS, &X_TO_1),
        rules(&["WHEN y *= NONE IF TRUE THEN y := 1;"], &ZEROS, &no_y),
        rules(&[empties, "WHEN x *= 1 IF TRUE THEN y := 0;"], &ZEROS, &X_TO_1),
        rules(&[empties], &ZEROS, &slip_bytes(&[(0, 2), (1, 0)])),
        rules(&[barred, empties], &ZEROS, &X_TO_1),
        rules(&[barred, "WHEN z *= 1 IF TRUE THEN y := NONE;"], &ZEROS, &X_TO_1),
        asked("SLOT x {0, NONE};", &card_bytes(&[0]), &[0]),
        asked("SLOT NONE {0};", &card_bytes(&[0]), &[0]),
        rules(&["WHEN NONE *= 1 IF TRUE THEN z := 1;"], &ZEROS, &X_TO_1),
        rules(&[A, "WHEN x *= 1 IF TRUE THEN NONE := 1;"], &ZEROS, &X_TO_1),
        rules(&["WHEN x *= none IF TRUE THEN z := 1;"], &ZEROS, &X_TO_1),
        asked(like, &card_bytes(&[1]), &slip_bytes(&[(0, 0)])),
    ]
}

/// All stored cases: those of each question by one editor after another, then those of the editor's file, then withdrawals, then what the library takes and the program does not.
pub fn cases() -> Vec<Case> {
    let mut asked = lettered();
    asked.extend(limits());
    asked.extend(entries());
    asked.extend(missing());
    asked.push(dialect());
    asked.extend(circles());
    asked.extend(folders());
    asked.extend([full(), wide()]);
    let number = |at: usize| 1 + (6 + 7 * at) % EDITORS;
    let by_number = |(at, asked): (usize, Asked)| by_editor(asked, Kept::Bytes(vec![number(at) as u8]));
    let asked_by = |asked: Vec<Asked>| asked.into_iter().enumerate().map(by_number);
    asked_by(asked).chain(editors()).chain(asked_by(withdrawn())).chain(asked_by(beyond())).collect()
}

/// The folder of a case.
pub fn folder(at: usize) -> String {
    format!("c{at:02}")
}

/// What the program prints in the folder of a case.
fn printed(case: &Case) -> String {
    let first = |is: fn(&Kept) -> bool| case.iter().zip(NAMES).find(|(file, _)| is(file)).map(|(_, name)| name);
    let unopened = first(|file| matches!(file, Kept::Nothing));
    match (unopened.or(first(|file| matches!(file, Kept::Folder))), case) {
        (Some(name), _) => format!("unread {name}\n"),
        (None, [Kept::Bytes(text), Kept::Bytes(card), Kept::Bytes(slip), Kept::Bytes(editor)]) => {
            listing(text, card, slip, editor)
        }
        (None, _) => unreachable!("every file has its bytes"),
    }
}

/// What stands in the folder of a case: each file by its name, and what the program prints as `expected`.
pub fn files(case: &Case) -> Vec<(&'static str, Kept)> {
    let expected = ("expected", Kept::Bytes(printed(case).into_bytes()));
    NAMES.into_iter().zip(case.clone()).chain([expected]).collect()
}

//! The house style of document 02: computed examples, its limits, and that a print says what its text says.

use second::engine::{Engine, Second};
use second::gen::{any_file, File, Rng};
use second::gen_large::{large_file, LARGE};
use second::print::printed;
use second::program_cases::{A, B, C, D, E, H, SLOTS};
use second::raw::PRINT_BYTES;
use second::read::read;
use second::table::{Name, Table};
use second::{refusal, Refusal};

/// The print of the slots of the lettered cases.
const SLOTS_PRINT: &str = "SLOT x { 0, 1 };\nSLOT y { 0, 1 };\nSLOT z { 0, 1 };\n";

/// The print of a text that has one.
fn print(text: &str) -> String {
    String::from_utf8(printed(text.as_bytes()).expect("the text is accepted")).unwrap()
}

/// The print of a condition and assignments, without the slots' lines.
fn rule(condition: &str, assigned: &str) -> String {
    let print = print(&format!("{SLOTS}WHEN x *= 1 IF {condition} THEN {assigned};"));
    print.strip_prefix(SLOTS_PRINT).expect("the slots come first").to_string()
}

/// What printing into an output of a length comes to, and the whole output after it.
fn into(text: &[u8], room: usize) -> (Result<usize, Refusal>, Vec<u8>) {
    let mut output = vec![7; room];
    (Second.print(text, &mut output), output)
}

/// A text that prints as two slot lines of 60 bytes, one of 401, one of 39 and so many more, and 504 rules of 519.
fn long_text(more: usize) -> Vec<u8> {
    let [s, t, v] = ["s", "t", "v"].map(|letter| letter.repeat(24));
    let fifteen = ('a'..='o').map(|letter| letter.to_string().repeat(24)).collect::<Vec<String>>().join(",");
    let slots = format!("SLOT {s}{{{v}}};SLOT {t}{{{v}}};SLOT x{{{fifteen}}};SLOT y{{{v},{}}};", "a".repeat(more));
    let rule = format!("WHEN {s}*={v} IF NOT {}{s}|={v} THEN {t}:={v};", format!("{s}|={v} AND ").repeat(6));
    (slots + &rule.repeat(504)).into_bytes()
}

#[test]
fn one_space_between_tokens_but_none_before_comma_and_semicolon() {
    assert_eq!(print(SLOTS), SLOTS_PRINT);
    assert_eq!(print("SLOT x{x};"), "SLOT x { x };\n");
    assert_eq!(print("\r\n\tSLOT\tx\r\n{ 0 ,\t1\n,2 } ;\r\n\r\n"), "SLOT x { 0, 1, 2 };\n");
    assert_eq!(rule("y|=0", "z:=1"), "WHEN x *= 1 IF y |= 0 THEN z := 1;\n");
    assert_eq!(rule("y\r\n|=\t0", "\n{z:=1\t,y:=0\r}\n"), "WHEN x *= 1 IF y |= 0 THEN { z := 1, y := 0 };\n");
}

#[test]
fn byte_10_alone_after_each_statement() {
    let text = format!("{SLOTS} {A}\r\n\r\n{B}");
    assert_eq!(print(&text), format!("{SLOTS_PRINT}{A}\n{B}\n"));
    for rule in [A, B, C, E, D, H] {
        assert_eq!(print(&format!("{SLOTS}{rule}")), format!("{SLOTS_PRINT}{rule}\n"));
    }
}

#[test]
fn nothing_prints_as_nothing() {
    for text in ["", " ", "\r\n\t "] {
        assert_eq!(into(text.as_bytes(), 0), (Ok(0), vec![]));
        assert_eq!(into(text.as_bytes(), 2), (Ok(0), vec![7, 7]));
    }
}

#[test]
fn an_even_number_of_nots_is_gone() {
    for (nots, kept) in [(0, ""), (1, "NOT "), (2, ""), (3, "NOT "), (4, ""), (15_001, "NOT ")] {
        let condition = format!("{}y *= 1 AND NOT z |= 0", "NOT ".repeat(nots));
        assert_eq!(rule(&condition, "z := 1"), format!("WHEN x *= 1 IF {kept}y *= 1 AND NOT z |= 0 THEN z := 1;\n"));
    }
}

#[test]
fn true_stands_in_an_empty_condition_only() {
    assert_eq!(rule("TRUE", "z := 1"), "WHEN x *= 1 IF TRUE THEN z := 1;\n");
    assert_eq!(rule("TRUE AND y |= 0", "z := 1"), "WHEN x *= 1 IF y |= 0 THEN z := 1;\n");
    let condition = "TRUE AND NOT NOT y |= 0 AND NOT NOT NOT z |= 1";
    assert_eq!(rule(condition, "z := 1"), "WHEN x *= 1 IF y |= 0 AND NOT z |= 1 THEN z := 1;\n");
}

#[test]
fn braces_stand_round_two_assignments_or_more() {
    assert_eq!(rule("TRUE", "{z := 1}"), "WHEN x *= 1 IF TRUE THEN z := 1;\n");
    assert_eq!(rule("TRUE", "{z := 1, y := 0}"), "WHEN x *= 1 IF TRUE THEN { z := 1, y := 0 };\n");
}

#[test]
fn none_is_printed_where_a_rule_names_it() {
    assert_eq!(
        rule("y|=NONE AND NOT y*=NONE", "{z:=NONE}"),
        "WHEN x *= 1 IF y |= NONE AND NOT y *= NONE THEN z := NONE;\n"
    );
    assert_eq!(rule("NOT NOT y|=NONE", "{z:=NONE,y:=0}"), "WHEN x *= 1 IF y |= NONE THEN { z := NONE, y := 0 };\n");
    let wanted = "SLOT x { none, None };\nWHEN x *= NONE IF x |= none THEN x := None;\n";
    assert_eq!(print("SLOT x{none,None};WHEN x*=NONE IF x|=none THEN x:=None;"), wanted);
}

#[test]
fn order_and_repeats_stay() {
    let text = format!("{SLOTS_PRINT}WHEN y *= 1 IF z |= 1 AND z |= 1 AND x |= 0 THEN {{ z := 1, x := 0 }};\n");
    assert_eq!(print(&text), text);
    assert_eq!(print(&format!("{SLOTS}{B}{A}{A}")), format!("{SLOTS_PRINT}{B}\n{A}\n{A}\n"));
    assert_eq!(print("SLOT b{1,0};SLOT a{0,1};"), "SLOT b { 1, 0 };\nSLOT a { 0, 1 };\n");
}

#[test]
fn the_longest_print_and_one_byte_more() {
    let (longest, longer) = (long_text(8), long_text(9));
    assert!(longer.len() < PRINT_BYTES);
    let (result, output) = into(&longest, PRINT_BYTES);
    assert_eq!((result, output.len()), (Ok(PRINT_BYTES), 262_144));
    assert_eq!(printed(&output), Ok(output));
    assert_eq!(into(&longest, PRINT_BYTES - 1), (Err(refusal(33, 0)), vec![7; PRINT_BYTES - 1]));
    for room in [0, PRINT_BYTES, PRINT_BYTES + 1, PRINT_BYTES + 9] {
        assert_eq!(into(&longer, room), (Err(refusal(34, 0)), vec![7; room]));
    }
}

#[test]
fn an_output_as_long_as_the_print_and_one_byte_shorter() {
    let text = format!("{SLOTS}{A}");
    let print = print(&text).into_bytes();
    let length = print.len();
    assert_eq!(into(text.as_bytes(), length), (Ok(length), print.clone()));
    assert_eq!(into(text.as_bytes(), length + 2), (Ok(length), [print, vec![7, 7]].concat()));
    for room in [length - 1, 1, 0] {
        assert_eq!(into(text.as_bytes(), room), (Err(refusal(33, 0)), vec![7; room]));
    }
}

#[test]
fn the_reading_s_refusals_come_first_with_both_numbers() {
    let after = |rules: &[&str]| format!("{SLOTS}{}", rules.concat()).into_bytes();
    let long = format!("WHEN {} *= 1", "n".repeat(25));
    let nine = format!("WHEN x *= 1 IF {}", ["y |= 0 AND"; 9].join(" "));
    let refused = [
        (vec![b' '; 262_145], (10, 0)),
        (after(&[A, "("]), (11, 1)),
        (after(&[A, B, "WHEN x *= 1 IF y |= 0 AND TRUE THEN z := 1;"]), (12, 2)),
        (after(&[A, &long]), (13, 1)),
        (b"SLOT x {0,0};".to_vec(), (14, 0)),
        (after(&[A, B, A, &nine]), (15, 3)),
        (after(&[A, "WHEN q *= 1"]), (16, 1)),
        (after(&[A, A, "WHEN x *= 1 IF TRUE THEN {y := 1, y := 1};"]), (17, 2)),
        (after(&[E, A, "WHEN y *= 1 IF NOT z *= 1 THEN x := 1;"]), (18, 2)),
    ];
    for (text, (number, second)) in refused {
        for room in [0, 400] {
            assert_eq!(into(&text, room), (Err(refusal(number, second)), vec![7; room]));
        }
    }
}

/// A table with its names in place of where they stand.
fn named(text: &[u8], table: &Table) -> (Vec<Vec<Vec<u8>>>, Table) {
    let word = |name: &Name| text[name.range()].to_vec();
    let mut rest = *table;
    let names = rest.slots[..table.width as usize].iter_mut().map(|slot| {
        let names = std::iter::once(&slot.name).chain(&slot.values[..slot.count as usize]).map(word).collect();
        (slot.name, slot.values) = Default::default();
        names
    });
    (names.collect(), rest)
}

#[test]
fn a_print_reads_as_its_text_and_prints_as_itself() {
    let (mut accepted, mut longer) = (0, 0);
    let large = (0..LARGE).map(|seed| large_file(&mut Rng::new(seed), seed));
    let files = (1..4_000).map(|seed| any_file(&mut Rng::new(seed))).chain(large);
    for (seed, File { text, .. }) in files.enumerate() {
        let print = match printed(&text) {
            Ok(print) => print,
            Err(why) => {
                assert!(why.number == 34 || Err(why) == read(&text), "seed {seed}");
                continue;
            }
        };
        let (before, after) = (read(&text).unwrap(), read(&print).unwrap());
        assert!(named(&text, &before) == named(&print, &after), "seed {seed}");
        assert!(printed(&print).as_ref() == Ok(&print), "seed {seed}");
        accepted += 1;
        longer += usize::from(print.len() > text.len());
    }
    assert!(accepted > 1_500 && longer > 500, "{accepted} {longer}");
}

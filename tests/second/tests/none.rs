//! NONE: where it may stand in a text, and what a withdrawal comes to; cases of section 6 of document 02.

use second::cards::slip_bytes;
use second::kinds::Kind;
use second::listing::listing;
use second::none_kinds::refused_kind;
use second::program_cases::{A, B, SLOTS, ZEROS};
use second::read::read;
use second::{refusal, Refusal};

/// The text of the three slots and some rules.
fn text(rules: &[&str]) -> Vec<u8> {
    format!("{SLOTS}\n{}\n", rules.join("\n")).into_bytes()
}

/// The refusal of a reading.
fn refused(text: &[u8]) -> Option<Refusal> {
    read(text).err()
}

#[test]
fn none_stands_for_a_value_in_rules() {
    for rule in [
        "WHEN x *= NONE IF TRUE THEN y := 1;",
        "WHEN x *= 1 IF y |= NONE AND NOT z *= NONE THEN y := 1;",
        "WHEN x *= 1 IF TRUE THEN y := NONE;",
        "WHEN x *= 1 IF TRUE THEN {y := NONE, z := NONE};",
    ] {
        assert_eq!(refused(&text(&[rule])), None, "{rule}");
    }
    assert_eq!(refused(&text(&["WHEN q *= NONE"])), Some(refusal(16, 0)));
    assert_eq!(refused(&text(&["WHEN x *= none"])), Some(refusal(16, 0)));
    assert_eq!(refused(b"SLOT none {None, NONEs, NONE-}; WHEN none *= None IF none |= NONE THEN none := NONE-;"), None);
    let fifteen = (0..15).map(|at| at.to_string()).collect::<Vec<String>>().join(",");
    let full = format!("SLOT x {{{fifteen}}}; WHEN x *= NONE IF TRUE THEN x := 14;");
    let rule = read(full.as_bytes()).unwrap().rules[0];
    assert_eq!((rule.value, rule.assignments[0].value), (0, 15));
}

#[test]
fn none_is_12_where_a_slot_or_a_word_is_wanted() {
    let is_12 = |text: &[u8], second: usize, kind: Kind| {
        let shown = String::from_utf8_lossy(text);
        assert_eq!((refused(text), refused_kind(text)), (Some(refusal(12, second)), Some(kind)), "{shown}");
    };
    for (slots, kind) in [
        ("SLOT NONE {0};", Kind::NoneAsSlot),
        ("SLOT x {0}; SLOT NONE", Kind::NoneAsSlot),
        ("SLOT x {NONE};", Kind::NoneAsValue),
        ("SLOT x {0, NONE};", Kind::NoneAsValue),
        ("SLOT x NONE", Kind::NoneAsWord),
        ("SLOT x {0 NONE", Kind::NoneAsWord),
        ("SLOT x {0} NONE", Kind::NoneAsWord),
        ("NONE", Kind::NoneAsWord),
    ] {
        is_12(slots.as_bytes(), 0, kind);
    }
    for (rule, kind) in [
        ("WHEN NONE *= 1", Kind::NoneAsTriggerSlot),
        ("WHEN x *= 1 IF NONE |= 0", Kind::NoneAsLiteralSlot),
        ("WHEN x *= 1 IF NOT NONE", Kind::NoneAsLiteralSlot),
        ("WHEN x *= 1 IF TRUE AND NONE", Kind::NoneAsLiteralSlot),
        ("WHEN x *= 1 IF TRUE THEN NONE := 1", Kind::NoneAsAssignedSlot),
        ("WHEN x *= 1 IF TRUE THEN {NONE := 1", Kind::NoneAsAssignedSlot),
        ("WHEN x *= 1 IF TRUE THEN {y := 1, NONE", Kind::NoneAsAssignedSlot),
        ("WHEN x NONE", Kind::NoneAsWord),
        ("WHEN x *= NONE NONE", Kind::NoneAsWord),
        ("WHEN x *= 1 IF TRUE NONE", Kind::NoneAsWord),
        ("WHEN x *= 1 IF y NONE", Kind::NoneAsWord),
        ("WHEN x *= 1 IF y |= NONE NONE", Kind::NoneAsWord),
        ("WHEN x *= 1 IF TRUE THEN y NONE", Kind::NoneAsWord),
        ("WHEN x *= 1 IF TRUE THEN {y NONE", Kind::NoneAsWord),
        ("WHEN x *= 1 IF TRUE THEN {y := NONE NONE", Kind::NoneAsWord),
        ("WHEN x *= 1 IF TRUE THEN y := NONE NONE", Kind::NoneAsWord),
        ("NONE", Kind::NoneAsWord),
    ] {
        is_12(&text(&[rule]), 0, kind);
        is_12(&text(&[A, B, rule]), 2, kind);
    }
}

#[test]
fn a_withdrawal_is_a_change_like_any_other() {
    let printed = |rules: &[&str], card: &[u8], slip: &[(u8, u8)]| listing(&text(rules), card, &slip_bytes(slip), &[7]);
    let woken = ["WHEN x *= NONE IF NOT y |= NONE THEN z := 1;"];
    let all = "rule 1 stratum 1 fired\nchange x NONE\nchange z 1\ncard 0C0480\ntally 7 1 0\n";
    assert_eq!(printed(&woken, &ZEROS, &[(0, 0)]), all);
    let idle = "rule 1 stratum 1 idle\nchange x NONE\ncard 0C0440\ntally 7 1 0\n";
    assert_eq!(printed(&woken, &[0x0C, 0x04, 0x40], &[(0, 0)]), idle);
    let unset = "rule 1 stratum 1 idle\nchange x NONE\ncard 0C0040\ntally 7 1 0\n";
    assert_eq!(printed(&woken, &[0x0C, 0x40, 0x40], &[(0, 0)]), unset);
    let back = ["WHEN x *= 1 IF TRUE THEN y := NONE;"];
    let withdrawn = "rule 1 stratum 1 fired\nchange x 1\nchange y NONE\ncard 0C8040\ntally 7 1 0\n";
    assert_eq!(printed(&back, &ZEROS, &[(0, 2)]), withdrawn);
    assert_eq!(printed(&back, &ZEROS, &[(0, 2), (1, 0)]), withdrawn);
    assert_eq!(printed(&back, &ZEROS, &[(0, 2), (1, 1)]), "refused 40 1\n");
    assert_eq!(printed(&["WHEN x *= 1 IF TRUE THEN x := NONE;"], &ZEROS, &[(0, 2)]), "refused 40 0\n");
    assert_eq!(printed(&["WHEN x *= NONE IF TRUE THEN x := 1;"], &ZEROS, &[(0, 0)]), "refused 40 0\n");
}

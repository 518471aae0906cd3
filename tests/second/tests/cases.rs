//! The lettered cases A to L of document 01 and its others, with the limits of section 7 of document 02.

use second::cards::{slip_bytes, unpack_card, unpack_slip};
use second::engine::{Engine, Second};
use second::firing_checks::{given, Given};
use second::listing::listing;
use second::program_cases::{A, B, C, D, E, MIXED, SLOTS, X_TO_1, Y_TO_1, ZEROS, Z_TO_1};
use second::read::{read, read_within, Limits, LIBRARY, PROGRAM};
use second::response::fired_count;
use second::table31::tested;
use second::{refusal, Refusal};

/// The text of the three slots and some rules.
fn text(rules: &[&str]) -> Vec<u8> {
    format!("{SLOTS}\n{}\n", rules.join("\n")).into_bytes()
}

/// The response to a card and a slip under some rules.
fn response(rules: &[&str], card: &[u8], slip: &[u8]) -> Given {
    given(&mut Second, &read(&text(rules)).expect("the rules are accepted"), card, slip)
}

/// The changes of a response by slot and value.
fn changes(rules: &[&str], given: &Given) -> Vec<(u8, u8)> {
    assert_eq!(given.refused, None);
    unpack_slip(&tested(&read(&text(rules)).unwrap()).unwrap(), &given.changes).unwrap()
}

/// The refusal of a reading.
fn refused(text: &[u8]) -> Option<Refusal> {
    read(text).err()
}

#[test]
fn a_changes_x_and_z() {
    let given = response(&[A], &ZEROS, &X_TO_1);
    assert_eq!(changes(&[A], &given), [(0, 2), (2, 2)]);
    assert_eq!(given.fired[0], 0x80);
}

#[test]
fn b_changes_x_only() {
    let given = response(&[B], &ZEROS, &X_TO_1);
    assert_eq!(changes(&[B], &given), [(0, 2)]);
    assert_eq!(given.fired[0], 0);
}

#[test]
fn c_prints_as_listed() {
    let given = response(&[A, B], &ZEROS, &X_TO_1);
    assert_eq!(given.changes, [0x0C, 0x04, 0x12, 0x11, 0x00]);
    assert_eq!((given.fired[0], fired_count(&given.fired)), (0xC0, 2));
    let printed = listing(&text(&[A, B]), &ZEROS, &X_TO_1, &[7]);
    let wanted =
        "rule 1 stratum 1 fired\nrule 2 stratum 1 fired\nchange x 1\nchange y 1\nchange z 1\ncard 0C8880\ntally 7 1 0\n";
    assert_eq!(printed, wanted);
}

#[test]
fn d_fires_neither_rule_without_an_outside_cause() {
    let idle = "rule 1 stratum 1 idle\nrule 2 stratum 1 idle\nchange y 1\ncard 0C4840\ntally 1 1 0\n";
    assert_eq!(listing(&text(&[A, C]), &ZEROS, &Y_TO_1, &[1]), idle);
    let fired = "rule 1 stratum 1 fired\nrule 2 stratum 1 fired\nchange x 1\nchange z 1\ncard 0C8480\ntally 1 1 0\n";
    for slip in [X_TO_1, Z_TO_1] {
        assert_eq!(listing(&text(&[A, C]), &ZEROS, &slip, &[1]), fired);
        assert_eq!(listing(&text(&[C, A]), &ZEROS, &slip, &[1]), fired);
    }
}

#[test]
fn e_fires_the_second_rule_only() {
    let table = read(&text(&[D, E])).unwrap();
    assert_eq!([table.rules[0].stratum, table.rules[1].stratum], [2, 1]);
    let given = response(&[D, E], &ZEROS, &Y_TO_1);
    assert_eq!(changes(&[D, E], &given), [(0, 2), (1, 2)]);
    assert_eq!(given.fired[0], 0x40);
}

#[test]
fn f_has_no_values_and_changes_x_only() {
    let given = response(&[A, B], &[0x0C, 0, 0], &X_TO_1);
    assert_eq!(changes(&[A, B], &given), [(0, 2)]);
}

#[test]
fn g_repeats_the_card_and_fires_nothing() {
    let given = response(&[A], &ZEROS, &[0x04, 0x02]);
    assert_eq!(changes(&[A], &given), [(0, 1)]);
    assert_eq!(given.fired[0], 0);
}

#[test]
fn h_is_a_conflict_of_slot_0() {
    let given = response(&["WHEN x *= 1 IF TRUE THEN x := 0;"], &ZEROS, &X_TO_1);
    assert_eq!(given.refused, Some(refusal(40, 0)));
}

#[test]
fn i_reads_and_j_is_12() {
    assert_eq!(refused(&text(&["WHEN x *= 1 IF TRUE AND y |= 0 THEN z := 1;"])), None);
    assert_eq!(refused(&text(&["WHEN x *= 1 IF y |= 0 AND TRUE THEN z := 1;"])), Some(refusal(12, 0)));
}

#[test]
fn k_and_l_are_22_and_23() {
    assert_eq!(response(&[A], &[0x0C, 0x44, 0xC0], &X_TO_1).refused, Some(refusal(22, 2)));
    assert_eq!(response(&[A], &[0x0C, 0x44, 0x41], &X_TO_1).refused, Some(refusal(23, 0)));
}

#[test]
fn names_of_24_and_25_bytes() {
    let (fits, long) = ("n".repeat(24), "n".repeat(25));
    assert_eq!(refused(format!("SLOT {fits} {{{fits}}};").as_bytes()), None);
    assert_eq!(refused(format!("SLOT {long} {{0}};").as_bytes()), Some(refusal(13, 0)));
    assert_eq!(refused(format!("SLOT x {{{long}}};").as_bytes()), Some(refusal(13, 0)));
    let in_rule = format!("WHEN {long} *= 1 IF TRUE THEN z := 1;");
    assert_eq!(refused(&text(&[A, &in_rule])), Some(refusal(13, 1)));
    assert_eq!(refused(&text(&[A, &long])), Some(refusal(12, 1)));
}

/// What follows the last rule that there may be, and the refusal's number there, 0 for none.
const AFTER_LAST: [(&str, u8); 11] = [
    (" \t\r\n", 0),
    ("WHEN", 15),
    ("WHEN (", 15),
    (A, 15),
    ("SLOT", 12),
    ("x", 12),
    (";", 12),
    ("nnnnnnnnnnnnnnnnnnnnnnnnn", 12),
    ("(", 11),
    ("*", 11),
    ("é", 11),
];

/// Holds a reading to the rules that there may be and to what follows them.
fn held_to(limits: Limits) {
    let refused = |rules: &[&str]| read_within(limits, &text(rules)).err();
    for count in [1, limits.rules - 1, limits.rules] {
        assert_eq!(refused(&vec![A; count]), None, "{count}");
    }
    for (end, number) in AFTER_LAST {
        let rules = [vec![A; limits.rules], vec![end]].concat();
        assert_eq!(refused(&rules), (number > 0).then(|| refusal(number, limits.rules)), "{end}");
    }
}

#[test]
fn rules_2000_and_2001_of_the_library_and_255_and_256_of_the_program() {
    assert_eq!((LIBRARY.rules, PROGRAM.rules), (2_000, 255));
    held_to(LIBRARY);
    held_to(PROGRAM);
    assert_eq!(refused(&text(&[A; 256])), None);
    let printed = |count: usize| listing(&text(&vec![A; count]), &ZEROS, &X_TO_1, &[7]);
    assert!(printed(255).contains("rule 255 stratum 1 fired\nchange x 1\n"));
    for count in [256, 257, 1_800] {
        assert_eq!(printed(count), "refused 15 255\n");
    }
    assert_eq!(printed(2_000), "refused 10 0\n");
}

#[test]
fn bytes_262144_and_262145_of_the_library_and_65535_and_65536_of_the_program() {
    assert_eq!((LIBRARY.bytes, PROGRAM.bytes), (262_144, 65_535));
    for limits in [LIBRARY, PROGRAM] {
        let mut long = text(&[A]);
        long.resize(limits.bytes, b' ');
        assert_eq!(read_within(limits, &long).err(), None);
        long.push(b'(');
        assert_eq!(read_within(limits, &long).err(), Some(refusal(10, 0)));
        assert_eq!(read_within(limits, &vec![b'('; limits.bytes]).err(), Some(refusal(11, 0)));
    }
    let printed = |bytes: usize| listing(&vec![b' '; bytes], &[0], &[0], &[7]);
    assert_eq!(printed(65_535), "card 00\ntally 7 1 0\n");
    for bytes in [65_536, 262_144, 262_145] {
        assert_eq!(printed(bytes), "refused 10 0\n");
    }
    assert_eq!(refused(&[b' '; 65_536]), None);
}

#[test]
fn second_numbers_above_255_are_whole() {
    let after = |count: usize, end: &'static str| refused(&text(&[vec![A; count], vec![end]].concat()));
    for count in [255, 256, 257, 300, 511, 1_999] {
        assert_eq!(after(count, "("), Some(refusal(11, count)));
        assert_eq!(after(count, "WHEN IF"), Some(refusal(12, count)));
        assert_eq!(after(count, "WHEN nnnnnnnnnnnnnnnnnnnnnnnnn"), Some(refusal(13, count)));
        assert_eq!(after(count, "WHEN q"), Some(refusal(16, count)));
        assert_eq!(after(count, "WHEN x *= 1 IF TRUE THEN {y := 1, y"), Some(refusal(17, count)));
        assert_eq!(after(count, "WHEN x *= 1 IF NOT y *= 1 THEN y := 1;"), Some(refusal(18, count + 1)));
    }
}

/// The text of 446 rules, each of which asks under NOT for what the one before it assigns, and of rules of one trigger behind them.
fn high_strata() -> Vec<u8> {
    let pair = |at: usize, mark: &str| format!("s{} {mark} v{}", at % 32, at / 32);
    let values = (0..15).map(|value| format!("v{value}")).collect::<Vec<String>>().join(",");
    let slots = (0..32).map(|slot| format!("SLOT s{slot} {{{values}}};"));
    let link = |at: usize| format!("WHEN s31 *= v14 IF NOT {} THEN {};", pair(at, "*="), pair(at + 1, ":="));
    slots.chain((0..446).map(link)).collect::<String>().into_bytes()
}

#[test]
fn strata_above_255_are_whole() {
    let mut table = read(&high_strata()).unwrap();
    let strata: Vec<u16> = table.rules[..446].iter().map(|rule| rule.stratum).collect();
    assert_eq!(strata, (1..=446).collect::<Vec<u16>>());
    assert!(tested(&table).is_ok());
    for number in [0, 190, 445, 447, 702, u16::MAX] {
        table.rules[445].stratum = number;
        assert_eq!(tested(&table).err(), Some(refusal(31, 0)), "{number}");
    }
}

#[test]
fn a_fired_record_of_250_bytes() {
    let idle = "WHEN y *= 1 IF TRUE THEN z := 1;";
    for (rules, wanted) in [
        (vec![A; 2_000], vec![0xFF; 250]),
        (vec![A; 1_999], [vec![0xFF; 249], vec![0xFE]].concat()),
        ([vec![idle; 1_999], vec![A]].concat(), [vec![0; 249], vec![1]].concat()),
        ([vec![idle; 256], vec![A], vec![idle; 1_743]].concat(), [vec![0; 32], vec![0x80], vec![0; 217]].concat()),
    ] {
        let given = response(&rules, &ZEROS, &X_TO_1);
        assert_eq!((given.refused, &given.fired), (None, &wanted));
        assert_eq!(given.changes, slip_bytes(&[(0, 2), (2, 2)]));
        let ones = rules.iter().filter(|rule| **rule == A).count();
        assert_eq!((fired_count(&given.fired), Second.fired_count(&given.fired)), (ones, ones));
    }
    let conflict = [vec![A; 1_999], vec!["WHEN x *= 1 IF TRUE THEN z := 0;"]].concat();
    assert_eq!(response(&conflict, &ZEROS, &X_TO_1).refused, Some(refusal(40, 2)));
}

#[test]
fn literals_8_and_9() {
    let rule = |count: usize, more: &str| {
        let literals = vec!["y |= 0"; count].join(" AND ");
        format!("WHEN x *= 1 IF {literals}{more} THEN z := 1;")
    };
    assert_eq!(refused(&text(&[&rule(8, "")])), None);
    assert_eq!(refused(&text(&[&rule(8, "").replace("IF", "IF TRUE AND")])), None);
    assert_eq!(refused(&text(&[&rule(9, "")])), Some(refusal(15, 0)));
    assert_eq!(refused(&text(&[&rule(8, " AND NOT (")])), Some(refusal(15, 0)));
    assert_eq!(refused(&text(&[&rule(8, " AND TRUE")])), Some(refusal(12, 0)));
    assert_eq!(refused(&text(&[&rule(8, " AND q")])), Some(refusal(15, 0)));
    assert_eq!(refused(&text(&[&rule(8, &format!(" AND {}", "q".repeat(25)))])), Some(refusal(13, 0)));
}

#[test]
fn slots_values_and_assignments_at_their_limits() {
    let slots = |count: usize| (0..count).map(|at| format!("SLOT s{at} {{0}};")).collect::<String>();
    assert_eq!(refused(slots(32).as_bytes()), None);
    assert_eq!(refused(slots(33).as_bytes()), Some(refusal(15, 0)));
    assert_eq!(refused((slots(32) + "SLOT (").as_bytes()), Some(refusal(15, 0)));
    let values = |count: usize| (0..count).map(|at| at.to_string()).collect::<Vec<String>>().join(",");
    assert_eq!(refused(format!("SLOT x {{{}}};", values(15)).as_bytes()), None);
    assert_eq!(refused(format!("SLOT x {{{}}};", values(16)).as_bytes()), Some(refusal(15, 0)));
    assert_eq!(refused(format!("SLOT x {{{},3}};", values(15)).as_bytes()), Some(refusal(14, 0)));
    let assigned = |count: usize| (0..count).map(|at| format!("s{at} := 0")).collect::<Vec<String>>().join(",");
    let rule = |list: String| format!("{}WHEN s9 *= 0 IF TRUE THEN {{{list}}};", slots(10));
    assert_eq!(refused(rule(assigned(4)).as_bytes()), None);
    assert_eq!(refused(rule(assigned(5)).as_bytes()), Some(refusal(15, 0)));
    assert_eq!(refused(rule(assigned(4) + ",s0 := 0").as_bytes()), Some(refusal(15, 0)));
    assert_eq!(refused(rule("s0 := 0, s0".to_string()).as_bytes()), Some(refusal(17, 0)));
}

#[test]
fn bytes_that_begin_no_token() {
    for bad in ["(", "-", "=", "*", "|", ":", "* =", "\u{0}", "\u{b}", "\u{7f}", "é", "\u{feff}"] {
        assert_eq!(refused(bad.as_bytes()), Some(refusal(11, 0)), "{bad:?}");
    }
    assert_eq!(refused(&text(&[A, "WHEN x *"])), Some(refusal(11, 1)));
    assert_eq!(refused(&text(&[A, "WHEN q("])), Some(refusal(16, 1)));
    assert_eq!(refused(&text(&[A, "WHEN x *=="])), Some(refusal(11, 1)));
    assert_eq!(refused(b"*="), Some(refusal(12, 0)));
}

#[test]
fn tokens_out_of_place() {
    for rule in ["WHEN", "WHEN x |= 1", "WHEN NOT x", "WHEN x *= 1 IF THEN", "WHEN x *= 1 IF NOT TRUE", "SLOT", ";"] {
        assert_eq!(refused(&text(&[A, B, rule])), Some(refusal(12, 2)), "{rule}");
    }
    for rule in ["x := 1, z := 1;", "{};", "{x := 1,};", "TRUE := 1;", "x := TRUE;", "x := 1"] {
        let rule = format!("WHEN y *= 1 IF TRUE THEN {rule}");
        assert_eq!(refused(&text(&[&rule])), Some(refusal(12, 0)), "{rule}");
    }
    for slots in ["SLOT x {}", "SLOT x {0,}", "SLOT TRUE", "SLOT x {IF", "SLOT x {0}", "WHEN WHEN", "x", "slot x {0};"]
    {
        assert_eq!(refused(slots.as_bytes()), Some(refusal(12, 0)), "{slots}");
    }
}

#[test]
fn what_reads() {
    for good in ["", " \t\r\n", "SLOT x {x};", "SLOT IF- {SLOTx};", "SLOT slot{True};\n", "SLOT\nx{0\t,1}\r;"] {
        assert_eq!(refused(good.as_bytes()), None, "{good:?}");
    }
    for rule in ["WHEN x*=1 IF NOT NOT NOT y|=0 THEN{z:=1};", "WHEN x *= 1 IF TRUE THEN { y := 0 , z := 1 } ;"] {
        assert_eq!(refused(&text(&[rule])), None, "{rule}");
    }
}

#[test]
fn names_run_on_as_far_as_they_can() {
    assert_eq!(refused(b"SLOT{a};"), Some(refusal(12, 0)));
    assert_eq!(refused(b"SLOTx {a};"), Some(refusal(12, 0)));
    assert_eq!(refused(&text(&["WHEN x *= 1IF"])), Some(refusal(16, 0)));
    assert_eq!(refused(&text(&["WHEN x_y"])), Some(refusal(11, 0)));
}

#[test]
fn an_even_number_of_nots_cancels() {
    let negated = |nots: usize| {
        let rule = format!("WHEN x *= 1 IF {} y |= 0 THEN z := 1;", "NOT ".repeat(nots));
        read(&text(&[&rule])).unwrap().rules[0].literals[0].negated
    };
    assert_eq!([0, 1, 2, 3, 4].map(negated), [false, true, false, true, false]);
}

#[test]
fn declared_once_and_used_as_declared() {
    assert_eq!(refused(b"SLOT x {0}; SLOT x {0};"), Some(refusal(14, 0)));
    assert_eq!(refused(b"SLOT x {0,0};"), Some(refusal(14, 0)));
    assert_eq!(refused(b"SLOT x {0}; SLOT y {0};"), None);
    assert_eq!(refused(b"WHEN x *= 1 IF TRUE THEN x := 1;"), Some(refusal(16, 0)));
    assert_eq!(refused(&text(&["WHEN x *= 2"])), Some(refusal(16, 0)));
    assert_eq!(refused(&text(&[A, "WHEN x *= 1 IF TRUE THEN {x := 0, x"])), Some(refusal(17, 1)));
}

/// The strata of some rules, or the rule that 18 names.
fn layered(rules: &[&str]) -> Result<Vec<u16>, usize> {
    let table = read(&text(rules)).map_err(|why| {
        assert_eq!(why.number, 18);
        why.second
    })?;
    Ok(table.rules[..table.count as usize].iter().map(|rule| rule.stratum).collect())
}

#[test]
fn a_plain_test_stays_level_and_one_under_not_falls() {
    assert_eq!(layered(&[A, B]), Ok(vec![1, 1]));
    assert_eq!(layered(&[B, A]), Ok(vec![1, 1]));
    assert_eq!(layered(&[D, E]), Ok(vec![2, 1]));
    assert_eq!(layered(&[A, C, E]), Ok(vec![1, 1, 1]));
    assert_eq!(layered(&["WHEN z *= 1 IF x *= 1 THEN y := 1;", A]), Ok(vec![1, 1]));
    assert_eq!(layered(&["WHEN z *= 1 IF NOT x *= 1 THEN y := 1;", C, A]), Ok(vec![2, 1, 1]));
    assert_eq!(layered(&["WHEN z *= 1 IF NOT x |= 1 THEN y := 1;", C, A]), Ok(vec![1, 1, 1]));
    let bar = "WHEN z *= 1 IF NOT x *= NONE THEN y := 1;";
    assert_eq!(layered(&[bar, "WHEN y *= 0 IF TRUE THEN x := NONE;"]), Ok(vec![2, 1]));
    assert_eq!(layered(&[bar, "WHEN y *= 0 IF TRUE THEN x := 0;"]), Ok(vec![1, 1]));
    assert_eq!(layered(&[bar, "WHEN y *= 1 IF TRUE THEN x := NONE;"]), Err(1));
    assert_eq!(layered(&["WHEN x *= NONE IF TRUE THEN x := NONE;"]), Ok(vec![1]));
    assert_eq!(layered(&["WHEN z *= 1 IF NOT x *= NONE THEN x := NONE;"]), Err(1));
}

#[test]
fn a_rule_that_tests_what_it_assigns() {
    assert_eq!(layered(&["WHEN x *= 1 IF TRUE THEN x := 1;"]), Ok(vec![1]));
    assert_eq!(layered(&["WHEN x *= 1 IF y *= 1 THEN y := 1;"]), Ok(vec![1]));
    assert_eq!(layered(&["WHEN x *= 1 IF NOT y *= 1 THEN y := 1;"]), Err(1));
    assert_eq!(layered(&["WHEN x *= 1 IF NOT NOT y *= 1 THEN y := 1;"]), Ok(vec![1]));
    assert_eq!(layered(&["WHEN x *= 1 IF NOT NOT NOT y *= 1 THEN y := 1;"]), Err(1));
    let own = "WHEN x *= 1 IF TRUE THEN x := 1;";
    assert_eq!(response(&[own], &ZEROS, &Y_TO_1).fired[0], 0);
    assert_eq!(response(&[own], &ZEROS, &X_TO_1).fired[0], 0x80);
}

#[test]
fn circles_through_a_not_name_their_lowest_rule() {
    let [up, back] = ["WHEN y *= 1 IF NOT z *= 1 THEN x := 1;", "WHEN x *= 1 IF TRUE THEN z := 1;"];
    let [before, behind] = ["WHEN y *= 0 IF TRUE THEN y := 1;", "WHEN z *= 1 IF TRUE THEN z := 0;"];
    assert_eq!(layered(&[up, back]), Err(1));
    assert_eq!(layered(&[behind, up, back]), Err(2));
    assert_eq!(layered(&[before, behind, back, up]), Err(3));
    assert_eq!(layered(&["WHEN y *= 0 IF TRUE THEN y := 0;", back, up]), Err(2));
    assert_eq!(layered(&["WHEN y *= 1 IF NOT NOT z *= 1 THEN x := 1;", back]), Ok(vec![1, 1]));
    assert_eq!(refused(&text(&[up, back, "WHEN x"])), Some(refusal(12, 2)));
}

#[test]
fn a_circle_may_meet_a_rule_more_than_once() {
    assert_eq!(layered(&MIXED), Err(1));
    let [first, second, third] = MIXED;
    for rules in [[third, second, first], [second, first, third], [third, first, second]] {
        assert_eq!(layered(&rules), Err(1));
    }
    assert_eq!(layered(&["WHEN z *= 1 IF TRUE THEN z := 0;", first, second, third]), Err(2));
    assert_eq!(layered(&[first, second]), Ok(vec![1, 1]));
    assert_eq!(layered(&[first, third]), Ok(vec![1, 1]));
    assert_eq!(layered(&[second, third]), Err(1));
}

#[test]
fn cards_and_slips_of_wrong_form() {
    let card = |bytes: &[u8]| response(&[A], bytes, &[]).refused.map(|why| (why.number, why.second));
    assert_eq!(card(&[]), Some((20, 0)));
    assert_eq!(card(&[0x0C, 0x44]), Some((20, 0)));
    assert_eq!(card(&[0x08, 0x44]), Some((21, 0)));
    assert_eq!(card(&[[0xFC].as_slice(), &[0; 32]].concat()), Some((21, 0)));
    assert_eq!(card(&[0x0C, 0x44, 0xFF]), Some((22, 2)));
    assert_eq!(card(&ZEROS), Some((24, 0)));
    let slip = |bytes: &[u8]| response(&[A], &ZEROS, bytes).refused.map(|why| (why.number, why.second));
    assert_eq!(slip(&[0x00]), None);
    assert_eq!(slip(&[0x01]), Some((28, 0)));
    assert_eq!(slip(&[0x00, 0x00]), Some((24, 0)));
    assert_eq!(slip(&[0x04, 0x64]), Some((25, 0)));
    assert_eq!(slip(&[0x04, 0x00]), None);
    assert_eq!(slip(&[0x04, 0x06]), Some((27, 0)));
    assert_eq!(slip(&[0x04, 0x05]), Some((28, 0)));
    assert_eq!(slip(&[0x08, 0x04, 0x00]), Some((26, 1)));
}

#[test]
fn an_empty_file_answers_an_empty_slip() {
    assert_eq!(listing(b"", &[0], &[0], &[40]), "card 00\ntally 40 1 0\n");
    assert_eq!(listing(b"", &[1], &[0], &[40]), "refused 23 0\n");
    assert_eq!(listing(b"", &[0, 0], &[0], &[40]), "refused 20 0\n");
    assert_eq!(listing(b"", &[0], &[0x04, 0x04], &[40]), "refused 25 0\n");
    assert_eq!(listing(&text(&[A]), &ZEROS, &[0], &[2]), "rule 1 stratum 1 idle\ncard 0C4440\ntally 2 1 0\n");
}

#[test]
fn packing_and_its_refusals() {
    let table = read(&text(&[A])).unwrap();
    let mut output = [7; 4];
    assert_eq!(Second.pack_card(&table, &[1, 1, 1], &mut output), Ok(3));
    assert_eq!(output, [0x0C, 0x44, 0x40, 7]);
    assert_eq!(Second.pack_card(&table, &[1, 1, 1], &mut output[..2]), Err(refusal(30, 1)));
    assert_eq!(Second.pack_card(&table, &[1, 1], &mut output), Err(refusal(21, 0)));
    assert_eq!(Second.pack_card(&table, &[1, 200, 3], &mut []), Err(refusal(22, 1)));
    assert_eq!(Second.pack_slip(&table, &[(0, 2)], &mut output), Ok(2));
    assert_eq!(output, [0x04, 0x04, 0x40, 7]);
    assert_eq!(Second.pack_slip(&table, &[(0, 2)], &mut output[..1]), Err(refusal(30, 2)));
    assert_eq!(Second.pack_slip(&table, &[(9, 0); 33], &mut output), Err(refusal(24, 0)));
    assert_eq!(Second.pack_slip(&table, &[(0, 1), (0, 0)], &mut output), Err(refusal(26, 1)));
    assert_eq!(Second.pack_slip(&table, &[(0, 0), (1, 3)], &mut output), Err(refusal(27, 1)));
    assert_eq!(Second.pack_slip(&table, &[(1, 0)], &mut output), Ok(2));
    assert_eq!(output, [0x04, 0x20, 0x40, 7]);
    assert_eq!(unpack_slip(&tested(&table).unwrap(), &[0x04, 0x20]), Ok(vec![(1, 0)]));
    assert_eq!(Second.pack_slip(&table, &[], &mut output), Ok(1));
    assert_eq!(unpack_card(&tested(&table).unwrap(), &ZEROS), Ok(vec![1, 1, 1]));
}

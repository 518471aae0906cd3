//! The native engine by itself at its limits, and the inputs of the benchmark at theirs.

use native::engine::{Engine, Native};
use native::input::{Input, Series};
use native::inputs::inputs;
use native::mark_inputs::mark_inputs;
use native::raw::{Tally, CARD_BYTES, EDITORS, FIRED_BYTES, PRINT_BYTES, SLIP_BYTES};
use native::read::TEXT;
use native::response::{Answer, Caller, Outputs};
use native::table::RULES;
use native::Refusal;

/// A text of two slots and so many rules.
fn ruled(rules: usize) -> Vec<u8> {
    let slots = "SLOT a {x, y}; SLOT b {x, y};\n";
    [slots, &"WHEN a *= x IF TRUE THEN b := y;\n".repeat(rules)].concat().into_bytes()
}

/// The answer of the engine to an input by the table of its last reading, by strata or by marks.
fn answer(engine: &mut Native, marks: bool, input: &Input) -> Result<Answer, Refusal> {
    let table = Box::new(*engine.table());
    let mut records = [Tally::default(); EDITORS];
    let [mut card, mut changes, mut fired] = [CARD_BYTES, SLIP_BYTES, FIRED_BYTES].map(|length| vec![0; length]);
    let outputs = Outputs { card: &mut card, changes: &mut changes, fired: &mut fired };
    let caller = Caller { records: &mut records, editor: 1 };
    let respond = if marks { Native::respond_by_marks } else { Native::respond };
    let answer = respond(engine, &table, caller, &input.card, &input.slip, outputs)?;
    assert_eq!(answer.fired, fired.iter().map(|byte| byte.count_ones() as usize).sum::<usize>(), "{}", input.name);
    Ok(answer)
}

/// The input of a name.
fn named(name: &str) -> Input {
    inputs().into_iter().chain(mark_inputs()).find(|input| input.name == name).expect(name)
}

/// The highest stratum of an input's table, and how many of its rules fire by strata.
fn strata_and_fired(name: &str) -> (u16, Result<usize, u8>) {
    let (mut engine, input) = (Native::new(), named(name));
    engine.read(&input.text).expect(name);
    let strata = engine.table().rules.iter().map(|rule| rule.stratum).max().unwrap_or(0);
    (strata, answer(&mut engine, false, &input).map(|answer| answer.fired).map_err(|why| why.number))
}

/// Two thousand rules are read, all in stratum 1; at one more it is 15, after 2,000 rules.
#[test]
fn takes_two_thousand_rules() {
    let mut engine = Native::new();
    assert_eq!(engine.read(&ruled(RULES)), Ok(()));
    assert_eq!(engine.table().count, 2_000);
    assert!(engine.table().rules.iter().all(|rule| rule.stratum == 1));
    assert_eq!(engine.read(&ruled(RULES + 1)), Err(Refusal { number: 15, second: 2_000 }));
    assert!(*engine.table() == *native::table::Table::empty());
}

/// A text of 262,144 bytes is read, its last name where it stands; a longer one is 10.
#[test]
fn takes_as_many_bytes() {
    let mut engine = Native::new();
    let last = b"SLOT last {one};";
    let mut text = vec![b' '; TEXT - last.len()];
    text.extend(last);
    assert_eq!(engine.read(&text), Ok(()));
    assert_eq!(&text[engine.table().slots[0].values[0].range()], b"one");
    text.push(b' ');
    assert_eq!(engine.read(&text), Err(Refusal { number: 10, second: 0 }));
}

/// A text whose print has 262,124 bytes and so many more, 1 to 23: ten slot lines of 14 bytes, one of 62 and those, 1,514 rules of 173.
fn long_print(more: usize) -> Vec<u8> {
    let (slot, value) = ("s".repeat(24), "v".repeat(24));
    let lines: String = ('a'..='j').map(|name| format!("SLOT {name} {{x}};")).collect();
    let rule = format!("WHEN {slot}*={value} IF {slot}*={value} THEN {slot}:={value};");
    [lines, format!("SLOT {slot} {{{value},{}}};", "w".repeat(more)), rule.repeat(1_514)].concat().into_bytes()
}

/// A print of 262,144 bytes is made, a longer one is 34.
#[test]
fn prints_as_many_bytes() {
    let (mut engine, mut out) = (Native::new(), vec![0; PRINT_BYTES + 1]);
    assert_eq!(engine.print(&long_print(20), &mut out), Ok(262_144));
    assert_eq!(engine.print(&long_print(21), &mut out), Err(Refusal { number: 34, second: 0 }));
    assert_eq!(engine.print(&long_print(20), &mut out[..PRINT_BYTES - 1]), Err(Refusal { number: 33, second: 0 }));
}

/// After any reading a table has nothing in the places that it does not use.
#[test]
fn leaves_nothing_behind() {
    let mut engine = Native::new();
    let texts = [ruled(RULES), ruled(3), b"SLOT a {x, y}; WHEN a *= x IF a |= x THEN".to_vec(), ruled(40), vec![]];
    for text in texts {
        let mut fresh = Native::new();
        assert_eq!(engine.read(&text), fresh.read(&text));
        assert!(*engine.table() == *fresh.table());
    }
}

/// Every input keeps to the limits and is read without test 18; where both responses answer, they agree.
#[test]
fn inputs_keep_to_the_limits() {
    let mut engine = Native::new();
    for input in inputs().into_iter().chain(mark_inputs()) {
        assert!(input.text.len() <= TEXT, "{}", input.name);
        assert_eq!(engine.read_unlayered(&input.text), Ok(()), "{}", input.name);
        let by_marks = answer(&mut engine, true, &input);
        let by_strata = engine.read(&input.text).and_then(|()| answer(&mut engine, false, &input));
        assert!(by_marks.is_err() || by_strata.is_err() || by_marks == by_strata, "{}", input.name);
    }
}

/// The largest inputs have the rules, the strata and the bytes that their names say.
#[test]
fn largest_inputs_are_as_said() {
    for (name, strata) in [
        ("6 in a condition", 1),
        ("6 in a condition, 7 strata", 7),
        ("5 in a condition, withdrawn", 1),
        ("8 in a condition, close", 1),
    ] {
        let name = format!("32 slots, 2000 rules, {name}");
        assert_eq!(named(&name).text.len(), TEXT);
        assert_eq!(strata_and_fired(&name), (strata, Ok(1_508)));
    }
    assert_eq!(strata_and_fired("2000 rules, plain chain, last first (40)"), (1, Err(40)));
    assert_eq!(strata_and_fired("2000 rules, plain chain behind a NOT, last first (40)"), (2, Err(40)));
    assert_eq!(strata_and_fired("2000 rules, chain under NOT, last first").0, 479);
    assert_eq!(strata_and_fired("2000 rules, plain circles tied by NOTs, shuffled").0, 48);
    let circle = named("2000 rules, circle through a NOT, last first (18)");
    assert_eq!(Native::new().read(&circle.text), Err(Refusal { number: 18, second: 1 }));
}

/// In the files of one kind three rules in four fire, all have as many literals and assignments, and about as many bytes.
#[test]
fn alike_inputs_are_alike() {
    let mut engine = Native::new();
    let alike = inputs().into_iter().filter(|input| input.series == Some(Series::Alike));
    for (input, count) in alike.zip([255, 500, 1_000, RULES]) {
        engine.read(&input.text).expect("it is accepted");
        let rules = &engine.table().rules[..count];
        assert!(rules.iter().all(|rule| rule.tested == 6 && rule.assigned == 4 && rule.stratum == 1));
        assert!((128 * count..135 * count).contains(&input.text.len()), "{}", input.name);
        assert_eq!(answer(&mut engine, false, &input).map(|answer| answer.fired), Ok(count - count / 4));
    }
}

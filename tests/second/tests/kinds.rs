//! The generator reaches every kind of rules, responses and tables that strata and circles tell apart, of texts and responses with NONE, of those about the limits, and of calls by their editors.

use std::collections::BTreeMap;

use second::compare::{compare_seeds, Seed};
use second::editor_kinds::call_kinds;
use second::editors::Caller;
use second::engine::{Engine, Second, Way};
use second::firing_checks::{check_small, Counts};
use second::gen::{card, program_file, slip, Rng};
use second::gen_editors::editor_file;
use second::gen_large::LARGE;
use second::kinds::{holding, response_kinds, rule_kinds, text_kinds, Kind};
use second::kinds::{CALL_KINDS, MARK_KINDS, MARK_TABLE_KINDS, NONE_REFUSED_KINDS, PRINT_KINDS};
use second::kinds::{LARGE_KINDS, PROGRAM_KINDS, RESPONSE_KINDS, RULE_KINDS, TABLE_KINDS, TEXT_KINDS};
use second::large_kinds::program_kinds;
use second::large_kinds::{large_print_kinds, large_response_kinds, large_table_kinds, large_text_kinds};
use second::listing::listing;
use second::mark_kinds::{mark_kinds, mark_table_kinds};
use second::none_kinds::refused_kind;
use second::read::PROGRAM;
use second::response::Outputs;
use second::table::{Name, Pair, Table};
use second::table31::{tested, tested_for_marks, unlayered};
use second::table_kinds::table_kinds;
use second::table_lines::{generated, tables};
use second::text::{tokens, Kind as TokenKind};
use second::Refusal;

/// How often each kind was met.
type Met = BTreeMap<Kind, usize>;

/// Counts kinds.
fn meet(met: &mut Met, kinds: impl IntoIterator<Item = Kind>) {
    kinds.into_iter().for_each(|kind| *met.entry(kind).or_default() += 1);
}

/// Fails where one of some kinds was met less often than wanted.
fn demand(met: &Met, kinds: &[&[Kind]], wanted: usize) {
    let seldom = |kind: &Kind| met.get(kind).map_or(true, |count| *count < wanted);
    let missing: Vec<Kind> = kinds.concat().into_iter().filter(seldom).collect();
    assert!(missing.is_empty(), "{missing:?} of {met:?}");
}

/// The second engine, and the kinds of what it is asked about: of large files and tables only those about the limits, since the others cost time.
#[derive(Default)]
struct Watching {
    large: bool,
    met: Met,
}

impl Watching {
    /// Counts the kinds of a response and of its table.
    fn meet_response(&mut self, way: Way, table: &Table, card: &[u8], slip: &[u8], number: u8) {
        match way {
            Way::Strata => {
                meet(&mut self.met, table_kinds(table));
                if number == 0 || number == 40 {
                    meet(&mut self.met, response_kinds(table, card, slip));
                }
            }
            Way::Marks => {
                meet(&mut self.met, mark_table_kinds(table));
                if [0, 41, 42].contains(&number) {
                    meet(&mut self.met, mark_kinds(table, card, slip));
                }
            }
        }
    }
}

impl Engine for Watching {
    fn read(&mut self, text: &[u8]) -> (Option<Refusal>, Box<Table>) {
        if self.large {
            meet(&mut self.met, large_text_kinds(text));
        } else {
            meet(&mut self.met, text_kinds(text));
            meet(&mut self.met, refused_kind(text));
        }
        Second.read(text)
    }

    fn read_unlayered(&mut self, text: &[u8]) -> (Option<Refusal>, Box<Table>) {
        Second.read_unlayered(text)
    }

    fn print(&mut self, text: &[u8], output: &mut [u8]) -> Result<usize, Refusal> {
        let printed = Second.print(text, output);
        let has_none = |print: &[u8]| tokens(print).iter().any(|token| token.kind == TokenKind::None);
        let none = printed.map_or(false, |length| has_none(&output[..length]));
        meet(&mut self.met, holding(&[(Kind::NonePrinted, none)]));
        if self.large {
            meet(&mut self.met, large_print_kinds(text, printed));
        }
        printed
    }

    fn strata(&mut self, table: &Table) -> Result<Vec<u16>, Refusal> {
        Second.strata(table)
    }

    fn slot_name(&mut self, text: &[u8], table: &Table, slot: u8) -> Result<Name, Refusal> {
        Second.slot_name(text, table, slot)
    }

    fn value_name(&mut self, text: &[u8], table: &Table, slot: u8, value: u8) -> Result<Name, Refusal> {
        Second.value_name(text, table, slot, value)
    }

    fn unpack_card(&mut self, table: &Table, card: &[u8]) -> Result<Vec<u8>, Refusal> {
        Second.unpack_card(table, card)
    }

    fn unpack_slip(&mut self, table: &Table, slip: &[u8]) -> Result<Vec<Pair>, Refusal> {
        Second.unpack_slip(table, slip)
    }

    fn pack_card(&mut self, table: &Table, values: &[u8], output: &mut [u8]) -> Result<usize, Refusal> {
        Second.pack_card(table, values, output)
    }

    fn pack_slip(&mut self, table: &Table, changes: &[Pair], output: &mut [u8]) -> Result<usize, Refusal> {
        Second.pack_slip(table, changes, output)
    }

    fn respond(
        &mut self,
        way: Way,
        table: &Table,
        caller: Caller,
        card: &[u8],
        slip: &[u8],
        outputs: Outputs,
    ) -> Result<usize, Refusal> {
        let (records, editor) = (caller.records.to_vec(), caller.editor);
        let Outputs { card: renewed, changes, fired } = outputs;
        let outputs = Outputs { card: renewed, changes, fired: &mut *fired };
        let result = Second.respond(way, table, caller, card, slip, outputs);
        if self.large || usize::from(table.count) > PROGRAM.rules {
            meet(&mut self.met, large_response_kinds(table, result, fired));
            meet(&mut self.met, large_table_kinds(table));
            return result;
        }
        self.meet_response(way, table, card, slip, result.map_or_else(|why| why.number, |_| 0));
        let is_31 = match way {
            Way::Strata => tested(table).is_err(),
            Way::Marks => tested_for_marks(table).is_err(),
        };
        meet(&mut self.met, call_kinds(&records, editor, &result, is_31));
        result
    }

    fn fired_count(&mut self, record: &[u8]) -> usize {
        Second.fired_count(record)
    }
}

#[test]
fn the_comparison_meets_every_kind() {
    let mut watching = Watching::default();
    assert!(compare_seeds(&mut watching, Seed::Any, 1, 3_000).0.is_none());
    let kinds = [RULE_KINDS, TEXT_KINDS, NONE_REFUSED_KINDS, PRINT_KINDS, RESPONSE_KINDS, TABLE_KINDS];
    demand(&watching.met, &kinds, 3);
    demand(&watching.met, &[MARK_KINDS, MARK_TABLE_KINDS, CALL_KINDS], 10);
}

#[test]
fn large_files_meet_every_kind_about_the_limits() {
    let mut watching = Watching { large: true, ..Watching::default() };
    assert!(compare_seeds(&mut watching, Seed::Large, 1, 4 * LARGE).0.is_none());
    demand(&watching.met, &[LARGE_KINDS], 1);
}

#[test]
fn the_program_is_asked_about_its_limits() {
    let mut met = Met::new();
    for seed in 1..=2_000 {
        meet(&mut met, program_kinds(&program_file(&mut Rng::new(seed), seed).text));
    }
    demand(&met, &[PROGRAM_KINDS], 1);
}

#[test]
fn the_program_is_asked_for_withdrawals() {
    let lists = |seed: &u64| {
        let mut rng = Rng::new(*seed);
        let file = program_file(&mut rng, *seed);
        let (card, slip) = (card(&mut rng, &file.sketch), slip(&mut rng, &file.sketch));
        listing(&file.text, &card, &slip, &editor_file(&mut rng)).contains(" NONE\n")
    };
    let listed = (1..=2_000).filter(lists).count();
    assert!(listed > 50, "{listed}");
}

#[test]
fn twenty_inputs_of_tables_meet_every_kind() {
    let mut met = Met::new();
    for table in (1..=20).flat_map(|seed| tables(&generated(seed))) {
        meet(&mut met, table_kinds(&table));
        meet(&mut met, large_table_kinds(&table));
        meet(&mut met, unlayered(&table).map_or(Vec::new(), |program| rule_kinds(&program.rules)));
    }
    let large = [Kind::HighStrata, Kind::HighRuleNamed, Kind::CountOneMore, Kind::CountGreatest];
    demand(&met, &[RULE_KINDS, TABLE_KINDS, &large], 1);
}

#[test]
fn firing_orders_are_tried_in_every_kind_of_plain_circle() {
    let mut counts = Counts::default();
    (1..1_200).for_each(|seed| check_small(&mut Second, seed, &mut counts).unwrap());
    let rules = [Kind::OwnTest, Kind::PlainCircle, Kind::WidePlainCircle, Kind::CircleAbove, Kind::PlainChain];
    let many = |kind: &Kind| *kind != Kind::ManyPasses;
    let responses: Vec<Kind> = RESPONSE_KINDS.iter().copied().filter(many).collect();
    demand(&counts.kinds, &[&rules, TEXT_KINDS, &responses], 5);
}

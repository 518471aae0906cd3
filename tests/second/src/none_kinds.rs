//! The kinds of texts that have NONE, or a name like it, and of responses with withdrawals.

use std::collections::BTreeSet;

use crate::broken_firing;
use crate::fault::Fault;
use crate::kinds::{holding, Kind};
use crate::marks::{Mark, Moment};
use crate::read::{read_rules, refusals, walk, Walk, Want, GRAMMAR, LIBRARY};
use crate::response::{conflict, Changes, Firing};
use crate::table::{Literal, Pair, Program, Rule, NONE};
use crate::text::{tokens, Kind as TokenKind};

/// Whether a literal of a rule names NONE, asks for a change or not, and stands under NOT or not.
fn tests_none(rule: &Rule, becomes: bool, negated: bool) -> bool {
    let none = |literal: &Literal| literal.pair.1 == NONE;
    rule.literals.iter().any(|literal| none(literal) && literal.becomes == becomes && literal.negated == negated)
}

/// The kinds of a text that is accepted or 18, with its rules.
pub fn none_kinds(text: &[u8], rules: &[Rule]) -> Vec<Kind> {
    let is_like =
        |word: &[u8]| word != b"NONE" && word.get(..4).map_or(false, |front| front.eq_ignore_ascii_case(b"NONE"));
    let tests = |becomes: bool, negated: bool| rules.iter().any(|rule| tests_none(rule, becomes, negated));
    let assigns = |rule: &Rule| rule.assignments.iter().any(|pair| pair.1 == NONE);
    holding(&[
        (Kind::NoneTrigger, rules.iter().any(|rule| rule.trigger.1 == NONE)),
        (Kind::NoneAwaited, tests(true, false)),
        (Kind::NoneBarred, tests(true, true)),
        (Kind::NoneHad, tests(false, false)),
        (Kind::NoneNotHad, tests(false, true)),
        (Kind::NoneAssigned, rules.iter().any(assigns)),
        (Kind::LikeNone, tokens(text).iter().any(|token| is_like(token.word(text)))),
    ])
}

/// What is wanted after the tokens that are in their places.
fn wanted(walk: &Walk) -> Want {
    let production = |want: Want, kind: TokenKind| GRAMMAR.iter().find(|one| (one.0, one.1) == (want, kind));
    let last = walk.placed.last().and_then(|last| production(last.want, last.token.kind));
    last.map_or(Want::SlotLine, |production| production.2)
}

/// The kind of a text that is 12 at NONE.
pub fn refused_kind(text: &[u8]) -> Option<Kind> {
    let walk = walk(text, GRAMMAR);
    let is_12 = read_rules(LIBRARY, text).map_or_else(|why| why.number == 12, |_| false);
    let first = refusals(text, &walk, LIBRARY.rules).into_iter().min();
    let is_none = first.map_or(false, |at| walk.tokens[at.position].kind == TokenKind::None);
    (is_12 && is_none).then(|| match wanted(&walk) {
        Want::SlotName => Kind::NoneAsSlot,
        Want::ValueName => Kind::NoneAsValue,
        Want::TriggerSlot => Kind::NoneAsTriggerSlot,
        Want::Condition | Want::Literal | Want::Negated => Kind::NoneAsLiteralSlot,
        Want::Assignments | Want::ListedSlot => Kind::NoneAsAssignedSlot,
        _ => Kind::NoneAsWord,
    })
}

/// Whether a pair withdraws what a card has.
fn withdraws(card: &[u8], pair: &Pair) -> bool {
    pair.1 == NONE && card[usize::from(pair.0)] != NONE
}

/// Whether one of some pairs withdraws what a card has.
fn some_withdrawn(card: &[u8], pairs: &[Pair]) -> bool {
    pairs.iter().any(|pair| withdraws(card, pair))
}

/// Whether one of some pairs withdraws what a card does not have.
fn nothing_withdrawn(card: &[u8], pairs: &[Pair]) -> bool {
    pairs.iter().any(|pair| pair.1 == NONE && !withdraws(card, pair))
}

/// The pairs that the slip does not have.
fn beside(slip: &[Pair], pairs: impl IntoIterator<Item = Pair>) -> Vec<Pair> {
    pairs.into_iter().filter(|pair| !slip.contains(pair)).collect()
}

/// Whether one of the fired rules passes a test.
fn some_fired(program: &Program, fired: &[usize], test: impl Fn(&Rule) -> bool) -> bool {
    fired.iter().any(|at| test(&program.rules[*at]))
}

/// The kinds of a response by strata, given what firing came to.
pub fn withdrawal_kinds(program: &Program, card: &[u8], slip: &[Pair], firing: &Firing) -> Vec<Kind> {
    let Firing { changes, fired } = firing;
    let slot = conflict(changes);
    let answered = slot.is_none();
    let by_rules = beside(slip, changes.iter().copied());
    let woken: BTreeSet<usize> =
        broken_firing::fire(Fault::EmptyWithdrawn, program, card, slip).fired.into_iter().collect();
    let some = |test: &dyn Fn(&Rule) -> bool| some_fired(program, fired, test);
    holding(&[
        (Kind::Withdrawn, answered && some_withdrawn(card, slip)),
        (Kind::WithdrawnByRule, answered && some_withdrawn(card, &by_rules)),
        (Kind::NothingWithdrawn, answered && nothing_withdrawn(card, slip)),
        (Kind::NothingWithdrawnByRule, answered && nothing_withdrawn(card, &by_rules)),
        (Kind::WokenByWithdrawal, some(&|rule| rule.trigger.1 == NONE)),
        (Kind::UnwokenByNothing, woken != fired.iter().copied().collect()),
        (Kind::NoneHeld, some(&|rule| tests_none(rule, false, false))),
        (Kind::NotNoneHeld, some(&|rule| tests_none(rule, false, true))),
        (Kind::UnwithdrawnHeld, some(&|rule| tests_none(rule, true, true))),
        (Kind::WithdrawalConflict, slot.map_or(false, |slot| changes.contains(&(slot, NONE)))),
    ])
}

/// The slots with two values or more among pairs.
fn doubled(pairs: &Changes) -> BTreeSet<u8> {
    let values = |slot: u8| pairs.range((slot, NONE)..=(slot, u8::MAX)).count();
    pairs.iter().map(|pair| pair.0).filter(|slot| values(*slot) > 1).collect()
}

/// The kinds of a response by marks, given the end of an order of selection and the number that it comes to, 0 for an answer.
pub fn mark_withdrawal_kinds(program: &Program, card: &[u8], slip: &[Pair], end: &Moment, number: u8) -> Vec<Kind> {
    let assigned = end.fired.iter().flat_map(|at| &program.rules[*at].assignments);
    let brought: Changes = slip.iter().chain(assigned).copied().collect();
    let values: Changes = brought.iter().copied().filter(|pair| pair.1 != NONE).collect();
    let by_rules = beside(slip, end.marks.with(Mark::Positive));
    let unknown = end.marks.with(Mark::Unknown);
    let is_assigned = |pair: &Pair| program.rules.iter().any(|rule| rule.assignments.contains(pair));
    let barred = |rule: &Rule| {
        let bars = |literal: &Literal| literal.becomes && literal.negated && withdraws(card, &literal.pair);
        rule.literals.iter().any(|literal| bars(literal) && is_assigned(&literal.pair))
    };
    holding(&[
        (Kind::MarkWithdrawn, number == 0 && some_withdrawn(card, slip)),
        (Kind::MarkWithdrawnByRule, number == 0 && some_withdrawn(card, &by_rules)),
        (Kind::MarkWoken, number == 0 && some_fired(program, &end.fired, |rule| rule.trigger.1 == NONE)),
        (Kind::NoneRuledOut, number == 0 && some_fired(program, &end.fired, barred)),
        (Kind::NoneClashes, number == 41 && doubled(&values).is_empty()),
        (Kind::NoneUnknown, number == 42 && unknown.iter().all(|pair| pair.1 == NONE)),
    ])
}

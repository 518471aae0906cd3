//! Reading of rule text: all tokens first, then the grammar as a table, then every refusal gathered by itself and the least taken.

use std::collections::{HashMap, HashSet};

use crate::raw::PRINT_BYTES;
use crate::strata::strata;
use crate::table::{table_of, Literal, Name, Rule, SlotLine, Table};
use crate::table::{ASSIGNMENTS, LITERALS, NONE, RULES, SLOTS, VALUES};
use crate::text::{tokens, Kind, Token};
use crate::{refusal, Refusal};

/// The most bytes and the most rules of a rule text.
#[derive(Clone, Copy, PartialEq, Eq, Debug)]
pub struct Limits {
    pub bytes: usize,
    pub rules: usize,
}

/// The limits of the library, whose prints are texts that it takes, and those of the program.
pub const LIBRARY: Limits = Limits { bytes: PRINT_BYTES, rules: RULES };
pub const PROGRAM: Limits = Limits { bytes: 65_535, rules: 255 };

/// The most bytes of a name.
pub const NAME: usize = 24;

/// What is wanted next in a text.
#[derive(Clone, Copy, PartialEq, Eq, Debug)]
pub enum Want {
    SlotLine,
    SlotName,
    ValuesOpen,
    ValueName,
    ValueOver,
    SlotOver,
    TriggerSlot,
    TriggerMark,
    TriggerValue,
    If,
    Condition,
    TrueOver,
    Literal,
    Negated,
    LiteralMark,
    LiteralValue,
    LiteralOver,
    Assignments,
    OnlyMark,
    OnlyValue,
    ListedSlot,
    ListedMark,
    ListedValue,
    ListedOver,
    RuleOver,
    Rule,
    Nothing,
}

/// A production of the grammar: what was wanted, the kind of token that came, what is wanted then.
pub type Production = (Want, Kind, Want);

/// The slot lines and the appendix's grammar, a `;` after each rule, NONE wherever a rule names a value.
pub const GRAMMAR: &[Production] = &[
    (Want::SlotLine, Kind::Slot, Want::SlotName),
    (Want::SlotLine, Kind::When, Want::TriggerSlot),
    (Want::SlotLine, Kind::End, Want::Nothing),
    (Want::SlotName, Kind::Name, Want::ValuesOpen),
    (Want::ValuesOpen, Kind::Open, Want::ValueName),
    (Want::ValueName, Kind::Name, Want::ValueOver),
    (Want::ValueOver, Kind::Comma, Want::ValueName),
    (Want::ValueOver, Kind::Close, Want::SlotOver),
    (Want::SlotOver, Kind::Semicolon, Want::SlotLine),
    (Want::TriggerSlot, Kind::Name, Want::TriggerMark),
    (Want::TriggerMark, Kind::ChangesTo, Want::TriggerValue),
    (Want::TriggerValue, Kind::Name, Want::If),
    (Want::TriggerValue, Kind::None, Want::If),
    (Want::If, Kind::If, Want::Condition),
    (Want::Condition, Kind::True, Want::TrueOver),
    (Want::Condition, Kind::Not, Want::Negated),
    (Want::Condition, Kind::Name, Want::LiteralMark),
    (Want::TrueOver, Kind::And, Want::Literal),
    (Want::TrueOver, Kind::Then, Want::Assignments),
    (Want::Literal, Kind::Not, Want::Negated),
    (Want::Literal, Kind::Name, Want::LiteralMark),
    (Want::Negated, Kind::Not, Want::Negated),
    (Want::Negated, Kind::Name, Want::LiteralMark),
    (Want::LiteralMark, Kind::ChangesTo, Want::LiteralValue),
    (Want::LiteralMark, Kind::Was, Want::LiteralValue),
    (Want::LiteralValue, Kind::Name, Want::LiteralOver),
    (Want::LiteralValue, Kind::None, Want::LiteralOver),
    (Want::LiteralOver, Kind::And, Want::Literal),
    (Want::LiteralOver, Kind::Then, Want::Assignments),
    (Want::Assignments, Kind::Open, Want::ListedSlot),
    (Want::Assignments, Kind::Name, Want::OnlyMark),
    (Want::OnlyMark, Kind::Becomes, Want::OnlyValue),
    (Want::OnlyValue, Kind::Name, Want::RuleOver),
    (Want::OnlyValue, Kind::None, Want::RuleOver),
    (Want::ListedSlot, Kind::Name, Want::ListedMark),
    (Want::ListedMark, Kind::Becomes, Want::ListedValue),
    (Want::ListedValue, Kind::Name, Want::ListedOver),
    (Want::ListedValue, Kind::None, Want::ListedOver),
    (Want::ListedOver, Kind::Comma, Want::ListedSlot),
    (Want::ListedOver, Kind::Close, Want::RuleOver),
    (Want::RuleOver, Kind::Semicolon, Want::Rule),
    (Want::Rule, Kind::When, Want::TriggerSlot),
    (Want::Rule, Kind::End, Want::Nothing),
];

/// A token in its place: what was wanted there, its position among the tokens, the statement it stands in.
#[derive(Clone, Copy, PartialEq, Eq, Debug)]
pub struct Placed {
    pub want: Want,
    pub token: Token,
    pub position: usize,
    pub statement: usize,
}

/// The tokens of a text, those in their places, and the position of the first out of place.
pub struct Walk {
    pub tokens: Vec<Token>,
    pub placed: Vec<Placed>,
    pub out_of_place: Option<usize>,
}

/// Places tokens by a grammar as far as they follow it.
pub fn walk(text: &[u8], grammar: &[Production]) -> Walk {
    let tokens = tokens(text);
    let mut placed = Vec::new();
    let mut out_of_place = None;
    let (mut want, mut statement) = (Want::SlotLine, 0);
    for (position, token) in tokens.iter().enumerate() {
        let fits = |production: &&Production| production.0 == want && production.1 == token.kind;
        let production = match grammar.iter().find(fits) {
            Some(production) => production,
            _ => {
                out_of_place = Some(position);
                break;
            }
        };
        placed.push(Placed { want, token: *token, position, statement });
        statement += usize::from(token.kind == Kind::Semicolon);
        want = production.2;
    }
    Walk { tokens, placed, out_of_place }
}

/// A refusal 11 to 17 at a token, by its position; the least is the one that counts.
#[derive(Clone, Copy, PartialEq, Eq, PartialOrd, Ord, Debug)]
pub struct AtToken {
    pub position: usize,
    pub number: u8,
}

/// Whether a token opens a literal.
fn opens_literal(at: &Placed) -> bool {
    matches!(at.want, Want::Condition | Want::Literal) && matches!(at.token.kind, Kind::Not | Kind::Name)
}

/// Whether a token is the slot's name of an assignment.
fn is_assigned_slot(at: &Placed) -> bool {
    matches!(at.want, Want::Assignments | Want::ListedSlot) && at.token.kind == Kind::Name
}

/// Whether a token is a slot's name in a rule.
fn is_slot_in_rule(at: &Placed) -> bool {
    let literal = matches!(at.want, Want::Condition | Want::Literal | Want::Negated);
    let name = at.token.kind == Kind::Name;
    name && (literal || at.want == Want::TriggerSlot) || is_assigned_slot(at)
}

/// Whether a token is a value's name in a rule, or NONE there.
pub fn is_value_in_rule(at: &Placed) -> bool {
    matches!(at.want, Want::TriggerValue | Want::LiteralValue | Want::OnlyValue | Want::ListedValue)
}

/// Refuses each placed token that a test picks.
fn each(walk: &Walk, number: u8, picks: impl FnMut(&&Placed) -> bool) -> Vec<AtToken> {
    walk.placed.iter().filter(picks).map(|at| AtToken { position: at.position, number }).collect()
}

/// Refuses, of the placed tokens that a test picks, each whose name came before in the same scope.
fn repeated(
    text: &[u8],
    walk: &Walk,
    number: u8,
    picks: impl Fn(&Placed) -> bool,
    scope: impl Fn(&Placed) -> usize,
) -> Vec<AtToken> {
    let mut seen = HashSet::new();
    each(walk, number, |at| picks(at) && !seen.insert((scope(at), at.token.word(text))))
}

/// Refuses with 15, of the placed tokens that a test picks, each beyond the limit in the same scope.
fn too_many(
    walk: &Walk,
    limit: usize,
    picks: impl Fn(&Placed) -> bool,
    scope: impl Fn(&Placed) -> usize,
) -> Vec<AtToken> {
    let mut counts: HashMap<usize, usize> = HashMap::new();
    each(walk, 15, |at| {
        picks(at) && {
            let count = counts.entry(scope(at)).or_default();
            *count += 1;
            *count > limit
        }
    })
}

/// The scope of the whole text.
fn whole(_: &Placed) -> usize {
    0
}

/// The scope of one statement.
fn statement(at: &Placed) -> usize {
    at.statement
}

/// A slot's number and the numbers of its values, by their names.
struct Declared<'a> {
    slot: usize,
    values: HashMap<&'a [u8], usize>,
}

impl Declared<'_> {
    /// The number of the value that a token names in a rule: NONE's, or that of a value that the slot has.
    fn value(&self, text: &[u8], token: &Token) -> Option<u8> {
        match token.kind {
            Kind::None => Some(NONE),
            _ => self.values.get(token.word(text)).map(|value| *value as u8),
        }
    }
}

/// The declared slots by their names, where a name recurs the first.
fn declared<'a>(text: &'a [u8], walk: &Walk) -> HashMap<&'a [u8], Declared<'a>> {
    let mut slots: HashMap<&[u8], Declared> = HashMap::new();
    for (slot, line) in slot_lines(walk).iter().enumerate() {
        let mut values = HashMap::new();
        for (at, name) in line.values.iter().enumerate() {
            values.entry(word(text, *name)).or_insert(at + 1);
        }
        slots.entry(word(text, line.name)).or_insert(Declared { slot, values });
    }
    slots
}

/// The stretch of text where a name stands.
fn word(text: &[u8], name: Name) -> &[u8] {
    &text[name.range()]
}

/// The slot lines among the placed tokens, the last perhaps unfinished.
fn slot_lines(walk: &Walk) -> Vec<SlotLine> {
    let mut lines: Vec<SlotLine> = Vec::new();
    for at in &walk.placed {
        let name = Name { start: at.token.start as u32, size: at.token.size as u32 };
        match at.want {
            Want::SlotName => lines.push(SlotLine { name, values: Vec::new() }),
            Want::ValueName => lines.last_mut().expect("a slot's name comes before its values").values.push(name),
            _ => {}
        }
    }
    lines
}

/// Refuses with 16 each slot in a rule that is not declared, and each value that its slot lacks; no slot lacks NONE.
fn undeclared(text: &[u8], walk: &Walk) -> Vec<AtToken> {
    let slots = declared(text, walk);
    let mut slot = None;
    each(walk, 16, |at| {
        if is_slot_in_rule(at) {
            slot = slots.get(at.token.word(text));
            return slot.is_none();
        }
        is_value_in_rule(at) && slot.map_or(false, |slot| slot.value(text, &at.token).is_none())
    })
}

/// Every refusal 11 to 17 of a text that was walked, where it may have so many rules.
pub fn refusals(text: &[u8], walk: &Walk, rules: usize) -> Vec<AtToken> {
    let all = walk.tokens.iter().enumerate();
    let bad = all.filter(|(_, token)| token.kind == Kind::Bad).map(|(position, _)| AtToken { position, number: 11 });
    let mut found: Vec<AtToken> = bad.collect();
    found.extend(walk.out_of_place.map(|position| AtToken { position, number: 12 }));
    found.extend(each(walk, 13, |at| at.token.kind == Kind::Name && at.token.size > NAME));
    found.extend(repeated(text, walk, 14, |at| at.want == Want::SlotName, whole));
    found.extend(repeated(text, walk, 14, |at| at.want == Want::ValueName, statement));
    found.extend(too_many(walk, SLOTS, |at| at.token.kind == Kind::Slot, whole));
    found.extend(too_many(walk, VALUES, |at| at.want == Want::ValueName, statement));
    found.extend(too_many(walk, rules, |at| at.token.kind == Kind::When, whole));
    found.extend(too_many(walk, LITERALS, opens_literal, statement));
    found.extend(too_many(walk, ASSIGNMENTS, is_assigned_slot, statement));
    found.extend(undeclared(text, walk));
    found.extend(repeated(text, walk, 17, is_assigned_slot, statement));
    found
}

/// The number of rules whose `;` stands before a token.
pub fn completed(walk: &Walk, position: usize) -> usize {
    walk.placed.iter().filter(|at| at.want == Want::RuleOver && at.position < position).count()
}

/// What a text without refusals 10 to 17 says: its slot lines and its rules.
pub fn meaning(text: &[u8], walk: &Walk) -> (Vec<SlotLine>, Vec<Rule>) {
    let slots = declared(text, walk);
    let mut rules: Vec<Rule> = Vec::new();
    let (mut slot, mut nots, mut becomes) = (None, 0, false);
    for at in &walk.placed {
        if is_slot_in_rule(at) {
            slot = slots.get(at.token.word(text));
        }
        match at.token.kind {
            Kind::Not => nots += 1,
            Kind::ChangesTo => becomes = true,
            Kind::Was => becomes = false,
            _ => {}
        }
        if is_value_in_rule(at) {
            let slot = slot.expect("every slot in a rule is declared");
            let value = slot.value(text, &at.token).expect("every value in a rule is declared or NONE");
            let pair = (slot.slot as u8, value);
            match at.want {
                Want::TriggerValue => rules.push(Rule { trigger: pair, literals: Vec::new(), assignments: Vec::new() }),
                Want::LiteralValue => last(&mut rules).literals.push(Literal { becomes, negated: nots % 2 == 1, pair }),
                _ => last(&mut rules).assignments.push(pair),
            }
            nots = 0;
        }
    }
    (slot_lines(walk), rules)
}

/// The rule that is being read.
fn last(rules: &mut [Rule]) -> &mut Rule {
    rules.last_mut().expect("a trigger comes first")
}

/// The slot lines and rules of a text within limits, or its refusal 10 to 17.
pub fn read_rules(limits: Limits, text: &[u8]) -> Result<(Vec<SlotLine>, Vec<Rule>), Refusal> {
    if text.len() > limits.bytes {
        return Err(refusal(10, 0));
    }
    let walk = walk(text, GRAMMAR);
    match refusals(text, &walk, limits.rules).iter().min() {
        Some(least) => Err(refusal(least.number, completed(&walk, least.position))),
        None => Ok(meaning(text, &walk)),
    }
}

/// The table of a text within limits, or its refusal 10 to 18.
pub fn read_within(limits: Limits, text: &[u8]) -> Result<Box<Table>, Refusal> {
    let (lines, rules) = read_rules(limits, text)?;
    let strata = strata(&rules).map_err(|rule| refusal(18, rule))?;
    Ok(table_of(&lines, &rules, &strata))
}

/// The table of a text, or the library's refusal 10 to 18.
pub fn read(text: &[u8]) -> Result<Box<Table>, Refusal> {
    read_within(LIBRARY, text)
}

/// The table of a text read without test 18, its strata 0 throughout, or the library's refusal 10 to 17.
pub fn read_unlayered(text: &[u8]) -> Result<Box<Table>, Refusal> {
    let (lines, rules) = read_rules(LIBRARY, text)?;
    Ok(table_of(&lines, &rules, &vec![0; rules.len()]))
}

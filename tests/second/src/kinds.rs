//! The kinds of rules, responses and tables that strata and circles tell apart, of texts and responses with NONE, of those about the limits, and of calls by their editors, for the tests to hold the generator to.

use std::collections::BTreeSet;

use crate::broken_firing::{one_pass, together};
use crate::cards::{unpack_card, unpack_slip};
use crate::fault::Fault;
use crate::none_kinds::{none_kinds, withdrawal_kinds};
use crate::other_strata::{on_any_circle, on_simple_circle};
use crate::read::{read_rules, LIBRARY};
use crate::response::{enabled, fire, Changes, Firing};
use crate::rule_set::RuleSet;
use crate::strata::{least, on_circle, reached, waits, Waits};
use crate::table::{Pair, Program, Rule, Table};
use crate::table31::tested;
use crate::{broken_firing, broken_reading, broken_strata};

/// Makes the enum of kinds and their lists, each of what it tells apart.
macro_rules! kinds {
    ($($(#[$about:meta])* $list:ident { $($(#[$sentence:meta])* $name:ident,)* })*) => {
        /// A kind of rules, of a text or its print, of a response, of a table or of a call.
        #[derive(Clone, Copy, PartialEq, Eq, PartialOrd, Ord, Debug)]
        pub enum Kind {
            $($($(#[$sentence])* $name,)*)*
        }

        $($(#[$about])* pub const $list: &[Kind] = &[$(Kind::$name,)*];)*
    };
}

kinds! {
    /// The kinds of a file's rules.
    RULE_KINDS {
        /// Accepted: a rule plainly tests what it assigns.
        OwnTest,
        /// Accepted: rules wait plainly for each other.
        PlainCircle,
        /// Accepted: four rules or more wait plainly for each other.
        WidePlainCircle,
        /// Accepted: rules that wait plainly for each other lie above stratum 1.
        CircleAbove,
        /// Accepted, without a circle: a rule waits plainly for one that waits plainly for a third.
        PlainChain,
        /// Accepted: a stratum is 100 or above.
        DeepStrata,
        /// 18: a rule tests under NOT what it assigns.
        OwnNot,
        /// 18: a circle through a NOT has two rules or more.
        CircleThroughNot,
        /// 18: the rule named is on no circle through a NOT that meets no rule twice.
        Mixed,
        /// 18: such a rule among five or more that come to each other.
        WideMixed,
        /// 18: a plain circle has a lower rule than the one named.
        PlainCircleLower,
        /// Accepted: other strata than if tests of NONE bound nothing.
        NoneBinds,
        /// 18, but accepted if tests of NONE bound nothing.
        NoneCircle,
    }

    /// The kinds of a text besides those of its rules.
    TEXT_KINDS {
        /// Accepted, but 18 if an even number of NOTs did not cancel.
        CancelledNots,
        /// A trigger names NONE.
        NoneTrigger,
        /// A literal asks whether a value is withdrawn.
        NoneAwaited,
        /// A literal asks under NOT whether a value is withdrawn.
        NoneBarred,
        /// A literal asks whether the card has no value.
        NoneHad,
        /// A literal asks under NOT whether the card has no value.
        NoneNotHad,
        /// A rule assigns NONE.
        NoneAssigned,
        /// A name is `none` in other letters, or goes on after it.
        LikeNone,
    }

    /// The kinds of a text that is 12 at NONE.
    NONE_REFUSED_KINDS {
        /// NONE stands for a slot's name in a slot line.
        NoneAsSlot,
        /// NONE stands for a value's name in a slot line.
        NoneAsValue,
        /// NONE stands for the slot's name of a trigger.
        NoneAsTriggerSlot,
        /// NONE stands for the slot's name of a literal.
        NoneAsLiteralSlot,
        /// NONE stands for the slot's name of an assignment.
        NoneAsAssignedSlot,
        /// NONE stands where neither a slot's name nor a value's may.
        NoneAsWord,
    }

    /// The kinds of a print.
    PRINT_KINDS {
        /// NONE is printed.
        NonePrinted,
    }

    /// The kinds of a response.
    RESPONSE_KINDS {
        /// All rules of a plain circle fire, and the slip has a pair that they assign.
        CircleBySlip,
        /// All rules of a plain circle fire, and only rules outside it brought a pair that they assign.
        CircleByRule,
        /// Rules stay idle that would be enabled by each other's assignments.
        Uncaused,
        /// A rule stays idle that would be enabled by its own assignment.
        OwnUncaused,
        /// Other rules fire where strata are not looked at.
        StrataMatter,
        /// One pass over each stratum is too few.
        SecondPass,
        /// One pass over each stratum leaves out 15 rules or more.
        ManyPasses,
        /// An answer to a slip that withdraws what the card has.
        Withdrawn,
        /// An answer in which a rule withdraws what the card has, and not the slip.
        WithdrawnByRule,
        /// An answer to a slip that withdraws what the card does not have.
        NothingWithdrawn,
        /// An answer in which a rule withdraws what the card does not have, and not the slip.
        NothingWithdrawnByRule,
        /// A rule fires that waits for a withdrawal in its trigger.
        WokenByWithdrawal,
        /// Other rules fire where a withdrawal of what the card does not have makes `*= NONE` true.
        UnwokenByNothing,
        /// A rule fires that asks `|= NONE`.
        NoneHeld,
        /// A rule fires that asks `NOT .. |= NONE`.
        NotNoneHeld,
        /// A rule fires that asks `NOT .. *= NONE`.
        UnwithdrawnHeld,
        /// 40 of a slot with a withdrawal.
        WithdrawalConflict,
    }

    /// The kinds of a table by its strata.
    TABLE_KINDS {
        /// The least, of a plain chain.
        ChainLeast,
        /// Strata, but not the least, of a plain chain.
        ChainHigher,
        /// Strata in which two rules that wait plainly for each other alone are both in 2 and not in 1.
        BothTwo,
        /// Each number what its rule needs by the others, and yet not the least: a plain circle is lifted.
        CircleLifted,
        /// The same of a plain circle whose least stratum is above 1.
        CircleLiftedAbove,
        /// Strata with a number above what its rule needs by the others.
        Gap,
        /// The least that fall at plain tests too, where they are not the least.
        Falling,
        /// The least if tests of NONE bound nothing, where they are not the least.
        NoneUnbound,
        /// One number one too low, but not 0.
        OneTooLow,
        /// Not the least, but alike in the last bytes.
        LastBytesAlike,
        /// A number 65,535.
        GreatestNumber,
        /// A number 0.
        Zero,
        /// Rules with a circle through a NOT, no number 0.
        Circled,
    }

    /// The kinds of a response by marks.
    MARK_KINDS {
        /// An answer of a file that 18 refuses.
        CircleAnswered,
        /// An answer in which a rule on a circle through a NOT fires.
        CircleFired,
        /// An answer where rules fired in number order give a slot two values.
        OrderConflicts,
        /// 41 of a file that 18 refuses.
        CircleClashes,
        /// 41 of a file with strata.
        LayeredClashes,
        /// 41 with a pair that is still unknown where one order of selection ends.
        ClashWithUnknown,
        /// 42 of a file that 18 refuses.
        CircleUnknown,
        /// 42 where the strata response answers.
        UnknownAnswered,
        /// 42 where the strata response gives 40.
        UnknownConflict,
        /// A pair can be ruled out only after a rule fired.
        OutByFiring,
        /// A pair is ruled out at the fourth pass over the pairs or later.
        OutLate,
        /// A pair is ruled out at the thirtieth pass or later.
        OutVeryLate,
        /// An answer to a slip that withdraws what the card has.
        MarkWithdrawn,
        /// An answer in which a rule withdraws what the card has, and not the slip.
        MarkWithdrawnByRule,
        /// An answer in which a rule fires that waits for a withdrawal in its trigger.
        MarkWoken,
        /// An answer in which a rule fires that asks `NOT .. *= NONE`, though a rule could withdraw that value.
        NoneRuledOut,
        /// 41 where no slot would have two values but for withdrawals.
        NoneClashes,
        /// 42 where only withdrawals stay unknown.
        NoneUnknown,
    }

    /// The kinds of a table by its strata, where it is asked by marks.
    MARK_TABLE_KINDS {
        /// Stratum 0 throughout, of rules that have strata.
        ZeroLayered,
        /// Stratum 0 throughout, of rules with a circle through a NOT.
        ZeroCircled,
        /// No rules.
        NoRules,
        /// The least strata.
        Least,
        /// Some numbers 0, the others the least.
        ZeroMixed,
        /// Other numbers.
        OtherNumbers,
    }

    /// The kinds of a text, its print or a response about the limits of the library.
    LARGE_KINDS {
        /// Accepted: more rules than the program takes.
        MoreRules,
        /// Accepted: 2,000 rules.
        MostRules,
        /// 15 at a 2,001st WHEN.
        OneRuleMore,
        /// 11 behind 2,000 rules.
        BadAfterRules,
        /// 12 behind 2,000 rules.
        WrongAfterRules,
        /// 11 to 17 behind more than 255 rules and fewer than 2,000.
        LateRefusal,
        /// Accepted: a stratum above 255.
        HighStrata,
        /// 18 names a rule above 255.
        HighRuleNamed,
        /// Accepted: a text over 65,535 bytes.
        LongText,
        /// Accepted: a text of 262,144 bytes.
        LongestText,
        /// 10 of a text of 262,145 bytes.
        TextTooLong,
        /// Accepted: a name starts behind byte 65,535.
        FarName,
        /// A print over 65,535 bytes.
        LongPrint,
        /// A print of 262,144 bytes.
        LongestPrint,
        /// 34 of a print that would have 262,145 bytes.
        PrintTooLong,
        /// An answer in which a rule above 255 fires.
        HighRuleFires,
        /// An answer in which rule 2,000 fires.
        LastRuleFires,
        /// An answer in which more than 255 rules fire.
        ManyFire,
        /// 30 of a fired record of 32 bytes or more.
        ShortRecord,
        /// 31 of a table that would be in order but for its count 2,001.
        CountOneMore,
        /// 31 of a table that would be in order but for its count 65,535.
        CountGreatest,
    }

    /// The kinds of a text for the program, about its own limits.
    PROGRAM_KINDS {
        /// Accepted: 255 rules.
        ProgramMostRules,
        /// 15 of a text with 256 rules that the library accepts.
        ProgramOneRuleMore,
        /// 15 of a text with more rules that the library accepts.
        ProgramManyRules,
        /// Accepted: a text of 65,535 bytes.
        ProgramLongestText,
        /// 10 of a text of 65,536 bytes that the library accepts.
        ProgramTooLong,
        /// 10 of a longer text that the library accepts.
        ProgramMuchTooLong,
        /// 10 of a text with more than 255 rules that the library accepts.
        ProgramBoth,
    }

    /// The kinds of a call by its editor and the lent records.
    CALL_KINDS {
        /// Editor 1 is counted.
        FirstEditor,
        /// Editor 40 is counted.
        LastEditor,
        /// The caller's record is full, and no other.
        OwnFull,
        /// The caller's record is not full, and all others are.
        OthersFull,
        /// The caller's record is not full, and that of editor 1 is.
        FirstFull,
        /// A slip answered makes the caller's record full.
        LastAnswered,
        /// A slip refused makes the caller's record full.
        LastRefused,
        /// 44 of editor 0.
        NoNumber,
        /// 44 of editor 41.
        NumberAbove,
        /// 44 of a number whose last byte is an editor's.
        NumberCut,
        /// 44 of no records.
        NoRecords,
        /// 44 of one record fewer than forty, where the caller has a place.
        OneFewer,
        /// 44 of one record more than forty, where the caller has a place.
        OneMore,
        /// 44 where the caller has a place with a full record.
        FullWithout,
        /// 44 on a table that is 31.
        UnsoundWithout,
        /// 44 of both the number and the table of records.
        NeitherFits,
    }
}

/// The kinds that hold.
pub fn holding(kinds: &[(Kind, bool)]) -> Vec<Kind> {
    kinds.iter().filter(|(_, holds)| *holds).map(|(kind, _)| *kind).collect()
}

/// For each rule the rules that it comes to and that come back to it, itself among them.
pub fn rounds(waits: &[Waits]) -> Vec<RuleSet> {
    let reached = reached(waits);
    let round = |at: usize| reached[at].positions().filter(|other| reached[*other].has(at)).collect();
    (0..waits.len()).map(round).collect()
}

/// The number of rules in a set.
pub fn size(set: &RuleSet) -> usize {
    set.positions().count()
}

/// Whether rules have no circle, and one waits plainly for another that waits plainly for a third.
pub fn is_chained(waits: &[Waits]) -> bool {
    let second = |at: usize| waits[at].plain.positions().any(|next| waits[next].plain != RuleSet::default());
    on_any_circle(waits).is_empty() && (0..waits.len()).any(second)
}

/// The strata of rules if tests of NONE bound nothing, or the rule that 18 would name.
pub fn without_none(rules: &[Rule]) -> Result<Vec<u16>, usize> {
    broken_strata::strata(Fault::NoneFree, rules)
}

/// The kinds of rules.
pub fn rule_kinds(rules: &[Rule]) -> Vec<Kind> {
    let waits = waits(rules);
    let rounds = rounds(&waits);
    let all = || 0..rules.len();
    match (least(&waits), on_circle(&waits).first()) {
        (Some(numbers), _) => holding(&[
            (Kind::OwnTest, all().any(|at| waits[at].plain.has(at))),
            (Kind::PlainCircle, all().any(|at| size(&rounds[at]) > 1)),
            (Kind::WidePlainCircle, all().any(|at| size(&rounds[at]) > 3)),
            (Kind::CircleAbove, all().any(|at| size(&rounds[at]) > 1 && numbers[at] > 1)),
            (Kind::PlainChain, is_chained(&waits)),
            (Kind::DeepStrata, numbers.iter().any(|number| *number >= 100)),
            (Kind::NoneBinds, without_none(rules) != Ok(numbers)),
        ]),
        (None, Some(named)) => {
            let mixed = !on_simple_circle(&waits).contains(named);
            holding(&[
                (Kind::OwnNot, all().any(|at| waits[at].negated.has(at))),
                (Kind::CircleThroughNot, size(&rounds[*named]) > 1),
                (Kind::Mixed, mixed),
                (Kind::WideMixed, mixed && size(&rounds[*named]) > 4),
                (Kind::PlainCircleLower, on_any_circle(&waits)[0] < *named),
                (Kind::NoneCircle, without_none(rules).is_ok()),
            ])
        }
        (None, None) => Vec::new(),
    }
}

/// The kinds of a text and of its rules; none where 10 to 17 refuse it.
pub fn text_kinds(text: &[u8]) -> Vec<Kind> {
    let rules = match read_rules(LIBRARY, text) {
        Ok((_, rules)) => rules,
        Err(_) => return Vec::new(),
    };
    let accepted = least(&waits(&rules)).is_some();
    let refused = |fault| broken_reading::read(fault, text).0.is_some();
    let cancelled = holding(&[(Kind::CancelledNots, accepted && refused(Fault::NotsStay))]);
    [rule_kinds(&rules), cancelled, none_kinds(text, &rules)].concat()
}

/// Whether all rules of a circle have fired, and whether the slip has a pair that they assign.
fn whole_circle(program: &Program, slip: &[Pair], fired: &RuleSet, round: &RuleSet) -> Option<bool> {
    let assigned = |at: usize| program.rules[at].assignments.iter().any(|pair| slip.contains(pair));
    let whole = size(round) > 1 && round.positions().all(|at| fired.has(at));
    whole.then(|| round.positions().any(assigned))
}

/// The rules that have fired.
fn fired(firing: &Firing) -> RuleSet {
    firing.fired.iter().copied().collect()
}

/// The kinds of a response, where it comes to the firing of rules.
pub fn response_kinds(table: &Table, card: &[u8], slip: &[u8]) -> Vec<Kind> {
    let unpacked = tested(table).and_then(|program| {
        let (card, slip) = (unpack_card(&program, card)?, unpack_slip(&program, slip)?);
        Ok((program, card, slip))
    });
    let (program, card, slip) = match unpacked {
        Ok(unpacked) => unpacked,
        Err(_) => return Vec::new(),
    };
    let firing = fire(&program, &slip, |changes, rule| enabled(&card, changes, rule));
    let waits = waits(&program.rules);
    let set = fired(&firing);
    let circles: BTreeSet<bool> =
        rounds(&waits).iter().filter_map(|round| whole_circle(&program, &slip, &set, round)).collect();
    let once = fired(&one_pass(&program, &card, &slip));
    let unordered = fired(&broken_firing::fire(Fault::NumberOrder, &program, &card, &slip));
    let own_caused = |at: usize| {
        let own: Changes = firing.changes.iter().chain(&program.rules[at].assignments).copied().collect();
        !set.has(at) && enabled(&card, &own, &program.rules[at])
    };
    let by_circles = holding(&[
        (Kind::CircleBySlip, circles.contains(&true)),
        (Kind::CircleByRule, circles.contains(&false)),
        (Kind::Uncaused, fired(&together(&program, &card, &slip)) != set),
        (Kind::OwnUncaused, (0..program.rules.len()).any(own_caused)),
        (Kind::StrataMatter, unordered != set),
        (Kind::SecondPass, once != set),
        (Kind::ManyPasses, size(&once) + 15 <= size(&set)),
    ]);
    [by_circles, withdrawal_kinds(&program, &card, &slip, &firing)].concat()
}

//! The faults that a broken engine may have.

/// Makes the enum of faults and their lists, each of where they show.
macro_rules! faults {
    ($($(#[$about:meta])* $list:ident { $($(#[$sentence:meta])* $name:ident,)* })*) => {
        /// One fault of an engine or a program that is otherwise the second engine.
        #[derive(Clone, Copy, PartialEq, Eq, Debug)]
        pub enum Fault {
            $($($(#[$sentence])* $name,)*)*
        }

        $($(#[$about])* pub const $list: &[Fault] = &[$(Fault::$name,)*];)*
    };
}

faults! {
    /// The faults of an engine that show in files of any size.
    FAULTS {
        /// A name of 25 bytes is accepted.
        LongNameAccepted,
        /// At one token the larger number counts.
        LargerNumber,
        /// The smaller number counts before the earlier token.
        NumberBeforeToken,
        /// The second number of 11 to 17 counts the rules begun.
        RulesBegun,
        /// TRUE may stand after AND.
        TrueAfterAnd,
        /// Any number of NOTs negates.
        NotsStay,
        /// A slot assigned twice is let through.
        AssignedTwice,
        /// A value declared twice in its slot is let through.
        DeclaredTwice,
        /// A ninth literal is refused at its slot's name and not at its NOT.
        NinthLiteralLate,
        /// An undeclared value is let through, and the table comes back empty.
        UndeclaredValue,
        /// NONE in a rule is 16.
        NoneUndeclared,
        /// NONE in a slot line is the name of a value.
        NoneAsValueName,
        /// NONE is a slot's name where one may stand.
        NoneAsSlotName,
        /// `none` and `None` are taken for NONE.
        NoneInAnyCase,
        /// NONE is read as the first value.
        NoneReadAsFirst,
        /// 18 names the highest rule on a circle through a NOT.
        HighestOnCircle,
        /// 18 names the lowest rule that gets no stratum, on a circle through a NOT or behind one.
        BehindCircle,
        /// 18 names the lowest rule on a circle through a NOT or waited for by one.
        BeforeCircle,
        /// 18 names the lowest rule on a circle, a plain one too.
        LowestOnAnyCircle,
        /// 18 names the lowest rule on a circle through a NOT that meets no rule twice.
        SimpleCircles,
        /// 18 names the lowest rule whose own NOT is on a circle.
        OwnNotOnly,
        /// A plain circle is 18.
        PlainCircleRefused,
        /// A rule that plainly tests what it assigns is 18.
        OwnTestRefused,
        /// A rule's NOT on what it assigns itself binds nothing.
        OwnNotFree,
        /// No file has strata.
        NoStrata,
        /// `|=` binds.
        WasBinds,
        /// A plain test needs a lower stratum.
        PlainFalls,
        /// The trigger needs a lower stratum.
        TriggerFalls,
        /// A test under NOT may stay level.
        NegatedLevel,
        /// The trigger binds nothing.
        TriggerFree,
        /// A test of a slot binds to all its values.
        SlotsBind,
        /// A test of NONE binds nothing.
        NoneFree,
        /// Each stratum is one too high.
        StrataTooHigh,
        /// A refused reading gives the table all the same.
        TableAfterRefusal,
        /// Unused places of a read rule hold ones.
        UnusedOnes,
        /// A name that ends where the text ends is taken to be outside.
        NameAtEnd,
        /// Names are shown only from tables that pass 31.
        NameTested,
        /// The name of value 0 is shown, as that of the first value.
        NoneShown,
        /// Any numbers are let through as strata.
        StrataUntested,
        /// Any strata are let through, the least or not.
        AnyStrata,
        /// Numbers are let through where each is what its rule needs by the others.
        EachAsAsked,
        /// The least strata that fall at plain tests too are let through.
        FallingStrata,
        /// Stratum 0 is let through in place of 1.
        ZeroStratum,
        /// 31 looks at the last byte of a stratum.
        StrataByLastByte,
        /// 31 looks at unused literal places.
        UnusedTested,
        /// A table's rule without assignments is 31.
        NoAssignments,
        /// Value 0 in a trigger is 31.
        NoneTriggerLacking,
        /// Value 0 in a literal is 31.
        NoneTestLacking,
        /// Value 0 in an assignment is 31.
        NoneAssignmentLacking,
        /// A slot of 15 values is 31 where a rule names its NONE.
        NoneCounted,
        /// Fields are packed least significant bit first.
        LeastBitFirst,
        /// A card's padding is not tested.
        CardPadding,
        /// A slip's padding is not tested.
        SlipPadding,
        /// A card's length is held to the table's count.
        LengthByTable,
        /// 22 names the last such slot.
        LastFaultyValue,
        /// 23 is tested before 22.
        PaddingBeforeValue,
        /// 26 only for a slot below the one before.
        SlotNotBelow,
        /// Of all faulty changes the smallest number counts, wherever it stands.
        NumberBeforePosition,
        /// A change to value 0 is 27.
        WithdrawalRefused,
        /// Packing refuses a change to value 0 with 27.
        PackedWithdrawalRefused,
        /// The slip is tested before the card.
        SlipFirst,
        /// Packing a slip needs 37 bytes.
        PackingRoom,
        /// Packing lets more than 32 changes come to 25, 26 or 27.
        ManyChanges,
        /// No value is loaded as the first value.
        EmptyAsFirst,
        /// `s *= v` holds where the card already had v.
        HadBecomes,
        /// `s *= v` never holds where the card has no value in s.
        EmptyNeverBecomes,
        /// `NOT s |= v` is false where the card has no value in s.
        EmptyNeverNegated,
        /// `s *= NONE` holds where the card has no value in s and the withdrawal is in C.
        EmptyWithdrawn,
        /// `s *= NONE` never holds.
        NoneNeverBecomes,
        /// `s |= NONE` never holds.
        EmptyNeverNone,
        /// A rule's first false literal is ignored.
        FirstFalseIgnored,
        /// Rules are fired in number order, strata are not looked at.
        NumberOrder,
        /// Each stratum is passed over once.
        OnePass,
        /// A rule's own assignment may be its cause.
        OwnCause,
        /// Rules of one stratum may be each other's only cause.
        SharedCause,
        /// A rule whose assignments are all in C already does not fire.
        NothingNew,
        /// 40 names the slot that came into conflict first.
        ConflictByOrder,
        /// Firing stops at the first conflict.
        StopsAtConflict,
        /// A later value of C wins and nothing is 40.
        NoConflict,
        /// A withdrawal beside a value is no conflict, and the value wins.
        WithdrawalOverruled,
        /// A withdrawal beside a value is no conflict, and the withdrawal wins.
        WithdrawalOverrules,
        /// The fired record has the last rule first.
        RecordReversed,
        /// The padding of the fired record is ones.
        RecordPadding,
        /// The new card is the card that was given.
        CardReturned,
        /// The new card keeps a value that is withdrawn.
        WithdrawnKept,
        /// The changes are without those that repeat the card's value.
        RepeatsLeftOut,
        /// The changes are without withdrawals.
        WithdrawalsLeftOut,
        /// The changes are without withdrawals of what is not there.
        EmptyWithdrawalsLeftOut,
        /// Nothing fires.
        NothingFires,
        /// Outputs are cleared beyond what is written.
        TailCleared,
        /// The new card is written although 40 is answered.
        WrittenOnConflict,
        /// 30 is tested before 28.
        RoomBeforePadding,
        /// 40 is tested before 30.
        ConflictBeforeRoom,
        /// The changes' output needs only their own length.
        RoomByChanges,
        /// The last short output is named.
        LastShortOutput,
        /// 31 is tested before 32.
        TableBeforeTally,
        /// 32 is counted.
        CountedOnFull,
        /// 40 is not counted.
        ConflictUncounted,
        /// A record is full at 9,998.
        FullEarly,
        /// A record is full at 9,999 only, not above.
        FullExactly,
        /// Only slips answered are looked at for 32.
        RefusedNeverFull,
        /// The record of editor 1 counts for every editor.
        FirstCounted,
        /// The record after the caller's counts in its place, after the last the first.
        NextCounted,
        /// The record after the caller's counts too.
        NextCountedToo,
        /// All records count.
        AllCounted,
        /// A refused slip is added to those answered.
        RefusedAsAnswered,
        /// 32 looks at the record of editor 1.
        FullByFirst,
        /// 32 looks at the record after the caller's.
        FullByNext,
        /// 32 is given where any record is full.
        FullByAny,
        /// 32 is given only where all records are full.
        FullByAll,
        /// 32 is given where the numbers of all records together come to 9,999.
        FullTogether,
        /// 32 clears the caller's record.
        FullStartsAnew,
        /// 32 clears the new card's output.
        ClearedOnFull,
        /// 44 is counted, in the caller's place or the first.
        NoEditorCounted,
        /// 44 clears the new card's output.
        ClearedWithoutEditor,
        /// 44 has the editor number as its second number.
        EditorNamed,
        /// 44 is tested after 32.
        EditorAfterFull,
        /// 44 is tested after 31.
        EditorAfterTable,
        /// A table of more than forty records is taken.
        LongerTaken,
        /// A table of fewer than forty records is taken where the caller has a place in it.
        ShorterTaken,
        /// Editor 0 is taken as 1.
        NoNumberAsFirst,
        /// Editor 41 is taken as 1, and so on.
        NumbersAround,
        /// An editor number is cut to its last byte.
        NumberCut,
        /// Editors are numbered from 0 to 39.
        NumbersFromNone,
        /// Editor 40 is refused with 44.
        LastNumberRefused,
        /// The first slip is answered and all others are echoed.
        FirstOfDay,
        /// A file with a circle through a NOT is 18 when read without that test.
        UnlayeredCircle,
        /// A file that has strata gets them when read without test 18.
        UnlayeredLayered,
        /// Every function takes a table with stratum 0 throughout.
        ZeroTaken,
        /// By marks, stratum 0 throughout is 31.
        ZeroRefused,
        /// By marks, a table with strata is 31.
        LayeredRefused,
        /// By marks, strata are not looked at.
        MarksUnlayered,
        /// By marks, each stratum may be 0 or the least.
        MixedTaken,
        /// A positive pair leaves the slot's other values unknown.
        RivalsUnknown,
        /// A pair of the slip leaves the slot's other values unknown.
        SlipRivalsUnknown,
        /// `s *= v` is false where the pair is unknown, and under NOT true.
        UnknownAsFalse,
        /// A literal on an unknown pair is false, under NOT too.
        UnknownLiteralFalse,
        /// A literal on an unknown pair is true under NOT.
        UnknownNotTrue,
        /// An unknown test with a false one after it is unknown.
        UnknownAndFalse,
        /// A false test with an unknown one after it is unknown.
        FalseAndUnknown,
        /// True tests with an unknown one after them are true.
        TrueAndUnknown,
        /// By marks, `s *= v` goes by the mark alone where the card has v.
        HadByMark,
        /// By marks, `s *= NONE` goes by the mark alone where the card has no value in s.
        EmptyByMark,
        /// By marks, `s |= NONE` never holds.
        MarkedNeverNone,
        /// 42 does not look at NONE; where it stays unknown it is taken as negative.
        NoneUnmarked,
        /// A positive value leaves NONE of its slot unknown.
        NoneNoRival,
        /// A positive NONE leaves the values of its slot unknown.
        NoneWithoutRivals,
        /// NONE is ruled out from the start where the card has no value.
        EmptyRuledOut,
        /// A pair is ruled out though the last rule that assigns it is not false.
        AssignerUnseen,
        /// A rule's trigger is not looked at where a pair is ruled out.
        TriggerUnseen,
        /// Only pairs that no rule assigns are ruled out.
        UnassignedOnly,
        /// Pairs are ruled out before the first rule fires, not after.
        RuledOutOnce,
        /// Pairs that only wait for each other are ruled out together.
        UnfoundedSets,
        /// By marks, a rule whose assignments are all positive already does not fire.
        MarkedIdle,
        /// A pair that would be both positive and negative keeps its mark, and nothing is 41.
        ClashIgnored,
        /// 42 is tested before 41.
        UnknownBeforeClash,
        /// What stays unknown is taken as negative, and nothing is 42.
        UnknownNegative,
        /// 42 names the lowest slot with an unknown pair.
        UnknownNamed,
        /// 40 is answered in place of 41.
        ClashAsConflict,
        /// The response by marks goes by strata where there are any.
        MarksByStrata,
        /// 41 and 42 are tested before 30.
        MarksBeforeRoom,
        /// 41 and 42 are not counted.
        MarksUncounted,
        /// The new card is written although 42 is answered.
        WrittenOnUnknown,
        /// A space is printed before a comma.
        SpaceBeforeComma,
        /// A space is printed before a semicolon.
        SpaceBeforeSemicolon,
        /// No space is printed inside braces.
        NoSpaceInBraces,
        /// No space is printed after a comma.
        NoSpaceAfterComma,
        /// Every NOT is printed.
        NotsPrinted,
        /// No NOT is printed.
        NotUnprinted,
        /// TRUE is printed before literals too.
        TruePrinted,
        /// TRUE is not printed in an empty condition.
        TrueUnprinted,
        /// Braces round one assignment are printed.
        OneInBraces,
        /// Two assignments or more are printed without braces.
        TwoWithoutBraces,
        /// A name of 24 bytes is printed without its last byte.
        LongNameCut,
        /// A value in a rule is printed as the value of its number in the first slot that has so many.
        ValueOfFirstSlot,
        /// NONE is not printed.
        NoneUnprinted,
        /// NONE is printed as the first value of its slot.
        NonePrintedAsFirst,
        /// `|=` is printed as `*=`.
        WasAsChangesTo,
        /// Slots are printed in the order of their names.
        SlotsSorted,
        /// The values of a slot are printed in the order of their names.
        ValuesSorted,
        /// Rules are printed in the order of their strata.
        RulesByStrata,
        /// Literals under NOT are printed after the others.
        NegatedLast,
        /// A literal that prints like one before it in its rule is not printed.
        LiteralOnce,
        /// Assignments are printed in the order of their names.
        AssignmentsSorted,
        /// A rule that prints like the one before it is not printed.
        RuleOnce,
        /// Byte 13 is printed before byte 10.
        ReturnPrinted,
        /// No byte 10 is printed after the last statement.
        NoLastNewline,
        /// A text without strata is printed.
        CirclePrinted,
        /// The second number of a refused print is 0.
        PrintSecondDropped,
        /// An output one byte shorter than the print is accepted.
        OneShortPrinted,
        /// A refused print clears its output.
        ClearedOnRefusal,
        /// As much of the print as fits is written although 33 is answered.
        PrintedOnShort,
        /// A zero byte is written after the print.
        ByteBeyondPrint,
        /// The length of a print is one more than was printed.
        PrintLengthOver,
    }

    /// The faults of an engine that show only in files about the limits of the library.
    LARGE_FAULTS {
        /// A text of 262,144 bytes is refused with 10.
        LongestTextRefused,
        /// A text of 262,145 bytes is read.
        LongerTextRead,
        /// A text over 65,535 bytes is refused with 10.
        LongTextRefused,
        /// The 2,000th WHEN is 15.
        LastRuleRefused,
        /// A 2,001st rule is read.
        RuleMoreRead,
        /// The 256th WHEN is 15.
        ManyRulesRefused,
        /// 15 at the 2,001st WHEN has second number 2,001.
        RuleMoreCounted,
        /// The second number of 15 is cut to its last byte.
        MostRulesCut,
        /// The second number of 11 to 17 is cut to its last byte.
        CompletedCut,
        /// The rule that 18 names is cut to its last byte.
        CircleRuleCut,
        /// The rule count of a table is cut to its last byte.
        CountCut,
        /// Where a name starts is cut to two bytes.
        StartsCut,
        /// A stratum is cut to its last byte.
        StrataCut,
        /// A stratum above 255 is 255.
        StrataHeld,
        /// A table with more than 2,000 rules is taken as one with 2,000.
        CountHeld,
        /// Rules above 255 never fire.
        HighRulesIdle,
        /// The fired record is written up to 32 bytes.
        RecordCut,
        /// A fired record needs 32 bytes at most.
        RecordRoom,
        /// How many rules fired is cut to its last byte.
        FiredCut,
        /// The ones of a record are counted in its first 249 bytes.
        LastByteUncounted,
        /// The ones of a record are counted in its first 32 bytes.
        HighBytesUncounted,
        /// A print of 262,144 bytes is refused with 34.
        LongestPrintRefused,
        /// A print of 262,145 bytes is accepted.
        LongerPrintAccepted,
        /// A print over 65,535 bytes is refused with 34.
        LongPrintRefused,
        /// 33 is tested before 34.
        RoomBeforeLength,
        /// 34 is given only where the output is shorter than the print.
        LengthByRoom,
    }

    /// The faults of a program that show in files about its own limits.
    PROGRAM_FAULTS {
        /// The program refuses a text of 65,535 bytes with 10.
        ProgramLongestRefused,
        /// The program reads texts as long as the library does.
        ProgramLongText,
        /// The program's 255th WHEN is 15.
        ProgramLastRefused,
        /// The program reads as many rules as the library does.
        ProgramManyRules,
        /// The program's 15 at the 256th WHEN has second number 256.
        ProgramRuleMoreCounted,
    }
}

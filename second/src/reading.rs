//! How document 01, with No. 1, No. 2 and No. 4 to No. 7 of document 02, is read: truly, or with one wrong reading put
//! in.
//!
//! A check that cannot fail is a defect, so every wrong reading below can be put into the reference
//! (`--wrong NAME`), and the tests show that the fixed-seed run catches each of them.

/// Declares the wrong readings: one name, one sentence each.
macro_rules! wrong_readings {
    ($($variant:ident, $name:literal, $says:literal;)*) => {
        #[derive(Clone, Copy, PartialEq, Eq, Debug)]
        pub enum Wrong { $($variant),* }

        impl Wrong {
            pub const ALL: &'static [Wrong] = &[$(Wrong::$variant),*];

            /// The name that `--wrong` takes.
            pub fn name(self) -> &'static str {
                match self { $(Wrong::$variant => $name),* }
            }

            /// The wrong reading in one sentence.
            pub fn says(self) -> &'static str {
                match self { $(Wrong::$variant => $says),* }
            }
        }
    };
}

wrong_readings! {
    // The five of document 01; the last of them says two things.
    ContextInOutput, "context-in-output", "A context is looked for in the output already written.";
    LongestFocusFirst, "longest-focus-first", "The longest focus is followed although its right context fails.";
    LowestRuleFirst, "lowest-rule-first", "The lowest rule wins over a longer stretch of a higher rule.";
    OtherLeft, "other-left", "One rule's focus is carried on because another rule's left context held.";
    FirstEnd, "first-end", "The scan stops at the first end that fits.";
    StartInside, "start-inside", "A stretch starts inside one already taken.";

    // The book.
    CutPlaceAtEnd, "cut-place-at-end", "A cut body is placed at the end of the book.";
    MissingKindPlace, "missing-kind-place", "A missing kind is placed at the last byte of the book.";
    AfterEndPlace, "after-end-place", "A byte after the end record is placed at the end record.";
    AfterEndIgnored, "after-end-ignored", "Bytes after the end record are ignored.";
    NoRuleBeforeCut, "no-rule-before-cut", "4 is tested before a cut body.";
    FullBeforeCut, "full-before-cut", "3 is tested before a cut body.";
    FieldsBeforeNoRule, "fields-before-no-rule", "5 is tested before 4.";
    NamesBeforeNoRule, "names-before-no-rule", "6 is tested before 4.";
    FieldsBeforeFull, "fields-before-full", "5 is tested before 3.";
    NamesBeforeFull, "names-before-full", "6 is tested before 3.";
    NamesBeforeFields, "names-before-fields", "6 is tested before 5.";
    NoRuleUntested, "no-rule-untested", "An end before any rule is accepted.";
    SeventeenRules, "seventeen-rules", "17 rules are accepted.";
    FifteenRules, "fifteen-rules", "The 16th rule is refused.";
    SixtyThreeStates, "sixty-three-states", "The 64th state is refused.";
    FiveHundredElevenArcs, "511-arcs", "The 512th arc is refused.";
    FiveHundredThirteenArcs, "513-arcs", "513 arcs are accepted.";
    WordOfSeven, "word-of-seven", "A replacement of eight symbols is refused.";
    UnusedFree, "unused-free", "An unused symbol byte need not be 0.";
    WordSymbolsFree, "word-symbols-free", "A replacement symbol may be above 31.";
    LowestBelowHighest, "lowest-below-highest", "Lowest must be strictly below highest.";
    HighestOpen, "highest-open", "An arc is not open to its highest symbol.";
    EarlierRuleNamed, "earlier-rule-named", "An arc may name states of an earlier rule.";
    TwoPartsNamed, "two-parts-named", "An arc may lead from one part to another.";
    LargeStateIsField, "large-state-is-field", "A state number of 64 or more is 5, not 6.";
    CountsKept, "counts-kept", "A refused book still returns its counts.";
    EmptyPartHolds, "empty-part-holds", "A context part without states asks for nothing.";
    OneStart, "one-start", "Only the first start state of a part counts.";
    OneAccept, "one-accept", "Only the first accept state of a part counts.";

    // The tape and the order after the book.
    TapeOf4095, "tape-of-4095", "4,096 symbols are refused.";
    TapeOf4097, "tape-of-4097", "4,097 symbols are accepted.";
    LastBadSymbol, "last-bad-symbol", "10 is placed at the last bad symbol.";
    BadSymbolFromOne, "bad-symbol-from-one", "Tape positions are counted from 1.";
    SymbolBeforeLength, "symbol-before-length", "10 is tested before 9.";
    WorkspaceBeforeSymbol, "workspace-before-symbol", "11 is tested before 10.";
    ScratchBeforeWorkspace, "scratch-before-workspace", "12 is tested before 11.";
    SetsBeforeScratch, "sets-before-scratch", "13 is tested before 12.";
    RightBeforeLeft, "right-before-left", "14 is tested before 13.";
    RowsAlone, "rows-alone", "11 looks at the rows alone.";
    SetsAlone, "sets-alone", "11 looks at the sets alone.";
    ScratchOfN, "scratch-of-n", "A scratch of n bytes is enough.";

    // The two automata.
    LeftFromFront, "left-from-front", "The left set's runs begin at the tape's front only.";
    FocusWithoutRight, "focus-without-right", "The right set holds focus states whose right language fails.";
    OtherRight, "other-right", "The right set holds focus states because another rule's right language held.";
    FocusEndLater, "focus-end-later", "A focus state is in the right set only if its stretch has a symbol.";
    RightSetAnchored, "right-set-anchored", "A right-part state's word must reach the tape's end.";
    LeftSetWithFocus, "left-set-with-focus", "The left set holds focus states too.";
    SymbolsDownward, "symbols-downward", "The sets are numbered for symbols 31 down to 0.";
    DeepestFirst, "deepest-first", "The newest set is numbered on before the older ones.";
    RightRowsBehind, "right-rows-behind", "A right row's symbol is put behind the tape.";
    SidesSwapped, "sides-swapped", "Right rows and sets stand before the left ones.";
    LimitOf255, "limit-of-255", "The 256th set is refused.";
    PastCountKept, "past-count-kept", "Entries past a count keep their old values.";
    RefusalKeepsWorkspace, "refusal-keeps-workspace", "13 and 14 change nothing.";
    FourteenKeepsLeft, "fourteen-keeps-left", "14 leaves the left rows and sets as built.";
    RefusalClearsAll, "refusal-clears-all", "13 and 14 clear the lent rows and sets to their ends.";
    RefusalClearsScratch, "refusal-clears-scratch", "13 and 14 clear the scratch.";
    ScratchRefusalClears, "scratch-refusal-clears", "12 leaves the workspace parts all 0.";
    AcceptanceClearsAll, "acceptance-clears-all", "Acceptance clears the bytes past the workspace.";
    ScratchShifted, "scratch-shifted", "Scratch byte i is the number of the right set at i + 1.";
    ScratchLeft, "scratch-left", "The scratch holds the numbers of the left sets.";
    ScratchWithoutEnd, "scratch-without-end", "Scratch byte n is not written.";

    // Candidates, taken stretches, output.
    LeftNotEmpty, "left-not-empty", "The word of a left context is never empty.";
    RightNotEmpty, "right-not-empty", "The word of a right context is never empty.";
    LeftAnchored, "left-anchored", "The word of a left context begins at the tape's front.";
    RightAnchored, "right-anchored", "The word of a right context reaches the tape's end.";
    HighestRuleTies, "highest-rule-ties", "Among equal stretches the highest rule is taken.";
    TouchingRefused, "touching-refused", "A taken start is strictly after the end of the stretch before.";
    OriginsCountUp, "origins-count-up", "The origins of a replacement count up from the start.";
    OriginOfEnd, "origin-of-end", "The origin of every symbol of a replacement is the end of the stretch.";
    OriginInOutput, "origin-in-output", "The origin of a kept symbol is its place in the output.";
    TakenCountsCandidates, "taken-counts-candidates", "REWRITE returns the number of candidates.";
    OriginsUntested, "origins-untested", "15 of REWRITE looks at the output buffer alone.";
    OutUntested, "out-untested", "15 of REWRITE looks at the origins alone.";
    RoomMissing, "room-missing", "15 is placed at what is missing, not at what is needed.";
    RoomExactRefused, "room-exact-refused", "A buffer of exactly the needed length is refused.";
    RoomKeepsScratch, "room-keeps-scratch", "15 leaves the scratch unchanged.";
    RoomKeepsWorkspace, "room-keeps-workspace", "15 leaves the workspace unchanged.";
    RoomWritesFront, "room-writes-front", "15 writes as much of the output or account as there is room for.";
    RoomKeepsCounts, "room-keeps-counts", "15 still returns the counts.";
    OutputClearsRest, "output-clears-rest", "Acceptance clears the rest of each output buffer.";

    // The account and SHOW.
    RoomInLines, "room-in-lines", "15 of ACCOUNT is placed at lines, not words.";
    VerdictsSwapped, "verdicts-swapped", "Verdicts 1 and 2 are exchanged.";
    VerdictTieShorter, "verdict-tie-shorter", "A candidate of another rule than the taken one always has verdict 2.";
    VerdictEndInside, "verdict-end-inside", "Verdict 3 has the candidate's own start as deciding start.";
    OrderRuleBeforeEnd, "order-rule-before-end", "The account's order is start, rule, end.";
    OrderRuleFirst, "order-rule-first", "The account's order is rule, start, end.";
    LongestLineFirst, "longest-line-first", "The account lists a start's longest candidate first.";
    TakenLinesAlone, "taken-lines-alone", "The account lists taken stretches alone.";
    LinesFromOne, "lines-from-one", "SHOW counts lines from 1.";
    LastLineHidden, "last-line-hidden", "SHOW does not reach the last line of the account.";
    LineBegunIsEnough, "line-begun-is-enough", "SHOW reads a line whose last words are missing.";
    LineWraps, "line-wraps", "A huge line number wraps around at 32 bits.";
    TapeEndHidden, "tape-end-hidden", "SHOW refuses a stretch that ends at the tape's end.";
    PastTapeCut, "past-tape-cut", "SHOW cuts a stretch that goes past the tape.";
    EmptyPartAtEnd, "empty-part-at-end", "SHOW's empty part stands at the tape's end.";

    // The sixth word: document 02, No. 1.
    OwnRule, "own-rule", "Every line has its own rule as deciding rule.";
    TakenUndecided, "taken-undecided", "Verdict 0 has 0 as deciding rule.";
    LowestTakenRule, "lowest-taken-rule", "The lowest rule taken on the tape decides all that is not taken.";
    HighestTakenRule, "highest-taken-rule", "The highest rule taken on the tape decides all that is not taken.";
    LastTakenRule, "last-taken-rule", "The last stretch taken on the tape decides all that is not taken.";
    ShorterLowestRule, "shorter-lowest-rule", "Verdict 1 has the lowest rule at that start as deciding rule.";
    ShorterShortestRule, "shorter-shortest-rule", "Verdict 1 has the rule of the shortest candidate at that start.";
    ShorterNextRule, "shorter-next-rule", "Verdict 1 has the rule of the next longer candidate at that start.";
    TieNextRule, "tie-next-rule", "Verdict 2 has the next lower rule of that stretch, which need not be the taken one.";
    InsideOwnRule, "inside-own-rule", "Verdict 3 has the candidate's own rule as deciding rule.";
    InsideNextRule, "inside-next-rule", "Verdict 3 has the rule of the taken stretch after the deciding one.";
    InsideEarlierRule, "inside-earlier-rule", "Verdict 3 has the rule of the taken stretch before the deciding one.";
    InsideRuleAtEnd, "inside-rule-at-end", "Verdict 3 has the rule of the last taken stretch that the candidate meets.";
    DecidingWordsSwapped, "deciding-words-swapped", "The deciding rule stands before the deciding start.";
    RoomOfFive, "room-of-five", "Five words a candidate are room enough for the account.";
    RoomInFives, "room-in-fives", "15 of ACCOUNT is placed at five words a candidate.";
    ShowByFive, "show-by-five", "SHOW still reads lines of five words.";
    SixthWordMissing, "sixth-word-missing", "SHOW reads a line whose sixth word is missing.";

    // All lanes of a heat: document 02, No. 2. First the whole call.
    ElevenLanes, "eleven-lanes", "Eleven lanes are accepted.";
    NineLanes, "nine-lanes", "Ten lanes are refused.";
    LanesAfterBook, "lanes-after-book", "16 is tested after the book.";
    LanesAfterBuild, "lanes-after-build", "16 is tested after 14, when the workspace is built.";
    SixteenPlace, "sixteen-place", "16 is placed at the number of lanes.";
    SixteenInRecords, "sixteen-in-records", "16 is written into the lane records too.";
    RecordsCleared, "records-cleared", "A refusal of the whole call clears what the lane records get back.";
    RecordsRefused, "records-refused", "A refusal of the whole call is written into the lane records too.";
    BuildRefusesLanes, "build-refuses-lanes", "11, 13 and 14 are replies of the lanes, and the call replies 0.";
    EmptyListAccepted, "empty-list-accepted", "An empty list is accepted whatever the book.";
    EmptyListUnbuilt, "empty-list-unbuilt", "An empty list leaves the workspace alone.";
    NoLaneClears, "no-lane-clears", "If no lane is accepted the workspace parts are all 0.";
    NoLaneKeeps, "no-lane-keeps", "If no lane is accepted the workspace is left alone.";
    CallRepliesForLane, "call-replies-for-lane", "The call replies with the first refusal of a lane.";
    RefusalEndsHeat, "refusal-ends-heat", "The lanes after a refused one are left alone.";
    LanesByStart, "lanes-by-start", "The lanes go in the order of their starts.";
    RefusedLaneKeepsCounts, "refused-lane-keeps-counts", "A refused lane keeps its old output length and stretches.";
    AcceptedLaneKeepsPlace, "accepted-lane-keeps-place", "An accepted lane keeps its old place.";
    LaneLengthTotal, "lane-length-total", "A lane's output length counts the lanes before it too.";
    StartOfOutput, "start-of-output", "An accepted lane's start becomes that of its output.";

    // A lane's stretch and the order of its replies.
    LaneSumWraps, "lane-sum-wraps", "Start and length are added with wrap-around.";
    LaneOf32Bits, "lane-of-32-bits", "Start and length count up to 32 bits alone.";
    LaneCut, "lane-cut", "A lane that leaves the common buffer is cut at its end.";
    EmptyLaneAtEnd, "empty-lane-at-end", "A lane of length 0 at the buffer's very end is outside it.";
    EmptyLaneAnywhere, "empty-lane-anywhere", "A lane of length 0 is inside the buffer wherever it starts.";
    OverlapRefused, "overlap-refused", "A lane that overlaps an earlier one is refused with 17.";
    SeventeenPlace, "seventeen-place", "17 is placed at the lane's start.";
    LengthBeforeStretch, "length-before-stretch", "9 of a lane is tested before 17.";
    LaneSymbolBeforeLength, "lane-symbol-before-length", "10 of a lane is tested before 9.";
    LaneScratchBeforeSymbol, "lane-scratch-before-symbol", "12 of a lane is tested before 10.";
    LaneRoomBeforeScratch, "lane-room-before-scratch", "15 of a lane is tested before 12.";
    LengthOfBuffer, "length-of-buffer", "9 of a lane looks at the length of the common buffer.";
    SymbolsOfBuffer, "symbols-of-buffer", "10 of a lane looks at all symbols of the common buffer.";
    ScratchOfBuffer, "scratch-of-buffer", "12 of a lane asks for scratch for the common buffer.";
    LanePlaceInBuffer, "lane-place-in-buffer", "10 of a lane is placed in the common buffer.";
    LanePlaceTotal, "lane-place-total", "15 of a lane is placed at the symbols of all lanes so far.";
    EmptyLaneNeedsNone, "empty-lane-needs-none", "A lane of length 0 needs no scratch.";

    // A lane's room, output, origins and scratch.
    RefusedLaneUsesNeeded, "refused-lane-uses-needed", "A lane refused with 15 uses the room that it needs.";
    ShortScratchUsesNeeded, "short-scratch-uses-needed", "A lane refused with 12 uses the room that it needs.";
    RefusedLaneUsesTape, "refused-lane-uses-tape", "A refused lane uses as much room as its tape is long.";
    LaneRoomOfOut, "lane-room-of-out", "The room still left is that of the output alone.";
    LaneRoomOfOrigins, "lane-room-of-origins", "The room still left is that of the origins alone.";
    SymbolsAtFront, "symbols-at-front", "Each lane's symbols go to the front of the output.";
    OriginsAtFront, "origins-at-front", "Each lane's origins go to the front of the origins.";
    OriginsInBuffer, "origins-in-buffer", "Origins are positions in the common buffer.";
    OriginsGoOn, "origins-go-on", "Origins count on from the lane before.";
    LeftFromBefore, "left-from-before", "A left context is looked for before the lane's start too.";
    RightFromAfter, "right-from-after", "A right context is looked for after the lane's end too.";
    FirstScratchKept, "first-scratch-kept", "The scratch ends as the first lane leaves it.";
    LastScratchAlone, "last-scratch-alone", "The scratch ends as the last lane alone would leave it.";
    ScratchGoesOn, "scratch-goes-on", "Each lane's scratch stands after that of the lane before.";
    ScratchFromBuffer, "scratch-from-buffer", "The scratch holds the right sets of the common buffer.";
    LongLaneWrites, "long-lane-writes", "A lane refused with 9 has written its scratch.";
    BadLaneWrites, "bad-lane-writes", "A lane refused with 10 has written its scratch.";
    ShortScratchWrites, "short-scratch-writes", "A lane refused with 12 has written its scratch.";
    LaneRoomKeepsScratch, "lane-room-keeps-scratch", "A lane refused with 15 leaves the scratch unchanged.";

    // The time of a mark of two symbols: document 02, No. 4. First who has the last position.
    AllAtStart, "all-at-start", "Every symbol of a replacement keeps the start, as document 01 alone has it.";
    OneAtLast, "one-at-last", "The symbol of a word of one has the last position too.";
    AllAtLast, "all-at-last", "All symbols of a word of two or more have the last position.";
    FirstAtLast, "first-at-last", "The first symbol of a longer word has the last position, the others the start.";
    SecondAtLast, "second-at-last", "The second symbol has the last position, the others the start.";
    AllButFirstAtLast, "all-but-first-at-last", "Every symbol but the first has the last position.";
    AllButLastAtLast, "all-but-last-at-last", "Every symbol but the last has the last position.";
    TwoAtLast, "two-at-last", "The last symbol has the last position in words of exactly two symbols alone.";
    ThreeAtLast, "three-at-last", "The last symbol has the last position in words of three or more alone.";
    AsLongAtLast, "as-long-at-last", "Only on a stretch as long as the word the last symbol has the last position.";
    NoLongerAtLast, "no-longer-at-last", "The last symbol of a word longer than its stretch keeps the start.";
    SameAtLast, "same-at-last", "The last symbol has the last position only if the tape has the same symbol there.";
    LanesAtStart, "lanes-at-start", "Every symbol of a replacement keeps the start in the lanes of a heat.";
    LanesAloneAtLast, "lanes-alone-at-last", "Only in the lanes of a heat the last symbol has the last position.";

    // Then which position that is, and what the others have.
    LastAtEnd, "last-at-end", "The last symbol's origin is the end of the stretch, one past its last position.";
    LastBeforeLast, "last-before-last", "The last symbol's origin is one before the last position.";
    LastByWord, "last-by-word", "The last symbol's origin is counted from the start by the length of the word.";
    LastInOutput, "last-in-output", "The last symbol's origin is its place in the output.";
    CountUpToLast, "count-up-to-last", "The origins of a replacement count up and stop at the last position.";
    CountUpBeforeLast, "count-up-before-last", "The symbols before the last have origins counting up from the start.";

    // Marks put in without removing anything: document 02, No. 5. First the focus and the candidates.
    SevenStillGiven, "seven-still-given", "A focus state with flags 3 is still refused with 7.";
    FiveForSeven, "five-for-seven", "A focus state with flags 3 is refused with 5.";
    BothStartsAlone, "both-starts-alone", "A focus state with flags 3 is a start state alone.";
    BothAcceptsAlone, "both-accepts-alone", "A focus state with flags 3 is an accept state alone.";
    BareFocusInserts, "bare-focus-inserts", "A focus without states accepts the empty word.";
    NoEmptyCandidate, "no-empty-candidate", "A candidate's start is still below its end.";
    EmptyTapeBare, "empty-tape-bare", "An empty tape has no candidates.";
    EmptyWithoutWord, "empty-without-word", "An empty stretch is no candidate of a rule with an empty word.";
    EmptyWithoutArcs, "empty-without-arcs", "Only a focus without arcs has empty candidates.";
    EmptyByLeftAlone, "empty-by-left-alone", "An empty candidate needs its left context alone.";
    EmptyByRightAlone, "empty-by-right-alone", "An empty candidate needs its right context alone.";
    EmptyNeedsLeft, "empty-needs-left", "The word of an empty candidate's left context is never empty.";
    EmptyNeedsRight, "empty-needs-right", "The word of an empty candidate's right context is never empty.";

    // Which of them are taken.
    EmptyTakenInside, "empty-taken-inside", "An empty candidate strictly inside a taken stretch is taken too.";
    EmptyAtEndNotTaken, "empty-at-end-not-taken", "An empty candidate at the end of a taken stretch is not taken.";
    NoneAfterInsertion, "none-after-insertion", "Nothing is taken right after the symbol kept at an insertion.";
    EmptyBeatsLonger, "empty-beats-longer", "At a taken start an empty candidate wins over longer ones.";
    HighestEmptyWins, "highest-empty-wins", "Among empty stretches the highest rule is taken.";
    InsertedAlone, "inserted-alone", "No empty candidate is taken on a tape that has longer stretches taken.";

    // What REWRITE makes of them.
    NothingInserted, "nothing-inserted", "REWRITE inserts nothing.";
    FrontNotRewritten, "front-not-rewritten", "REWRITE inserts nothing at the tape's front.";
    EndNotRewritten, "end-not-rewritten", "REWRITE does not visit the tape's end.";
    InsertedTwice, "inserted-twice", "REWRITE takes the start of an empty stretch twice.";
    EveryRuleInserts, "every-rule-inserts", "REWRITE inserts the words of all rules with an empty candidate there.";
    EmptyBesideLonger, "empty-beside-longer", "REWRITE inserts an empty candidate's word before a longer stretch too.";
    SymbolDropped, "symbol-dropped", "The symbol at an insertion is not kept.";
    SymbolBeforeWord, "symbol-before-word", "The symbol at an insertion is kept before the word.";
    InsertedUncounted, "inserted-uncounted", "REWRITE does not count empty stretches taken.";
    InsertedUnmeasured, "inserted-unmeasured", "15 of REWRITE asks for no room for inserted words.";
    EndUnmeasured, "end-unmeasured", "15 of REWRITE asks for no room for a word inserted at the tape's end.";
    SymbolUnmeasured, "symbol-unmeasured", "15 of REWRITE asks for no room for the symbols kept at insertions.";
    InsertedEarly, "inserted-early", "The origin of an inserted word is the position before it.";
    InsertedLate, "inserted-late", "The origin of an inserted word is the position after it.";
    InsertedLastEarly, "inserted-last-early", "The last of two or more inserted symbols has the end less one.";
    InsertedLastLate, "inserted-last-late", "The last of two or more inserted symbols has the position after it.";
    EndAtLastPosition, "end-at-last-position", "A word inserted at the tape's end has the tape's last position.";
    InsertedInOutput, "inserted-in-output", "The origin of an inserted symbol is its place in the output.";
    KeptLate, "kept-late", "The symbol kept at an insertion has the position after it.";
    LanesInsertNothing, "lanes-insert-nothing", "Nothing is inserted in the lanes of a heat.";
    LanesAloneInsert, "lanes-alone-insert", "Only in the lanes of a heat words are inserted.";
    LaneEndNotRewritten, "lane-end-not-rewritten", "A lane's end is not visited.";
    BetweenLanesOnce, "between-lanes-once", "Nothing is inserted at the front of a lane right after the one before.";

    // What ACCOUNT and SHOW make of them.
    EndNotAccounted, "end-not-accounted", "ACCOUNT does not visit the tape's end.";
    EndUncounted, "end-uncounted", "ACCOUNT lists the candidates at the tape's end and does not count them.";
    EndUnlisted, "end-unlisted", "ACCOUNT counts the candidates at the tape's end and does not list them.";
    EmptyUnlisted, "empty-unlisted", "ACCOUNT does not list empty candidates.";
    EmptyInsideUnlisted, "empty-inside-unlisted", "ACCOUNT does not list an empty candidate inside a taken stretch.";
    EmptyLinesLast, "empty-lines-last", "The account lists a start's empty candidates after the longer ones.";
    EmptyLinesApart, "empty-lines-apart", "The account lists empty candidates after all others.";
    EmptyAtEndInside, "empty-at-end-inside", "An empty candidate at the end of a taken stretch has verdict 3.";
    EmptyShorterInside, "empty-shorter-inside", "An empty candidate at the start of a taken stretch has verdict 3.";
    EmptyStretchAtFront, "empty-stretch-at-front", "SHOW gives an empty stretch as the empty part at the tape's front.";
    EmptyEndAtFront, "empty-end-at-front", "SHOW gives an empty stretch at the tape's end as the part at its front.";
    EmptyPastTapeAtEnd, "empty-past-tape-at-end", "SHOW gives an empty stretch past the tape as the part at its end.";
    EmptyShowsSymbol, "empty-shows-symbol", "SHOW gives an empty stretch as the symbol kept there.";
    StartAboveEndTurned, "start-above-end-turned", "If start is above end SHOW hands back the stretch between them.";
    StartAboveEndAtStart, "start-above-end-at-start", "If start is above end SHOW hands back the empty part at start.";

    // Thirty-two symbols: document 02, No. 6. First where 5 and 10 begin.
    SixteenSymbols, "sixteen-symbols", "There are still sixteen symbols, as document 01 alone has it.";
    WordFromSixteen, "word-from-sixteen", "5 begins at 16 for a symbol of a word.";
    WordFromThirtyOne, "word-from-thirty-one", "5 begins at 31 for a symbol of a word.";
    WordFromThirtyThree, "word-from-thirty-three", "5 begins at 33 for a symbol of a word.";
    LowestFromSixteen, "lowest-from-sixteen", "5 begins at 16 for an arc's lowest symbol.";
    HighestFromSixteen, "highest-from-sixteen", "5 begins at 16 for an arc's highest symbol.";
    HighestFromThirtyOne, "highest-from-thirty-one", "5 begins at 31 for an arc's highest symbol.";
    HighestFromThirtyThree, "highest-from-thirty-three", "5 begins at 33 for an arc's highest symbol.";
    ArcFromThirtyThree, "arc-from-thirty-three", "5 begins at 33 for both symbols of an arc.";
    TapeFromSixteen, "tape-from-sixteen", "10 begins at 16.";
    TapeFromThirtyOne, "tape-from-thirty-one", "10 begins at 31.";
    TapeFromThirtyThree, "tape-from-thirty-three", "10 begins at 33.";
    AccountFromSixteen, "account-from-sixteen", "10 of ACCOUNT begins at 16.";
    LaneFromSixteen, "lane-from-sixteen", "10 of a lane begins at 16.";
    OldBookFromSixteen, "old-book-from-sixteen", "10 begins at 16 with a book that names no symbol above 15.";

    // What the arcs are open to, and what is written.
    OldRangeOpen, "old-range-open", "An arc from 0 to 15 is open to every symbol.";
    UpperClosed, "upper-closed", "No arc is open to a symbol above 15.";
    UpperFolded, "upper-folded", "A symbol above 15 goes along the arcs of the symbol 16 below it.";
    KeptFolded, "kept-folded", "A kept symbol above 15 is written as the symbol 16 below it.";
    WordFolded, "word-folded", "A symbol above 15 of a word is written as the symbol 16 below it.";

    // The numbering, the rows and where 11 begins.
    UpperUnnumbered, "upper-unnumbered", "The sets are numbered for symbols 0 to 15 alone, and other entries are 0.";
    UpperFirst, "upper-first", "The sets are numbered for symbols 16 to 31 before 0 to 15.";
    UpperLast, "upper-last", "The sets are numbered for symbols 0 to 15 throughout, and only then on for 16 to 31.";
    SymbolsInPairs, "symbols-in-pairs", "The sets are numbered for symbols 0 and 16, then 1 and 17, and so on.";
    RowsOfSixteen, "rows-of-sixteen", "Rows still have 16 entries, and the byte workspace 8,192 bytes.";
    UpperEntriesZero, "upper-entries-zero", "A row's entries of symbols 16 to 31 are 0.";
    UpperEntriesFirst, "upper-entries-first", "A row's entries of symbols 16 to 31 stand before those of 0 to 15.";
    UpperRowsApart, "upper-rows-apart", "Entries of symbols 16 to 31 stand in rows of their own after the old ones.";
    RightRowsEarly, "right-rows-early", "The right rows still begin at byte 4,096.";
    OldLengthEnough, "old-length-enough", "11 still begins below 8,192 bytes.";
    HeatOldLength, "heat-old-length", "11 of HEAT still begins below 8,192 bytes.";
    OldBookOldLength, "old-book-old-length", "11 begins below 8,192 bytes with a book that names no symbol above 15.";
    OldBookOldRows, "old-book-old-rows", "A book that names no symbol above 15 keeps rows of 16 entries.";
    OldFrontCleared, "old-front-cleared", "13 and 14 clear the first 8,192 bytes of the rows alone.";
    OldFrontWritten, "old-front-written", "Entries past a count are 0 in the first 8,192 bytes alone.";

    // Parts drawn in the university's tool: document 02, No. 7. First what a line is.
    TwoFieldsAlone, "two-fields-alone", "20 is given for two fields alone, and four are 18.";
    FourFieldsAlone, "four-fields-alone", "20 is given for four fields alone, and two are 18.";
    FieldsAreLine, "fields-are-line", "Two or four fields are 18 too, and 20 is never given.";
    FiveFieldsWeighted, "five-fields-weighted", "Five fields are 20 too.";
    MoreFieldsWeighted, "more-fields-weighted", "Five or more fields are 20 too.";
    NumbersBeforeFields, "numbers-before-fields", "Two or four fields are 20 only if all of them are numbers.";
    StatesBeforeWeight, "states-before-weight", "Two or four fields are 20 only if numbers stand before the last.";
    NewlineBeforeFields, "newline-before-fields", "Two or four fields without a newline are 18.";
    ReturnBeforeFields, "return-before-fields", "Two or four fields with a carriage return are 18.";
    EmptyFieldsUncounted, "empty-fields-uncounted", "An empty field does not count: several tabs are one.";
    LastTabDropped, "last-tab-dropped", "A tab at a line's end begins no field.";
    BlankSeparates, "blank-separates", "A blank separates fields as a tab does.";
    ReturnTolerated, "return-tolerated", "A carriage return at a line's end is dropped.";
    NewlineNotNeeded, "newline-not-needed", "The last line needs no newline.";
    UnendedLineDropped, "unended-line-dropped", "A last line without newline is not read.";
    UnendedIsWeighted, "unended-is-weighted", "A line without newline is 20.";
    BareLineSkipped, "bare-line-skipped", "An empty line of a text is skipped.";
    BareEndSkipped, "bare-end-skipped", "Empty lines at the text's end are skipped.";
    BareLineEnds, "bare-line-ends", "An empty line ends the text.";
    BareIsWeighted, "bare-is-weighted", "An empty line is 20.";
    TextEndsAtZero, "text-ends-at-zero", "A byte 0 ends the text.";

    // Its numbers.
    LeadingZerosRefused, "leading-zeros-refused", "A number with zeros in front is 18.";
    LeadingZerosOctal, "leading-zeros-octal", "A number with a zero in front is octal.";
    PlusTolerated, "plus-tolerated", "A plus sign may stand before a number.";
    MinusTolerated, "minus-tolerated", "A minus sign before a number is dropped.";
    BlanksDropped, "blanks-dropped", "Blanks around a number are dropped.";
    EmptyFieldIsZero, "empty-field-is-zero", "An empty field is the number 0.";
    FieldReadToDigits, "field-read-to-digits", "What follows the digits of a field is dropped.";
    LongStateRefused, "long-state-refused", "A state of more than five digits is 18, zeros in front too.";
    LongLabelRefused, "long-label-refused", "A label of more than two digits is 18.";
    HighestStateRefused, "highest-state-refused", "State 65,535 is refused.";
    NextStateAccepted, "next-state-accepted", "State 65,536 is accepted.";
    SourceFree, "source-free", "A source may be above 65,535.";
    DestinationFree, "destination-free", "A destination may be above 65,535.";
    FinalFree, "final-free", "A final state may be above 65,535.";
    StateOf16Bits, "state-of-16-bits", "A state wraps around at 16 bits.";
    StateOf32Bits, "state-of-32-bits", "A state wraps around at 32 bits.";
    StateOf64Bits, "state-of-64-bits", "A state wraps around at 64 bits.";
    LabelOf5Bits, "label-of-5-bits", "A label wraps around at 5 bits.";
    LabelOf8Bits, "label-of-8-bits", "A label wraps around at 8 bits.";
    LabelOf16Bits, "label-of-16-bits", "A label wraps around at 16 bits.";
    LabelOf32Bits, "label-of-32-bits", "A label wraps around at 32 bits.";
    LabelOf64Bits, "label-of-64-bits", "A label wraps around at 64 bits.";

    // Its label, and the symbol that it means.
    ZeroLabelRead, "zero-label-read", "Label 0 is accepted and means symbol 0 too.";
    ZeroLabelDropped, "zero-label-dropped", "Label 0 is accepted and its arc left out.";
    LabelIsSymbol, "label-is-symbol", "Label k means symbol k.";
    LabelsFromZero, "labels-from-zero", "Labels 0 to 31 are accepted, and label k means symbol k.";
    LabelsToThirtyOne, "labels-to-thirty-one", "Label 32 is refused.";
    LabelsToThirtyThree, "labels-to-thirty-three", "Label 33 is accepted.";
    LabelsToSixteen, "labels-to-sixteen", "19 begins at label 17.";
    LabelInTheMiddle, "label-in-the-middle", "The label stands before the destination.";
    ArcToHighest, "arc-to-highest", "An imported arc's highest symbol is 31.";
    ArcFromLowest, "arc-from-lowest", "An imported arc's lowest symbol is 0.";

    // Which fault decides, and its place.
    LabelBeforeLine, "label-before-line", "19 is tested before 18 in a line.";
    EighteenForTwenty, "eighteen-for-twenty", "18 and 20 are exchanged.";
    EighteenForNineteen, "eighteen-for-nineteen", "18 and 19 are exchanged.";
    LargeStateIsLabel, "large-state-is-label", "A state above 65,535 is 19.";
    LargeLabelIsLine, "large-label-is-line", "A label above 32 is 18.";
    ZeroLabelIsLine, "zero-label-is-line", "Label 0 is 18.";
    LastFaultyLine, "last-faulty-line", "The last faulty line decides.";
    FieldsOfTextFirst, "fields-of-text-first", "A line that is 20 decides before earlier ones that are not.";
    LabelsOfTextLast, "labels-of-text-last", "A line that is 19 decides only if no line is 18 or 20.";
    FaultFromZero, "fault-from-zero", "18 to 20 are placed at the number of the line, from 0.";
    FaultFromOne, "fault-from-one", "18 to 20 are placed at the number of the line, from 1.";
    FaultPlaceZero, "fault-place-zero", "18 to 20 are placed at 0.";
    FaultAtEnd, "fault-at-end", "18 to 20 are placed at the end of the line.";
    FaultAfter, "fault-after", "18 to 20 are placed at the line after.";
    EighteenAtByte, "eighteen-at-byte", "18 is placed at the first byte that is no digit and no tab, or at the end.";
    NineteenAtLabel, "nineteen-at-label", "19 is placed at the label.";
    TwentyAtWeight, "twenty-at-weight", "20 is placed at the last field.";

    // The states and their numbers.
    DestinationFirst, "destination-first", "A line's destination is numbered before its source.";
    SourcesFirst, "sources-first", "All sources are numbered before any state that is none.";
    LastAppearanceFirst, "last-appearance-first", "States are numbered from the text's end.";
    FinalsFirst, "finals-first", "Final states are numbered before all others.";
    FinalsLast, "finals-last", "A line of one state is no appearance of it.";
    FinalAloneForgotten, "final-alone-forgotten", "A state that no arc names is not written.";
    LowestNumberedFirst, "lowest-numbered-first", "States are numbered in the order of their own numbers.";
    NumbersKept, "numbers-kept", "States keep their own numbers, and those between are written too.";
    StartOfSecondLine, "start-of-second-line", "The start is the first state of the second line, if there is one.";
    StartOfLastLine, "start-of-last-line", "The start is the first state of the last line.";
    StartOfFirstArc, "start-of-first-arc", "The start is the source of the first arc, if there is one.";
    StartAtDestination, "start-at-destination", "The start is the last state of the first line.";
    FinalNoStart, "final-no-start", "If the first line is a final state there is no start.";
    LowestIsStart, "lowest-is-start", "The start is the state with the lowest number.";
    ZeroIsStart, "zero-is-start", "The start is state 0, if there is one.";
    FirstFinalAlone, "first-final-alone", "Only the first final state of the text is final.";
    LastFinalAlone, "last-final-alone", "Only the last final state of the text is final.";
    FinalTwiceIsNone, "final-twice-is-none", "A state named as final twice is not final.";
    FinalStartAccepts, "final-start-accepts", "A start that is final has flags 2.";
    FinalStartStarts, "final-start-starts", "A start that is final has flags 1.";
    EmptyTextBare, "empty-text-bare", "An empty text gives no record.";
    EmptyTextStarts, "empty-text-starts", "An empty text gives one state with flags 1.";
    EmptyTextAccepts, "empty-text-accepts", "An empty text gives one state with flags 2.";
    EmptyTextIsAny, "empty-text-is-any", "An empty text gives one state with flags 3.";
    EmptyTextRefused, "empty-text-refused", "An empty text is 18.";
    EmptyTextUnnumbered, "empty-text-unnumbered", "An empty text is accepted whatever the first number.";

    // The records.
    ArcsBeforeStates, "arcs-before-states", "Arcs are written first, then states.";
    RecordsInTextOrder, "records-in-text-order", "Each arc is written right after the states that it needs.";
    ArcsBySource, "arcs-by-source", "Arcs are written source by source.";
    ArcsBackward, "arcs-backward", "Arcs are written from the text's end.";
    ArcsTurned, "arcs-turned", "An imported arc leads from destination to source.";
    ArcsJoined, "arcs-joined", "Arcs between the same states with one symbol after another are made one.";
    RepeatedArcsOnce, "repeated-arcs-once", "A repeated arc is written once.";
    ArcsFromZero, "arcs-from-zero", "Imported arcs name states from 0, not from the first number.";
    ArcStatesFirst, "arc-states-first", "Both states of an imported arc stand before its symbols.";
    WrittenAsFocus, "written-as-focus", "Imported states are always of the focus.";
    FlagsBeforePart, "flags-before-part", "The flags of an imported state stand before its part.";
    EndWritten, "end-written", "An end record is written too.";
    LengthInRecords, "length-in-records", "IMPORT returns the number of records.";
    ImportClearsRest, "import-clears-rest", "IMPORT clears the rest of the buffer.";

    // 5, 21 and 15.
    PartAfterFaults, "part-after-faults", "5 of IMPORT is tested after the lines.";
    PartAfterLimits, "part-after-limits", "5 of IMPORT is tested after 21.";
    PartLast, "part-last", "5 of IMPORT is tested after 15.";
    PartThreeAccepted, "part-three-accepted", "Part 3 is accepted.";
    PartTwoRefused, "part-two-refused", "Part 2 is refused.";
    PartUntested, "part-untested", "Every part is accepted.";
    PartAndFirstSwapped, "part-and-first-swapped", "The first number comes before the part.";
    FivePlace, "five-place", "5 of IMPORT is placed at the part.";
    LimitsBeforeFaults, "limits-before-faults", "21 is tested before 18 to 20.";
    LimitByLine, "limit-by-line", "21 is given at the line that passes the limit, before later lines are read.";
    LimitAtLine, "limit-at-line", "21 is placed at the line that passes the limit.";
    ImportOf511Arcs, "import-of-511-arcs", "512 arcs are refused with 21.";
    ImportOf513Arcs, "import-of-513-arcs", "513 arcs are imported.";
    NumberTo62, "number-to-62", "A state number of 63 is refused with 21.";
    NumberTo64, "number-to-64", "A state number of 64 is accepted.";
    LimitOfArcsAlone, "limit-of-arcs-alone", "21 looks at the arcs alone.";
    LimitOfStatesAlone, "limit-of-states-alone", "21 looks at the states alone.";
    StatesWithoutFirst, "states-without-first", "21 counts the text's states, whatever the first number.";
    FirstAlone, "first-alone", "21 looks at the number of states and at the first number, not at their sum.";
    FirstWraps, "first-wraps", "State numbers wrap around at 8 bits before 21 is tested.";
    RoomBeforeLimits, "room-before-limits", "15 of IMPORT is tested before 21.";
    RoomBeforeFaults, "room-before-faults", "15 of IMPORT is tested before 18 to 20.";
    ArcsUnmeasured, "arcs-unmeasured", "15 of IMPORT asks for no room for arcs.";
    StatesUnmeasured, "states-unmeasured", "15 of IMPORT asks for no room for states.";
    ImportRoomExactRefused, "import-room-exact-refused", "A buffer of exactly the bytes that IMPORT needs is refused.";
    ImportRoomMissing, "import-room-missing", "15 of IMPORT is placed at the bytes missing.";
    ImportRoomInRecords, "import-room-in-records", "15 of IMPORT is placed at the records needed.";
    ImportKeepsLength, "import-keeps-length", "15 of IMPORT still returns the length.";
    ImportWritesFront, "import-writes-front", "15 of IMPORT writes as many bytes as there is room for.";
    ImportWritesRecords, "import-writes-records", "15 of IMPORT writes as many whole records as there is room for.";
    LimitWritesFront, "limit-writes-front", "21 writes as many bytes as there is room for.";
    FaultWritesFront, "fault-writes-front", "18 to 20 write the records of the lines before.";
    ImportRefusalClears, "import-refusal-clears", "A refusal of IMPORT clears the buffer.";

    // The program, its digits first.
    OtherIsSixteen, "other-is-sixteen", "Another character counts as 16, which is a symbol now.";
    DigitsToF, "digits-to-f", "Only 0 to 9 and a to f are read.";
    DigitsFolded, "digits-folded", "g to v are read as the symbols 16 below them.";
    DigitsUnlike, "digits-unlike", "The letters read are a to z without i, l, o and u.";
    CapitalsRead, "capitals-read", "A to V are digits too.";
    NewCapitalsRead, "new-capitals-read", "G to V are digits too.";
    AfterNineRead, "after-nine-read", "The character after 9 is read as 10.";
    BeforeARead, "before-a-read", "The character before a is read as 9.";
    PrintedCapital, "printed-capital", "Letters are printed as capitals.";
    NewPrintedCapital, "new-printed-capital", "g to v are printed as capitals.";
    PrintedInHex, "printed-in-hex", "A symbol above 15 is printed as two hex digits.";
    PrintedFolded, "printed-folded", "A symbol above 15 is printed as the symbol 16 below it.";
    PrintedLate, "printed-late", "A symbol above 15 is printed one letter too late.";
    PrintedUnlike, "printed-unlike", "The letters printed are a to z without i, l, o and u.";
    ReturnDropped, "return-dropped", "A carriage return before the newline is dropped.";
    OtherDropped, "other-dropped", "Another character is skipped.";
    EmptyLineSkipped, "empty-line-skipped", "An empty line is no tape.";
    LastNewlineAddsTape, "last-newline-adds-tape", "A final newline begins one more tape.";
    LastLineNeedsNewline, "last-line-needs-newline", "A last line without newline is not read.";
    EmptyOutputBlank, "empty-output-blank", "An empty output prints nothing in its place.";
    AccountOf5999, "account-of-5999", "The account has 5,999 words.";
    AccountOf6006, "account-of-6006", "The account has 6,006 words.";
    AccountOf7200, "account-of-7200", "The account has 7,200 words, 1,200 lines as it had of five words.";
    FiveWordsPrinted, "five-words-printed", "A C line still has five words.";
    ShortAccountAlone, "short-account-alone", "A short account prints X alone.";
    RefusalEndsRun, "refusal-ends-run", "A refusal ends the run, not the tape.";
}

/// How the reference reads the documents in one run.
#[derive(Clone, Copy)]
pub struct Reading {
    wrong: Option<Wrong>,
}

impl Reading {
    /// The documents as they stand.
    pub const TRUE: Reading = Reading { wrong: None };

    pub fn with(wrong: Wrong) -> Reading {
        Reading { wrong: Some(wrong) }
    }

    pub fn named(name: &str) -> Option<Reading> {
        Wrong::ALL.iter().find(|wrong| wrong.name() == name).map(|wrong| Reading::with(*wrong))
    }

    /// Whether no wrong reading is put in.
    pub fn is_true(self) -> bool {
        self.wrong.is_none()
    }

    pub fn is(self, wrong: Wrong) -> bool {
        self.wrong == Some(wrong)
    }

    /// The true value, or the other one under that wrong reading.
    pub fn value<T>(self, truly: T, wrong: Wrong, wrongly: T) -> T {
        if self.is(wrong) {
            wrongly
        } else {
            truly
        }
    }
}

//! What is counted: rules and how they are broken, shapes of nodes, cases of the build, ends of lists.

/// Declares an enum of things to be counted, with its number of cases and their names.
macro_rules! counted {
    ($(#[$comment:meta])* $name:ident: $($case:ident),+ $(,)?) => {
        $(#[$comment])*
        #[derive(Clone, Copy, Debug)]
        pub enum $name { $($case),+ }

        impl $name {
            /// The cases' names, in order.
            pub const NAMES: &'static [&'static str] = &[$(stringify!($case)),+];
        }
    };
}

counted! {
    /// The rules of soundness, one for each way to break them.
    Flaw: HeldBits, StrayBytes, CellCount, Edition, OpenSlotWord, RootLeaf, RootPrefix, SnapshotLeaf, SnapshotPrefix,
    CellZero, TrailerCell, BeyondTrailer, NoKind, EnteredTwice, ChainWithoutChild, DeepChain, DeepSparse, DeepSplit,
    SparseGap, SparseOfFew, Characters, OrderWord, PartWord, EmptyHead, EmptyMid, EmptyEnd, PrefixValue, PrefixFlag,
    PrefixOverNone, PrefixOverLeaf, PrefixOverPrefix, PrefixOffset, EmbeddedInEditionOne, EditionOfEmbedded,
    EmbeddedValue, EmbeddedEnteredTwice, DeepEmbedded,
}

counted! {
    /// What sound blocks are made of.
    Shape: EmptyRoot, Leaf, Chain, SparseOfTwo, SparseOfThree, SparseOfFour, SparseOfFive, SparseOfSix, SplitOfFew,
    SplitOfMany, Prefix, DepthLimit, SharedCell, SharedAtAnotherKind, JunkBeforeRun, JunkPastChildren, JunkInHead,
    JunkInPrefix, JunkBeforeEmbeddedRun, JunkInEmbeddedHead, EmbeddedOverFew, EmbeddedOverMany, EmbeddedShared,
    EmbeddedSharedAtNode, EmbeddedSharedInRun, EmbeddedSharedBeforeRun, SnapshotInEmbeddedRun,
    EmbeddedToDepthLimit,
}

counted! {
    /// The ways to spoil an embedded prefix: an offset, the edition word, the value, a second word into its cell at the
    /// prefix, at its node or in the middle of its run, and a run that ends in a word into its own cell.
    Spoilt: Offset00, Offset04, Offset1D, Offset1E, Offset1F, OffsetFE, EditionOne, EditionThree, TopBit,
    SecondAtPrefix, SecondAtNode, SecondInRun, RunIntoItself,
}

counted! {
    /// The cases of the build that the specification lays down for an insertion or a removal.
    BuildCase: Leaf, PrefixReplaced, PrefixAdded, NewChain, FullChain, CharacterBefore, ChainPair, SparseReplaced,
    SparseAppended, SeventhChild, SplitEndPresent, SplitEndAbsent, SplitMidAbsent, ValuePutBack, LeafGone,
    PrefixToLinked, ValueToLeaf, OldChainNotJoined, KeptGrown, SplitReplaced, FewReplaced, NoneKept, OneKept, TwoKept,
    ThreeToFiveKept, SixKept, SevenKept, MoreKept, OrderRewritten, SplitToNone, SplitToChain, SplitToSparse, EndEmptied,
    MidEmptied, NothingTaken, RoomInEditionOne, NoRoomInEditionOne, StandaloneOverSparse, StandaloneUnder04,
    StandaloneAt04, EmbeddedAt05, EmbeddedPast05, EmbeddedInHead, OldNodeWithRoom, EmbeddedReplaced, ThroughEmbedded,
    ChainOverEmbedded, EmbeddedToLinked, EmbeddedToLeaf,
}

use BuildCase::*;

/// The cases that an insertion, and so its write list, can go through.
const INSERTED: &[BuildCase] = &[
    Leaf,
    PrefixReplaced,
    PrefixAdded,
    NewChain,
    FullChain,
    CharacterBefore,
    ChainPair,
    SparseReplaced,
    SparseAppended,
    SeventhChild,
    SplitEndPresent,
    SplitEndAbsent,
    SplitMidAbsent,
    ValuePutBack,
    RoomInEditionOne,
    NoRoomInEditionOne,
    StandaloneOverSparse,
    StandaloneUnder04,
    StandaloneAt04,
    EmbeddedAt05,
    EmbeddedPast05,
    EmbeddedInHead,
    ThroughEmbedded,
    ChainOverEmbedded,
    OldNodeWithRoom,
    EmbeddedReplaced,
];

/// The cases that a removal can go through.
const REMOVED: &[BuildCase] = &[
    NewChain,
    FullChain,
    CharacterBefore,
    SparseReplaced,
    ValuePutBack,
    LeafGone,
    PrefixToLinked,
    ValueToLeaf,
    OldChainNotJoined,
    KeptGrown,
    SplitReplaced,
    FewReplaced,
    NoneKept,
    OneKept,
    TwoKept,
    ThreeToFiveKept,
    SixKept,
    SevenKept,
    MoreKept,
    OrderRewritten,
    SplitToNone,
    SplitToChain,
    SplitToSparse,
    EndEmptied,
    MidEmptied,
    NothingTaken,
    RoomInEditionOne,
    NoRoomInEditionOne,
    StandaloneOverSparse,
    StandaloneUnder04,
    StandaloneAt04,
    EmbeddedAt05,
    EmbeddedPast05,
    EmbeddedInHead,
    ThroughEmbedded,
    ChainOverEmbedded,
    EmbeddedToLinked,
    EmbeddedToLeaf,
];

/// The cases of each change, in the order of `Change`; every one must be met, and no other.
pub const BUILT: [(&str, &[BuildCase]); 3] = [
    ("build cases of insertions", INSERTED),
    ("build cases of removals", REMOVED),
    ("build cases of write lists", INSERTED),
];

/// The calls that build a new tree.
#[derive(Clone, Copy)]
pub enum Change {
    Insertion,
    Removal,
    WriteList,
}

counted! {
    /// How closely a change meets the free cells: it takes all, one at least, or lacks a single one.
    Room: TookLastFree, OneShort,
}

counted! {
    /// How the search for a change's cells goes. From an empty table, and then past a held cell 1, or to the last
    /// usable cell. From a root in the last usable cell. Past a held cell right after the root's. Wrapped, so that a
    /// later cell is lower than an earlier one, or so that the first one is lower than the root's. To the cell just
    /// below the root's, or wrapped and to the last free one. With a lower free cell left, as the older rule would not
    /// have it. Below a held cell further up. From a root that is a split; from one that a restore has just set.
    WearCase: EmptyTable, EmptyPastHeld, EmptyToLastUsable, RootInLastUsable, PastHeld, Wrapped, WrappedAtOnce,
    JustBelowRoot, AllRound, LowerLeft, BelowHeld, SplitRoot, AfterRestore,
}

/// All cases of a search, those of an empty table first.
const SEARCHES: &[WearCase] = &[
    WearCase::EmptyTable,
    WearCase::EmptyPastHeld,
    WearCase::EmptyToLastUsable,
    WearCase::RootInLastUsable,
    WearCase::PastHeld,
    WearCase::Wrapped,
    WearCase::WrappedAtOnce,
    WearCase::JustBelowRoot,
    WearCase::AllRound,
    WearCase::LowerLeft,
    WearCase::BelowHeld,
    WearCase::SplitRoot,
    WearCase::AfterRestore,
];

/// The cases of each change's search, in the order of `Change`; every one must be met, and no other. An empty table has
/// nothing to remove.
pub const SEARCHED: [&[WearCase]; 3] = [SEARCHES, SEARCHES.split_at(3).1, SEARCHES];

counted! {
    /// How a list of calls ends, what is left over there, and what stands in it.
    ListCase: AtEnd, NotFresh, NoCall, Full, EndAsAnswersFill, NothingAtAll, AnswersLeftOver, NoAnswerByte,
    FullBeforeNoCall, OtherTag, InsertCut, SlotCut, RemoveCut, OneByteShort, KeyOf0, KeyOf48, KeyOf49, KeyOf255,
    RemovedOf0, RemovedOf48, RemovedOf49, RemovedOf255, LongList, LargeBlock, EditionOne, EditionTwo, OtherEdition,
    Embeds,
}

counted! {
    /// How a page meets its buffer, from which key it begins, and what else would have been refused beside its refusal.
    PageCase: LeastBuffer, HugeBuffer, ExactFitOfOne, ExactFitOfTwo, ExactFitOfMore, ExactWithMore, ExactToTheLast,
    OneByteShort, OneByteShortOfLast, OneByteOver, LongestRecord, TenRecords, RoomForAll, NothingLeft, NothingAtAll,
    FromEmptyKey, AfterShown, AfterGreatest, AfterAbsent, AfterPrefix, AfterExtension, AfterKeyOf48, AfterKeyWith00,
    AfterKeyWithFF, NoBuffer, OneUnderLeast, ShortOnBadSize, ShortOnUnsound, ShortBesideLongKey, LongKeyOnBadSize,
    LongKeyOnUnsound,
}

counted! {
    /// What a series of pages prints, from which key it begins, and how its pages turn out.
    SeriesCase: EmptyTable, NothingAfterKey, OnePage, TwoPages, TenPages, HundredRecords, LeastBuffersOnly,
    OneRecordEach, LastFitsExactly, FromEmptyKey, AfterShown, AfterAbsent, LongestRecord, OfHistory, OfForeign,
    EditionOne, EditionTwo, WithEmbedded, WithSnapshot,
}

counted! {
    /// How a write list meets its buffer, what else would have been refused beside its refusal, and what it is a list of.
    WriteCase: NoBuffer, OneByteShort, OneRecordShort, ExactFit, OneByteOver, OneRecordOver, HugeBuffer, ShortOnBadSize,
    ShortOnUnsound, ShortBesideBadKey, ShortBesideBadValue, ShortBesideNoRoom, EditionOne, EditionTwo, WithSnapshot,
    OfEmptyTable, OfKeyShown, OfNewKey, InLargeBlock, OneCell, TwoCells, ThreeCells, FourToSixCells, SevenToNineCells,
    TenCells, ApartCells, LastUsableCell, OverOldBytes,
}

//! Deliberate faults of the reading, one of which may be switched on.
//!
//! They serve the power check alone: a comparison that does not notice one of them would not notice
//! it in the port either. The first four are the slips that document 01 names.

use crate::side::{Choices, Lookup, Ties};

/// The fault that is switched on, if any.
#[derive(Clone, Copy, Debug)]
pub struct Faults(Option<Fault>);

impl Faults {
    pub const NONE: Faults = Faults(None);

    pub fn only(fault: Fault) -> Faults {
        Faults(Some(fault))
    }

    pub fn on(self, fault: Fault) -> bool {
        self.0 == Some(fault)
    }

    /// The choices, with the default tie rule where the fault keeps the chosen one from being heard.
    pub fn heard_of_ties(self, choices: Choices, deaf: Fault) -> Choices {
        if self.on(deaf) { choices.with_ties(Ties::default()) } else { choices }
    }

    /// The choices, with the default lookup where the fault keeps the chosen one from being heard.
    pub fn heard_of_lookup(self, choices: Choices, deaf: Fault) -> Choices {
        if self.on(deaf) { choices.with_lookup(Lookup::default()) } else { choices }
    }
}

macro_rules! faults {
    ($($name:ident: $words:literal,)*) => {
        #[derive(Clone, Copy, Debug, PartialEq, Eq)]
        pub enum Fault {
            $(#[doc = $words] $name,)*
        }

        impl Fault {
            pub const ALL: &[Fault] = &[$(Fault::$name,)*];

            pub fn words(self) -> &'static str {
                match self {
                    $(Fault::$name => $words,)*
                }
            }
        }
    };
}

faults! {
    TieToFirst: "on a tie the first receives",
    EndAtDOverlaps: "an entry ending at d overlaps",
    StraddleInserts: "after a straddle b is inserted",
    ElementLengthened: "an element shorter than its stride is quietly lengthened",

    AlwaysOutgrown: "every placing is refused with 8",
    AlwaysUnused: "every placing answers U0",
    AlwaysReceiver: "every placing hands back the receiver untouched",
    OnePairing: "a placing counts no nested pairings",
    ReceiverAlwaysEmpty: "the receiver's part is always empty",
    ReceiverSizeIgnored: "the receiver is chosen by strictness alone",
    ReceiverStrictnessIgnored: "the receiver is chosen by size alone",
    ReceiverArrayAboveLeaf: "an array is stricter than a leaf",
    ReceiverMapAboveUnused: "a map is stricter than Unused",
    ReceiverDynamicSmallest: "dynamic is the smallest size",

    TieNeverAsked: "the tie rule is never asked: the second receives",
    TieAtRootAlone: "the tie rule is asked at the root alone",
    TieTurnsStrictness: "under ties to the first, the less strict of two equal sizes receives",
    TieAnyStrictness: "under ties to the first, equal sizes tie whatever their strictness",
    TieNotByReceiver: "receiver goes by the default tie rule",
    TieNotByPlace: "place goes by the default tie rule",
    TieNotByMerge: "merge goes by the default tie rule",
    TieNotByFold: "fold goes by the default tie rule",
    TieNotIfStrict: "with the strict lookup ties go by the default rule",
    ChoicesExchanged: "1 is read as the strict lookup, and 2 as ties to the first",

    LookupNeverAsked: "the lookup is never asked: it is lenient",
    LookupNegated: "the lookup is strict where it is not chosen, and lenient where it is",
    LookupNotBySupports: "supports goes by the default lookup",
    LookupNotByPlace: "place goes by the default lookup",
    LookupNotByMerge: "merge goes by the default lookup",
    LookupNotByFold: "fold goes by the default lookup",
    LookupNotByLeaves: "leaves are merged by the default lookup",
    LookupNotByComponents: "components are asked by the default lookup",
    LookupNotByEntries: "a map's entries are looked up by the default lookup",
    LookupNotIfFirst: "with ties to the first the lookup is the default one",
    LookupFixedLenient: "the strict lookup refuses dynamic usages alone",
    LookupDynamicLenient: "the strict lookup refuses usages of fixed size alone",
    LookupLastElement: "the strict lookup refuses the last element, too",
    LookupNoLength: "the strict lookup refuses elements without a length",
    LookupNoLengthAtZero: "the strict lookup refuses the element at 0 where there is no length",
    LookupEmptyNowhere: "the strict lookup refuses usages of no bytes in every element",
    LookupFieldEnds: "the strict lookup refuses the ends of fields, too",
    LookupArrayEnds: "the strict lookup refuses arrays that end at the length",

    EightBeforeNine: "8 where d + b is past 32 bits",
    OutgrownKept: "the size assertion is left out",
    UnusedNotCounted: "placing an Unused counts no pairing",
    Rule2AtAnyD: "a map is taken apart at any d",
    Rule2Descends: "rule 2 places the highest entry first",
    Rule2NoHead: "rule 2 leaves out 30 where one placing conflicts",
    Rule3KeepsD: "an Unused a keeps d as a map of one entry",
    Rule3SizeOfB: "an Unused a takes b's size too",
    Rule4StrictnessOfB: "b's strictness is ignored",
    Rule4NestedStrictness: "a strict leaf within b makes the result strict",
    Rule4OnlyAsksA: "c is not asked to support a",
    Rule4AsksCFirst: "c is asked before a's type",
    Rule4CAtAnyD: "b's type counts at any d",
    Rule4HandleGoesOn: "a handle does not end the asking",
    Rule4FailedGoesOn: "a failed type does not end the asking",
    Rule4FailedTellsA: "34 tells a's type",
    Rule5PlacesAtZero: "b is placed in the element at r = 0",
    Rule5BelowStride: "b goes into the element only if r + b < stride",
    Rule5AnyStrides: "arrays of unequal stride merge elements",
    Rule5AnyRest: "arrays of equal stride merge elements at any r",
    Rule5TellsOther: "35 tells b's stride",
    Rule5ElementSecond: "rule 5 uses merge_mem(b, element)",
    Rule6SearchSumsAll: "the search sums entries that it never reaches",
    Rule6EndSaturates: "an entry's end past 32 bits is capped",
    Rule6NewSumSaturates: "d + b past 32 bits is capped in the search",
    Rule6Upwards: "the overlapping entries are joined upwards",
    Rule6EqualStartSwapped: "equal starts use merge_mem(entry, b)",
    Rule6EqualStartPlaces: "equal starts place the entry in b",
    Rule6EqualStartStraddles: "equal starts may straddle",
    Rule6DynamicEndsFirst: "a dynamic side ends first in the straddle test",
    Rule6TwoDynamicsStraddle: "two dynamic sides straddle",
    Rule6KeepsStart: "b keeps its own start when it joins a lower entry",
    Rule6TellsNewOffset: "31 tells b's offset",
    Rule6StraddleKeepsEntry: "the straddled entry stays",
    Rule6StraddleKeepsReport: "conflicts before a straddle are reported",
    Rule6StraddleDropsPairings: "pairings before a straddle are not counted",
    Rule6StraddleTellsFirstD: "36 tells the first d",
    Rule6InsertKeepsOld: "an insertion does not replace",
    MergeUnlikeSecond: "unlike tops give the second",
    MergeUnlikePairs: "unlike tops count a pairing",
    MergeOpaquesAlike: "all Opaques are alike",
    FoldCopies: "fold merges two nodes and copies",
    FoldStops: "fold stops at a conflict",
    FoldTellsLast: "38 tells the index of the node before",
    FoldNextFirst: "fold uses merge_mem(next, last)",

    SupportsAlways: "every usage is supported",
    SupportsNever: "no usage is supported",
    ContainsFullAtLength: "the element at the length has its full size",
    ContainsPastLength: "elements above the length are contained",
    ContainsEndNotCapped: "an end past 32 bits is not capped",
    ContainsDynamicEnds: "a dynamic field ends with its fixed size",
    ContainsOnlyFirst: "only the first containing field is asked",
    SupportsAtAnyOffset: "a leaf of the same type is supported at any offset",
    SupportsNoSizeTest: "the size test is left out",
    SupportsSizeTestOfDynamic: "the size test ignores the dynamic stride",
    SupportsDynamicFits: "a dynamic usage passes the size test",
    SupportsElementAtS: "an element is asked at s, not at s modulo stride",
    SupportsMapAtZero: "an entry at 0 needs a component",
    SupportsMapWhole: "an entry anywhere may be supported by the whole layout",
    SupportsMapFirst: "a map needs only one supported entry",
    SupportsSumWraps: "an entry's offset may pass 32 bits",
    SupportsArrayOfZero: "an array of size 0 is supported",
    SupportsArrayRounded: "an array's size need not be divisible",
    SupportsArrayAnyOffset: "an array's offset need not be divisible",
    SupportsArrayShorter: "an array may be shorter than the layout's",
    SupportsDynamicArray: "a dynamic array is supported with a length",
    SupportsArrayStride: "an array of another stride is supported",

    SoundAlways: "every usage is sound",
    SoundNever: "no usage is sound",
    SoundZero: "nodes of size 0 are sound",
    SoundUnusedEntry: "an Unused entry of size 0 is sound",
    SoundOverlap: "entries may overlap",
    SoundPastMap: "entries may end past a fixed map",
    SoundPastBits: "entries may end past 32 bits",
    SoundDynamicInFixed: "a fixed map may have a dynamic entry",
    SoundDynamicNotLast: "a dynamic entry need not be last",
    SoundShortElement: "an element may be shorter than its stride",
    SoundOneLevel: "only the root's own level is looked at",

    StreamDynamicBytes: "a dynamic size may have bytes that are not 0",
    StreamFlag: "any flag but 0 is fixed",
    StreamEqualOffsets: "offsets need not strictly ascend",
    StreamLeftOver: "left-over bytes are accepted",
    StreamEmptyList: "a list may be empty",
    StreamTops: "place and fold take any top's node",
    TableLeftOver: "left-over bytes of a table are accepted",
    TableOverlap: "fields may overlap",
    TableFieldPast: "a field may end past 32 bits",
    TableDynamicNotLast: "a field with a dynamic stride need not be last",
    TableCount: "a table may have more than 1,024 records",
    TableFieldCount: "a record may have more than 64 fields",

    CallWork: "a work area of 49,151 bytes suffices",
    CallSecondFirst: "a bad second is told before a bad first",
    CallTypesFirst: "an unknown type is told before a bad second",
    CallOpaqueType: "an Opaque's type is not looked up",
    CallAskedType: "the asked type is not looked up",
    CallConcreteLate: "6 is told after 7",
    CallConcreteFirst: "6 is told before 5",
    CallLimit: "513 nodes are accepted",
    CallLimitEach: "nodes are counted for each input",
    CallTopsCount: "tops count as nodes",
    CallOutputFirst: "10 is told before 8 and 9",
    CallReportFirst: "11 is told before 10",
    CallOutputExact: "an output that just fits is refused",
    CallReportKept: "a refusal keeps the report buffer",
    CallOutputCleared: "the rest of the output is cleared",
    CallReportRest: "the rest of the report buffer is kept",
    CallPairingsKept: "10 and 11 tell the pairings",
}

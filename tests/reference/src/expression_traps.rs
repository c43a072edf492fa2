//! Wrong diagrams on purpose. With no trap set, this is another way to the pool of a text: its tokens and a stack of open
//! groups (`token_traps`), and the occurrences that can come after each (`position_traps`).

use crate::derivatives::State;
use crate::position_traps::states_with;
use crate::read::Refusal;
use crate::token_traps::Reader;

#[derive(Clone, Copy, Debug, PartialEq, Eq, PartialOrd, Ord)]
pub enum ExpressionTrap {
    /// An item has any number of stars.
    StarTwice,
    /// A star may stand where no item is before it.
    StarOfNothing,
    /// No alternative may be empty.
    EmptyAlternativeRefused,
    /// No group may be empty.
    EmptyGroupRefused,
    /// The text may not be empty, or of spaces alone.
    EmptyTextRefused,
    /// A number may begin with zeros.
    LeadingZeroTaken,
    /// A number that begins with 0 ends there, so that 01 is two.
    ZeroEndsANumber,
    /// Each digit is a number.
    DigitsAreNumbers,
    /// Spaces may stand inside a number.
    SpacesInNumbers,
    /// A star must stand at its item.
    NoSpaceBeforeStar,
    /// The text may not begin with a space.
    NoSpaceFirst,
    /// The text may not end with a space.
    NoSpaceLast,
    /// Tabs and ends of lines are spaces.
    TabIsASpace,
    /// The end of the text closes all groups.
    UnclosedTaken,
    /// A closing bracket without a group is passed over.
    StrayCloseTaken,
    /// A group that is not closed is refused at the first bracket that is open.
    UnclosedAtFirstBracket,
    /// It is refused at the last one.
    UnclosedAtLastBracket,
    /// It is refused at the last byte.
    UnclosedAtLastByte,
    /// A leading zero is refused at the zero.
    LeadingZeroAtTheZero,
    /// The place of 19 is where the last token ends.
    BeforeTheSpaces,
    /// The place of 19 is behind the byte that is wrong.
    OneByteOn,
    /// The place of 19 is 0.
    NineteenAtZero,
    /// Beginnings are those of texts of up to 256 bytes.
    BoundedLength,
    /// Beginnings are those of texts of up to 8 levels.
    BoundedLevels,
    /// A text of 257 bytes is taken.
    LongTaken,
    /// A text of 256 bytes is refused.
    LongestRefused,
    /// The place of 18 is the length.
    LongAtTheEnd,
    /// Places are kept in eight bits.
    PlaceInAByte,
    /// 19 comes before 18.
    GrammarBeforeLength,
    /// 32 is a message.
    ThirtyTwoTaken,
    /// 31 is none.
    ThirtyOneRefused,
    /// Numbers are kept in so many bits.
    WrapsAt(u32),
    /// The place of 5 is the last digit.
    FiveAtTheLastDigit,
    NinthLevelTaken,
    EighthLevelRefused,
    /// All groups are counted, closed or not.
    LevelsNeverLeft,
    /// The place of 20 is the last bracket that is too deep.
    TwentyAtTheLast,
    ThirtyThirdTaken,
    ThirtySecondRefused,
    /// Messages are counted, however often they occur.
    MessagesCounted,
    /// The place of 21 is the last occurrence.
    TwentyOneAtTheLast,
    /// At one place 21 comes before 5.
    TwentyOneBeforeFive,
    /// A cause comes before the others wherever it is.
    First(u8),
    /// 5, 20 and 21 come before a 19 to the right of them.
    LimitsBeforeGrammar,
    /// 22 comes before 5, 20 and 21.
    StatesBeforeLimits,
    /// 128 states are taken.
    OneMoreState,
    /// 127 are refused.
    LastStateRefused,
    /// The place of 22 is the length.
    TwentyTwoAtTheEnd,
    /// A star is for one time or none.
    StarReadsOnce,
    /// A star is for one time at least.
    StarIsPlus,
    /// A star is for the last item of its group.
    StarOfTheLastItem,
    /// A starred item does not begin again with the last of the occurrences that it can begin with.
    LostFromFirst,
    /// It does not begin again after the last of those that it can end on.
    LostFromLast,
    /// Alternatives are of single items.
    BarBindsTighter,
    FirstAlternativeOnly,
    LastAlternativeOnly,
    /// Empty alternatives are as if they were not there.
    EmptyAlternativesDropped,
    /// What comes first in an alternative cannot be left out by reading on.
    FirstNotExtended,
    /// What comes last in an alternative cannot be left out by ending before it.
    LastNotKept,
    /// Of a message only the lowest occurrence is taken.
    OneOccurrenceTaken,
    /// Sets have no room for occurrences from this one on.
    OccurrencesLostFrom(usize),
    /// The start is not final.
    StartNeverFinal,
    /// A state is final if its occurrences all end words.
    FinalIfAllEnd,
    /// A state is final if its lowest occurrence ends words.
    FinalByTheLowest,
    /// States are numbered by the shortest and highest word.
    MessagesDescending,
    /// New states are numbered by their lowest occurrence, whatever its message.
    ByOccurrence,
    /// The state found last goes on first.
    DepthFirst,
    /// The start is the set that goes on like it, if there is one.
    StartMerged,
    /// Sets that go on alike are one state.
    AlikeMerged,
    /// States that accept the same words are one.
    Minimised,
    /// The empty set is a state.
    EmptySetIsAState,
}

use ExpressionTrap as Trap;

impl ExpressionTrap {
    pub const ALL: [Trap; 78] = [
        Trap::StarTwice,
        Trap::StarOfNothing,
        Trap::EmptyAlternativeRefused,
        Trap::EmptyGroupRefused,
        Trap::EmptyTextRefused,
        Trap::LeadingZeroTaken,
        Trap::ZeroEndsANumber,
        Trap::DigitsAreNumbers,
        Trap::SpacesInNumbers,
        Trap::NoSpaceBeforeStar,
        Trap::NoSpaceFirst,
        Trap::NoSpaceLast,
        Trap::TabIsASpace,
        Trap::UnclosedTaken,
        Trap::StrayCloseTaken,
        Trap::UnclosedAtFirstBracket,
        Trap::UnclosedAtLastBracket,
        Trap::UnclosedAtLastByte,
        Trap::LeadingZeroAtTheZero,
        Trap::BeforeTheSpaces,
        Trap::OneByteOn,
        Trap::NineteenAtZero,
        Trap::BoundedLength,
        Trap::BoundedLevels,
        Trap::LongTaken,
        Trap::LongestRefused,
        Trap::LongAtTheEnd,
        Trap::PlaceInAByte,
        Trap::GrammarBeforeLength,
        Trap::ThirtyTwoTaken,
        Trap::ThirtyOneRefused,
        Trap::WrapsAt(8),
        Trap::WrapsAt(16),
        Trap::WrapsAt(32),
        Trap::WrapsAt(64),
        Trap::FiveAtTheLastDigit,
        Trap::NinthLevelTaken,
        Trap::EighthLevelRefused,
        Trap::LevelsNeverLeft,
        Trap::TwentyAtTheLast,
        Trap::ThirtyThirdTaken,
        Trap::ThirtySecondRefused,
        Trap::MessagesCounted,
        Trap::TwentyOneAtTheLast,
        Trap::TwentyOneBeforeFive,
        Trap::First(5),
        Trap::First(20),
        Trap::First(21),
        Trap::LimitsBeforeGrammar,
        Trap::StatesBeforeLimits,
        Trap::OneMoreState,
        Trap::LastStateRefused,
        Trap::TwentyTwoAtTheEnd,
        Trap::StarReadsOnce,
        Trap::StarIsPlus,
        Trap::StarOfTheLastItem,
        Trap::LostFromFirst,
        Trap::LostFromLast,
        Trap::BarBindsTighter,
        Trap::FirstAlternativeOnly,
        Trap::LastAlternativeOnly,
        Trap::EmptyAlternativesDropped,
        Trap::FirstNotExtended,
        Trap::LastNotKept,
        Trap::OneOccurrenceTaken,
        Trap::OccurrencesLostFrom(8),
        Trap::OccurrencesLostFrom(16),
        Trap::OccurrencesLostFrom(31),
        Trap::StartNeverFinal,
        Trap::FinalIfAllEnd,
        Trap::FinalByTheLowest,
        Trap::MessagesDescending,
        Trap::ByOccurrence,
        Trap::DepthFirst,
        Trap::StartMerged,
        Trap::AlikeMerged,
        Trap::Minimised,
        Trap::EmptySetIsAState,
    ];
}

/// The states of a text with a mistake, or without one.
pub fn expression_with(text: &[u8], trap: Option<Trap>) -> Result<Vec<State>, Refusal> {
    Reader { text, trap }.states().map_err(|refusal| match trap {
        Some(Trap::PlaceInAByte) => Refusal { place: refusal.place % 256, ..refusal },
        _ => refusal,
    })
}

/// How many states a text of the grammar has, whatever its limits; none where they are more than `most`.
pub fn state_count(text: &[u8], most: usize) -> Option<usize> {
    let node = Reader { text, trap: None }.tree().ok()?;
    states_with(&node, most, None).map(|states| states.len())
}

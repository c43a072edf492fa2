//! Wrong writers on purpose. With no trap set this is another way to write: the tables are taken as they are and listed as
//! numbers, their file is read back, and all entries of what was read are compared with those handed in.

use crate::flat::{Flat, Part, AT_ARCS, AT_FINALS, SPACE};
use crate::generate::draft::{encode, Role};
use crate::listing::Lister;
use crate::order_traps::{read_with, OrderTrap};
use crate::read::{read, read_asking, refuse, Refusal, Tables};
use crate::write::{faults, Fault};

#[derive(Clone, Copy, Debug, PartialEq, Eq, PartialOrd, Ord)]
pub enum WritingTrap {
    /// Numbers of a role that are not 0 are written one lower.
    OneLess(Role),
    /// Numbers of a role are written one higher.
    OneMore(Role),
    FromAndToExchanged,
    /// A send is written as a receive and a receive as a send.
    KindsExchanged,
    /// Each machine's starting state follows its states.
    StartsBesideStates,
    /// The sum of the messages is written before them.
    SumWritten,
    /// A local transition goes on with queue 0 and length 0.
    LocalGoesOn,
    /// A send or a receive of the empty word is written as local.
    EmptyWordIsLocal,
    /// Messages of a word are counted from the first of their queue.
    MessagesOfTheirQueue,
    /// A word ends after four messages, as before request 1.
    FourMessages,
    /// The length of a word is kept in four bits, so that sixteen messages are none.
    SixteenAreNone,
    ArcsDescending,
    /// The target of an arc stands before its message.
    TargetsFirst,
    /// A state has an arc for every message; those that are missing lead to state 0.
    MissingArcsWritten,
    /// All final marks stand before all arcs.
    MarksFirst,
    /// The map ends with its last root.
    RootsEndWithTheLast,
    /// The map has 256 control states.
    AllRootsWritten,
    /// The root of a bad entry stands before its control state.
    BadRootsFirst,
    /// The map follows the bad list.
    MapLast,
    /// 127 is written in two bytes.
    TwoBytesFor127,
    /// Numbers of a role from 128 on are written in one byte.
    OneByteFrom128(Role),
    HighGroupFirst,
    /// Of two bytes the first has no top bit.
    TopBitLeftOut,
    /// What is unused is not compared.
    Unseen(Part),
    /// The sum is not compared.
    SumUnseen,
    /// The product is not compared.
    ProductUnseen,
    /// Any mark but 0 is taken as final.
    AnyMarkIsFinal,
    /// Queue order is not asked.
    OrderUnasked,
    /// It is asked with a mistake.
    Order(OrderTrap),
    /// Tables of all 0 are written as no bytes.
    NothingIsWritten,
    SeventeenFirst,
    /// A buffer of just the file's length is refused.
    ExactRefused,
    /// A buffer that is one byte short is taken.
    OneShortTaken,
    /// The buffer must be as long as the longest file.
    LongestAsked,
    /// Where no file is read into the tables, the buffer has their numbers nevertheless.
    SixteenFills,
    /// A buffer that is too short has as much of the file as fits.
    SeventeenFills,
    /// The byte after the file is 0.
    ByteAfterCleared,
    /// All bytes after the file are.
    RestCleared,
    /// The place of 17 is the end of the buffer.
    PlaceIsTheEnd,
    /// The reply is the length of the buffer.
    BufferLengthReplied,
    /// The new form is written though all queues start empty.
    NewFormAlways,
    /// The first form is written though something waits.
    FirstFormAlways,
    /// The new form is written if the first queue does not start empty.
    FirstQueueDecides,
    /// The new form is written if the last queue does not start empty.
    LastQueueDecides,
    /// The new form is written if no queue starts empty.
    EveryQueueDecides,
    /// The first number is that of the machines in the new form, too.
    MachinesAsTheyAre,
    /// In the new form only the first number is another.
    StartLeftOut,
    /// All lengths stand before all messages.
    LengthsWrittenFirst,
    /// Of every queue eight messages are written behind its length.
    WholeRoomsWritten,
    /// What waits is written from its end.
    StartBackwards,
    /// The last queue's is written first.
    QueuesBackwards,
    /// Messages that wait are counted from the first of their queue.
    StartOfTheirQueue,
    /// What waits in the last queue is left out, with its length.
    LastQueueLeftOut,
    /// What waits stands behind field 3.
    StartBehindField3,
    /// What waits stands before field 2.
    StartBeforeField2,
    /// Tables that have this fault alone are written.
    Taken(Fault),
}

/// Those about what waits at the start that are one each.
const OF_STARTING: [WritingTrap; 15] = [
    WritingTrap::NewFormAlways,
    WritingTrap::FirstFormAlways,
    WritingTrap::FirstQueueDecides,
    WritingTrap::LastQueueDecides,
    WritingTrap::EveryQueueDecides,
    WritingTrap::MachinesAsTheyAre,
    WritingTrap::StartLeftOut,
    WritingTrap::LengthsWrittenFirst,
    WritingTrap::WholeRoomsWritten,
    WritingTrap::StartBackwards,
    WritingTrap::QueuesBackwards,
    WritingTrap::StartOfTheirQueue,
    WritingTrap::LastQueueLeftOut,
    WritingTrap::StartBehindField3,
    WritingTrap::StartBeforeField2,
];

/// What is wrong with what waits and not asked.
const TAKEN: [Fault; 3] = [Fault::StartingLength, Fault::StartingMessage, Fault::StartingOfAnotherQueue];

/// Those about which words count. The others of `OrderTrap` are about the place of 9, which writing does not tell.
const OF_ORDER: [OrderTrap; 12] = [
    OrderTrap::DeadEndsCount,
    OrderTrap::UnusedStatesCount,
    OrderTrap::MapRootsForgotten,
    OrderTrap::StartRootOnly,
    OrderTrap::BadRootsForgotten,
    OrderTrap::RootlessBadForgotten,
    OrderTrap::FinalRootsForgotten,
    OrderTrap::EqualQueuesRefused,
    OrderTrap::NumbersCompared,
    OrderTrap::NextQueueOnly,
    OrderTrap::FaultEndsTheWord,
    OrderTrap::EachStateOnce,
];

/// Those that are one each.
const PLAIN: [WritingTrap; 35] = [
    WritingTrap::FromAndToExchanged,
    WritingTrap::KindsExchanged,
    WritingTrap::StartsBesideStates,
    WritingTrap::SumWritten,
    WritingTrap::LocalGoesOn,
    WritingTrap::EmptyWordIsLocal,
    WritingTrap::MessagesOfTheirQueue,
    WritingTrap::FourMessages,
    WritingTrap::SixteenAreNone,
    WritingTrap::ArcsDescending,
    WritingTrap::TargetsFirst,
    WritingTrap::MissingArcsWritten,
    WritingTrap::MarksFirst,
    WritingTrap::RootsEndWithTheLast,
    WritingTrap::AllRootsWritten,
    WritingTrap::BadRootsFirst,
    WritingTrap::MapLast,
    WritingTrap::TwoBytesFor127,
    WritingTrap::HighGroupFirst,
    WritingTrap::TopBitLeftOut,
    WritingTrap::SumUnseen,
    WritingTrap::ProductUnseen,
    WritingTrap::AnyMarkIsFinal,
    WritingTrap::OrderUnasked,
    WritingTrap::NothingIsWritten,
    WritingTrap::SeventeenFirst,
    WritingTrap::ExactRefused,
    WritingTrap::OneShortTaken,
    WritingTrap::LongestAsked,
    WritingTrap::SixteenFills,
    WritingTrap::SeventeenFills,
    WritingTrap::ByteAfterCleared,
    WritingTrap::RestCleared,
    WritingTrap::PlaceIsTheEnd,
    WritingTrap::BufferLengthReplied,
];

impl WritingTrap {
    /// Whether the tables must be read again for it.
    pub fn is_about_order(self) -> bool {
        matches!(self, WritingTrap::OrderUnasked | WritingTrap::Order(_))
    }

    pub fn all() -> impl Iterator<Item = WritingTrap> {
        let of_roles = Role::all().flat_map(|role| [WritingTrap::OneLess(role), WritingTrap::OneMore(role)]);
        let of_two_bytes = [Role::Transitions, Role::BadControlState].map(WritingTrap::OneByteFrom128);
        of_roles
            .chain(of_two_bytes)
            .chain(Part::UNUSED.map(WritingTrap::Unseen))
            .chain(OF_ORDER.map(WritingTrap::Order))
            .chain(PLAIN)
            .chain(OF_STARTING)
            .chain(TAKEN.map(WritingTrap::Taken))
    }
}

/// Writes with a mistake, or without one.
pub fn write_with(flat: &Flat, product: usize, buffer: &mut [u8], trap: Option<WritingTrap>) -> Result<usize, Refusal> {
    ReadBack::new(flat, product).write(buffer, trap)
}

/// Tables, the numbers that are in them as a file, and what that file is read into.
pub struct ReadBack {
    flat: Flat,
    product: usize,
    file: Vec<u8>,
    tables: Option<Tables>,
}

impl ReadBack {
    pub fn new(flat: &Flat, product: usize) -> Self {
        let file: Vec<u8> = Lister::listed(flat, None).into_iter().flat_map(|(_, number)| encode(number)).collect();
        let tables = if file.len() <= SMALL_FILE { read_with(&file, None) } else { read(&file) }.ok();
        ReadBack { flat: flat.clone(), product, file, tables }
    }

    /// Writes with a mistake, or without one.
    pub fn write(&self, buffer: &mut [u8], trap: Option<WritingTrap>) -> Result<usize, Refusal> {
        if trap == Some(WritingTrap::AnyMarkIsFinal) {
            let mut flat = self.flat.clone();
            for mark in &mut flat.0[AT_FINALS..AT_ARCS] {
                *mark = (*mark).min(1);
            }
            return write_with(&flat, self.product, buffer, None);
        }
        Writer { given: self, trap }.write(buffer)
    }
}

/// Larger files are read in one way only: their arcs are searched plainly.
pub const SMALL_FILE: usize = 300;
/// The longest file that is read.
pub const LONGEST_WRITTEN: usize = 11_700;

struct Writer<'g> {
    given: &'g ReadBack,
    trap: Option<WritingTrap>,
}

impl Writer<'_> {
    fn is(&self, trap: WritingTrap) -> bool {
        self.trap == Some(trap)
    }

    fn write(&self, buffer: &mut [u8]) -> Result<usize, Refusal> {
        let file = self.bytes();
        let is_short = match self.trap {
            Some(WritingTrap::ExactRefused) => buffer.len() <= file.len(),
            Some(WritingTrap::OneShortTaken) => buffer.len() + 1 < file.len(),
            Some(WritingTrap::LongestAsked) => buffer.len() < LONGEST_WRITTEN,
            _ => buffer.len() < file.len(),
        };
        if is_short && self.is(WritingTrap::SeventeenFirst) {
            return refuse(17, 0);
        }
        if self.given.flat == Flat::zero() && self.is(WritingTrap::NothingIsWritten) {
            return Ok(0);
        }
        let is_refused = !self.is_of_a_file();
        let is_filled = match (is_refused, is_short) {
            (true, _) => self.is(WritingTrap::SixteenFills),
            (_, true) => self.is(WritingTrap::SeventeenFills),
            _ => true,
        };
        if is_filled {
            self.fill(buffer, &file);
        }
        if is_refused {
            return refuse(16, 0);
        }
        if is_short {
            return refuse(17, if self.is(WritingTrap::PlaceIsTheEnd) { buffer.len() } else { 0 });
        }
        Ok(if self.is(WritingTrap::BufferLengthReplied) { buffer.len() } else { file.len() })
    }

    /// As much of the file as fits.
    fn fill(&self, buffer: &mut [u8], file: &[u8]) {
        let (front, rest) = buffer.split_at_mut(file.len().min(buffer.len()));
        front.copy_from_slice(&file[..front.len()]);
        let cleared = match self.trap {
            Some(WritingTrap::ByteAfterCleared) => rest.len().min(1),
            Some(WritingTrap::RestCleared) => rest.len(),
            _ => 0,
        };
        rest[..cleared].fill(0);
    }

    /// Whether the file without a mistake is read, and into just these tables.
    fn is_of_a_file(&self) -> bool {
        if let Some(WritingTrap::Taken(fault)) = self.trap {
            return faults(&self.given.flat, self.given.product).into_iter().all(|found| found == fault);
        }
        let file = &self.given.file;
        let read_again = match self.trap {
            Some(WritingTrap::OrderUnasked) => read_asking(file, |_| true).ok(),
            Some(WritingTrap::Order(trap)) => read_with(file, Some(trap)).ok(),
            _ => None,
        };
        let is_about_order = self.trap.is_some_and(WritingTrap::is_about_order);
        let read = if is_about_order { &read_again } else { &self.given.tables };
        let Some(tables) = read else { return false };
        let is_product = tables.control_state_count == self.given.product || self.is(WritingTrap::ProductUnseen);
        is_product && self.is_same_as(&Flat::of(tables))
    }

    fn is_same_as(&self, read: &Flat) -> bool {
        let flat = &self.given.flat;
        let is_unseen = |place: usize| match (self.trap, Part::of(place, flat)) {
            (Some(WritingTrap::Unseen(unseen)), part) => part == unseen,
            (Some(WritingTrap::SumUnseen), part) => part == Part::Sum,
            _ => false,
        };
        (0..SPACE).all(|place| flat.0[place] == read.0[place] || is_unseen(place))
    }

    /// The file, with the mistake.
    fn bytes(&self) -> Vec<u8> {
        let numbers = Lister::listed(&self.given.flat, self.trap);
        numbers.into_iter().flat_map(|(role, number)| self.number(role, number)).collect()
    }

    fn number(&self, role: Role, number: usize) -> Vec<u8> {
        let number = match self.trap {
            Some(WritingTrap::OneLess(lower)) if lower == role => number.saturating_sub(1),
            Some(WritingTrap::OneMore(higher)) if higher == role => number + 1,
            _ => number,
        };
        match (self.trap, &encode(number)[..]) {
            (Some(WritingTrap::TwoBytesFor127), [127]) => vec![255, 0],
            (Some(WritingTrap::OneByteFrom128(wrong)), [_, _]) if wrong == role => vec![number as u8],
            (Some(WritingTrap::HighGroupFirst), &[low, high]) => vec![high, low],
            (Some(WritingTrap::TopBitLeftOut), &[low, high]) => vec![low % 128, high],
            (_, encoded) => encoded.to_vec(),
        }
    }
}

//! Reading either form with a mistake on purpose. With no mistake set this is another way to read a file that resumes: what waits
//! at the start is taken out of it, what is left is read as a file of the first form, and places behind are put back.

use std::ops::Range;

use crate::read::{read, refuse, Reader, Refusal, Tables, LONGEST_FILE, MACHINES, QUEUES, STARTING, WORD_LENGTH};
use crate::starting::{keep_starting, starting_with, Mistaken};

#[derive(Clone, Copy, Debug, PartialEq, Eq, PartialOrd, Ord)]
pub enum FormTrap {
    /// First numbers past 4 are refused, as before request 8.
    FirstFormAlone,
    /// First numbers go round: 9 is 1 again, and 0 is 8.
    FirstNumberWraps,
    /// A first number of 5 to 8 is that many machines; the first four are kept.
    NotLessened,
    /// It is that many machines less 3.
    LessenedByThree,
    /// Files of the first form say what waits, too.
    EveryFileHasThem,
    /// What waits is said of the first queue alone.
    FirstQueueAlone,
    /// It is said of four queues, however many there are.
    FourQueues,
    /// That of each queue stands just behind its number of messages.
    InsideField2,
    /// It stands behind field 3.
    BehindField3,
    /// All lengths stand before all messages.
    LengthsFirst,
    /// A length of 0 is refused.
    NoneRefused,
    /// A length of 8 is refused.
    EightRefused,
    /// A length of 9 is taken; eight messages are kept.
    NineTaken,
    /// Lengths are taken up to 16, as those of words are; eight messages are kept.
    SixteenTaken,
    /// Messages of any queue are taken.
    OtherQueuesTaken,
    /// Messages of earlier queues are taken.
    EarlierQueuesTaken,
    /// Messages of later queues are taken.
    LaterQueuesTaken,
    /// A message that is not below the sum is refused by 7.
    SevenForFive,
    /// A message of another queue is refused by 5.
    FiveForSeven,
    /// Messages are counted from the first of their queue.
    OfTheirQueue,
    /// A message is refused at the length of its queue.
    PlaceOfTheLength,
    /// Of two bytes the second may be 0.
    LongerFormTaken,
    /// 23 is asked of files of the first form, too.
    AskedOfEveryFile,
    /// 23 is not asked.
    Unasked,
    /// 23 is given if some queue starts empty.
    SomeEmptyRefused,
    /// 23 is asked after each queue, of those up to there.
    AskedAfterEachQueue,
    /// Where nothing waits up to a length that is refused, 23 comes first.
    AskedFirst,
    /// 23 is asked behind field 3.
    AskedBehindField3,
    /// 23 is asked after 10.
    AskedAtTheEnd,
    /// The place of 23 is the first behind the lengths.
    PlaceBehind,
    /// The place of 23 is that of the first length.
    PlaceOfTheFirstLength,
    /// A file whose queues all start empty is refused by 5.
    FiveForEmpty,
    /// What is kept of the messages is wrong.
    Kept(Mistaken),
}

impl FormTrap {
    /// Mistakes that change what is refused, or what the rest of the file is taken for.
    pub const OF_FORM: [FormTrap; 32] = [
        FormTrap::FirstFormAlone,
        FormTrap::FirstNumberWraps,
        FormTrap::NotLessened,
        FormTrap::LessenedByThree,
        FormTrap::EveryFileHasThem,
        FormTrap::FirstQueueAlone,
        FormTrap::FourQueues,
        FormTrap::InsideField2,
        FormTrap::BehindField3,
        FormTrap::LengthsFirst,
        FormTrap::NoneRefused,
        FormTrap::EightRefused,
        FormTrap::NineTaken,
        FormTrap::SixteenTaken,
        FormTrap::OtherQueuesTaken,
        FormTrap::EarlierQueuesTaken,
        FormTrap::LaterQueuesTaken,
        FormTrap::SevenForFive,
        FormTrap::FiveForSeven,
        FormTrap::OfTheirQueue,
        FormTrap::PlaceOfTheLength,
        FormTrap::LongerFormTaken,
        FormTrap::AskedOfEveryFile,
        FormTrap::Unasked,
        FormTrap::SomeEmptyRefused,
        FormTrap::AskedAfterEachQueue,
        FormTrap::AskedFirst,
        FormTrap::AskedBehindField3,
        FormTrap::AskedAtTheEnd,
        FormTrap::PlaceBehind,
        FormTrap::PlaceOfTheFirstLength,
        FormTrap::FiveForEmpty,
    ];

    /// With those about what is kept of the messages.
    pub fn all() -> impl Iterator<Item = FormTrap> {
        Self::OF_FORM.into_iter().chain(Mistaken::ALL.map(FormTrap::Kept))
    }

    /// Those that a writer of the tables can tell: it does not see why a file was refused, and turns away messages of other queues.
    pub fn of_tables() -> impl Iterator<Item = FormTrap> {
        let unseen = [
            FormTrap::OtherQueuesTaken,
            FormTrap::EarlierQueuesTaken,
            FormTrap::LaterQueuesTaken,
            FormTrap::SevenForFive,
            FormTrap::FiveForSeven,
            FormTrap::PlaceOfTheLength,
            FormTrap::AskedFirst,
            FormTrap::AskedBehindField3,
            FormTrap::AskedAtTheEnd,
            FormTrap::PlaceBehind,
            FormTrap::PlaceOfTheFirstLength,
            FormTrap::FiveForEmpty,
        ];
        Self::all().filter(move |trap| !unseen.contains(trap))
    }

    /// Whether it can matter to a file that begins with this byte.
    pub fn is_about(self, first: Option<&u8>) -> bool {
        match self {
            FormTrap::AskedOfEveryFile | FormTrap::EveryFileHasThem => true,
            _ => !matches!(first, None | Some(1..=4)),
        }
    }
}

/// Reads a file with a mistake, or without one.
pub fn read_form_with(bytes: &[u8], trap: Option<FormTrap>) -> Result<Tables, Refusal> {
    if bytes.len() > LONGEST_FILE {
        return refuse(1, LONGEST_FILE);
    }
    let first = Reader { bytes, place: 0 }.number()?;
    let machines = match (first, trap) {
        (0 | 9..=16, Some(FormTrap::FirstNumberWraps)) => {
            let wrapped = [&[(first as u8 + 7) % 8 + 1], &bytes[1..]].concat();
            return read(&wrapped);
        }
        (5..=8, Some(FormTrap::FirstFormAlone)) => return refuse(5, 0),
        (5..=8, Some(FormTrap::NotLessened)) => first,
        (5..=8, Some(FormTrap::LessenedByThree)) => first - 3,
        (5..=8, _) => first - MACHINES,
        (1..=4, Some(FormTrap::AskedOfEveryFile | FormTrap::EveryFileHasThem)) => first,
        _ => return read(bytes),
    };
    Resuming::new(bytes, machines, trap)?.read()
}

/// A file put together from parts of another one, with the place there of each byte.
#[derive(Clone, Default)]
struct Spliced {
    bytes: Vec<u8>,
    places: Vec<usize>,
}

impl Spliced {
    fn add(&mut self, file: &[u8], part: Range<usize>) {
        self.bytes.extend(&file[part.clone()]);
        self.places.extend(part);
    }

    /// Reads it; places are those in the other file, which has this length.
    fn read(&self, length: usize) -> Result<Tables, Refusal> {
        read(&self.bytes).map_err(|Refusal { number, place }| Refusal {
            number,
            place: self.places.get(place).copied().unwrap_or(length),
        })
    }

    /// What is refused before its end.
    fn refusal(&self, length: usize) -> Option<Refusal> {
        match read(&self.bytes) {
            Err(Refusal { number: 3, place }) if place == self.bytes.len() => None,
            _ => self.read(length).err(),
        }
    }
}

/// A file of which the part that says what waits is looked for.
struct Resuming<'b> {
    trap: Option<FormTrap>,
    reader: Reader<'b>,
    /// The numbers before that part, or around it, as a file of the first form begins with them.
    front: Spliced,
    /// Messages of each queue.
    counts: Vec<usize>,
    queues: Vec<Vec<u8>>,
}

impl<'b> Resuming<'b> {
    /// Goes through field 1 and the number of queues.
    fn new(bytes: &'b [u8], machines: usize, trap: Option<FormTrap>) -> Result<Self, Refusal> {
        let mut reader = Reader { bytes, place: 1 };
        let mut front = Spliced { bytes: vec![machines.min(MACHINES) as u8], places: vec![0] };
        // A number that cannot be read ends the file there, and reading it says what is refused first.
        for _ in 0..2 {
            for machine in 0..machines {
                let from = reader.place;
                let read = reader.number();
                if machine < MACHINES {
                    front.add(bytes, from..if read.is_ok() { reader.place } else { bytes.len() });
                }
                if read.is_err() {
                    return Err(front.read(bytes.len()).expect_err("the file ends too soon"));
                }
            }
        }
        let mut resuming = Resuming { trap, reader, front, counts: vec![], queues: vec![] };
        let queues = resuming.pass()?;
        if trap == Some(FormTrap::InsideField2) {
            resuming.inside_field_2(queues)?;
            return Ok(resuming);
        }
        for _ in 0..queues {
            let count = resuming.pass()?;
            resuming.counts.push(count);
        }
        if trap == Some(FormTrap::BehindField3) {
            resuming.pass_field_3()?;
        }
        if let Some(refusal) = resuming.front.refusal(bytes.len()) {
            return Err(refusal);
        }
        resuming.starting()?;
        Ok(resuming)
    }

    fn is(&self, trap: FormTrap) -> bool {
        self.trap == Some(trap)
    }

    /// Goes on by a number of the front.
    fn pass(&mut self) -> Result<usize, Refusal> {
        let from = self.reader.place;
        let read = self.reader.number();
        let to = if read.is_ok() { self.reader.place } else { self.reader.bytes.len() };
        self.front.add(self.reader.bytes, from..to);
        read.map_err(|refusal| self.front.read(self.reader.bytes.len()).err().unwrap_or(refusal))
    }

    fn pass_field_3(&mut self) -> Result<(), Refusal> {
        for _ in 0..self.pass()? {
            let [_, _, _, kind] = [self.pass()?, self.pass()?, self.pass()?, self.pass()?];
            if kind > 0 {
                self.pass()?;
                for _ in 0..self.pass()? {
                    self.pass()?;
                }
            }
        }
        Ok(())
    }

    fn inside_field_2(&mut self, queues: usize) -> Result<(), Refusal> {
        for queue in 0..queues {
            let count = self.pass()?;
            if let Some(refusal) = self.front.refusal(self.reader.bytes.len()) {
                return Err(refusal);
            }
            self.counts.push(count);
            self.queue(queue)?;
        }
        Ok(())
    }

    /// What waits, queue by queue.
    fn starting(&mut self) -> Result<(), Refusal> {
        let queues = match self.trap {
            Some(FormTrap::AskedOfEveryFile) if self.reader.bytes[0] <= MACHINES as u8 => 0,
            Some(FormTrap::FirstQueueAlone) => 1,
            Some(FormTrap::FourQueues) => QUEUES,
            _ => self.counts.len(),
        };
        if self.is(FormTrap::LengthsFirst) {
            let lengths: Vec<(usize, usize)> = (0..queues).map(|_| self.length()).collect::<Result<_, _>>()?;
            for (queue, (place, length)) in lengths.into_iter().enumerate() {
                self.messages(queue, place, length)?;
            }
            return Ok(());
        }
        for queue in 0..queues {
            let place = self.reader.place;
            match self.queue(queue) {
                Err(refusal)
                    if self.is(FormTrap::AskedFirst) && !self.waits() && refusal.place <= self.last_place(place) =>
                {
                    return refuse(23, 0);
                }
                read => read?,
            }
            if self.is(FormTrap::AskedAfterEachQueue) && !self.waits() {
                return refuse(23, 0);
            }
        }
        Ok(())
    }

    fn queue(&mut self, queue: usize) -> Result<(), Refusal> {
        let (place, length) = self.length()?;
        self.messages(queue, place, length)
    }

    fn waits(&self) -> bool {
        self.queues.iter().any(|queue| !queue.is_empty())
    }

    /// The last place that a length which begins here can be refused at.
    fn last_place(&self, place: usize) -> usize {
        let mut reader = Reader { bytes: self.reader.bytes, place };
        match reader.number() {
            Ok(_) => place,
            Err(_) => self.reader.bytes.len(),
        }
    }

    fn number(&mut self) -> Result<usize, Refusal> {
        let place = self.reader.place;
        match (self.reader.number(), self.reader.bytes.get(place..place + 2)) {
            (Err(Refusal { number: 4, .. }), Some(&[first, 0])) if self.is(FormTrap::LongerFormTaken) => {
                self.reader.place += 2;
                Ok(usize::from(first - 128))
            }
            (number, _) => number,
        }
    }

    /// A length and its place.
    fn length(&mut self) -> Result<(usize, usize), Refusal> {
        let place = self.reader.place;
        let length = self.number()?;
        let (least, most) = match self.trap {
            Some(FormTrap::NoneRefused) => (1, STARTING),
            Some(FormTrap::EightRefused) => (0, STARTING - 1),
            Some(FormTrap::NineTaken) => (0, STARTING + 1),
            Some(FormTrap::SixteenTaken) => (0, WORD_LENGTH),
            _ => (0, STARTING),
        };
        if length < least || length > most {
            return refuse(5, place);
        }
        Ok((place, length))
    }

    fn messages(&mut self, queue: usize, of_length: usize, length: usize) -> Result<(), Refusal> {
        let mut messages = vec![];
        for _ in 0..length {
            let place = self.reader.place;
            let message = self.number()?;
            let place = if self.is(FormTrap::PlaceOfTheLength) { of_length } else { place };
            messages.push(self.judge(queue, message).or_else(|number| refuse(number, place))?);
        }
        self.queues.push(messages);
        Ok(())
    }

    /// A message of a queue, or the number that it is refused by.
    fn judge(&self, queue: usize, message: usize) -> Result<u8, u8> {
        let first = |queue: usize| self.counts.iter().take(queue).sum::<usize>();
        let sum = first(QUEUES);
        if self.is(FormTrap::OfTheirQueue) {
            let is_one = self.counts.get(queue).is_some_and(|&count| message < count);
            return if is_one { Ok((first(queue) + message) as u8) } else { Err(5) };
        }
        let past_the_sum = if self.is(FormTrap::SevenForFive) { 7 } else { 5 };
        // The sum is not known before field 2 ends.
        if message >= sum && !self.is(FormTrap::InsideField2) {
            return Err(past_the_sum);
        }
        let is_not_earlier = message >= first(queue) || self.is(FormTrap::EarlierQueuesTaken);
        let is_not_later = message < first(queue + 1) || self.is(FormTrap::LaterQueuesTaken);
        if (is_not_earlier && is_not_later) || self.is(FormTrap::OtherQueuesTaken) {
            return Ok(message as u8);
        }
        Err(if self.is(FormTrap::FiveForSeven) { 5 } else { 7 })
    }

    fn read(self) -> Result<Tables, Refusal> {
        let (bytes, place) = (self.reader.bytes, self.reader.place);
        let mut whole = self.front.clone();
        whole.add(bytes, place..bytes.len());
        self.ask_23(&whole)?;
        let mut tables = whole.read(bytes.len())?;
        keep_starting(&mut tables, &self.queues);
        if let Some(FormTrap::Kept(mistaken)) = self.trap {
            let kept = starting_with(&tables, Some(mistaken));
            keep_starting(&mut tables, &kept);
        }
        Ok(tables)
    }

    fn ask_23(&self, whole: &Spliced) -> Result<(), Refusal> {
        let length = self.reader.bytes.len();
        let is_refused = match self.trap {
            Some(FormTrap::Unasked | FormTrap::EveryFileHasThem) => false,
            Some(FormTrap::SomeEmptyRefused) => self.queues.iter().any(|queue| queue.is_empty()),
            _ => !self.waits(),
        };
        if !is_refused {
            return Ok(());
        }
        match self.trap {
            Some(FormTrap::AskedBehindField3) => {
                let reader = Reader { bytes: self.reader.bytes, place: self.reader.place };
                let (front, counts) = (self.front.clone(), self.counts.clone());
                let mut behind = Resuming { trap: None, reader, front, counts, queues: vec![] };
                behind.pass_field_3()?;
                behind.front.refusal(length).map_or(refuse(23, 0), Err)
            }
            Some(FormTrap::AskedAtTheEnd) => whole.read(length).and_then(|_| refuse(23, 0)),
            Some(FormTrap::PlaceBehind) => refuse(23, self.reader.place),
            Some(FormTrap::PlaceOfTheFirstLength) => refuse(23, self.front.bytes.len()),
            Some(FormTrap::FiveForEmpty) => refuse(5, 0),
            _ => refuse(23, 0),
        }
    }
}

//! Records of files, questions, replays and writings, one after the other in one run of bytes, each behind a byte that says what it is. Texts are put
//! like files.

use crate::flat::{Flat, SPACE};
use crate::read::read;
use crate::replay::{Lent, Record as RunRecord};

/// A file record: its length in three bytes, low byte first, then its bytes.
pub fn put_file(stream: &mut Vec<u8>, file: &[u8]) {
    put_length(stream, file.len(), 3);
    stream.extend_from_slice(file);
}

/// A membership question about a file.
#[derive(Clone, Debug, PartialEq, Eq)]
pub struct Question {
    pub file: Vec<u8>,
    pub control_state: usize,
    pub contents: Vec<u8>,
}

/// A file record, the control state in two bytes, then the contents with their length in two bytes.
pub fn put_question(stream: &mut Vec<u8>, question: &Question) {
    put_file(stream, &question.file);
    put_length(stream, question.control_state, 2);
    put_length(stream, question.contents.len(), 2);
    stream.extend_from_slice(&question.contents);
}

/// A replay, with what the caller lends to it made from two bytes.
#[derive(Clone, Debug, PartialEq, Eq)]
pub struct Replay {
    pub file: Vec<u8>,
    pub trace: Vec<u8>,
    pub memory_length: usize,
    pub memory_from: u8,
    pub record_from: u8,
}

impl Replay {
    /// What the memory and the record hold before the call.
    pub fn lent(&self) -> Lent {
        let k = usize::from(self.record_from);
        let record = RunRecord {
            states: [0, 1, 2, 3].map(|i| (k + i) as u8),
            heads: [0, 1, 2, 3].map(|i| 1000 * k + i),
            lengths: [0, 1, 2, 3].map(|i| 2000 * k + i),
        };
        Lent { record, memory: filled(self.memory_length, self.memory_from) }
    }
}

/// What lent memory holds before a call.
fn filled(length: usize, from: u8) -> Vec<u8> {
    (0..length).map(|i| (usize::from(from) + 7 * i) as u8).collect()
}

/// A file record, a record of the trace like it, the length of the memory in two bytes, and the two bytes that what is
/// lent is made from, the memory's first.
pub fn put_replay(stream: &mut Vec<u8>, replay: &Replay) {
    put_file(stream, &replay.file);
    put_file(stream, &replay.trace);
    put_length(stream, replay.memory_length, 2);
    stream.extend([replay.memory_from, replay.record_from]);
}

/// A value stored in an entry of flat tables.
#[derive(Clone, Copy, Debug, PartialEq, Eq)]
pub struct Edit {
    pub place: usize,
    pub value: u8,
}

/// What becomes of the tables of a file before they are written.
#[derive(Clone, Debug, PartialEq, Eq)]
pub enum Handed {
    /// These values are stored in turn; the product is that of the states then.
    Edited(Vec<Edit>),
    /// They stay, and this product is handed in beside them.
    Product(usize),
}

/// Tables of a file, damaged or not, and the buffer that they are written to.
#[derive(Clone, Debug, PartialEq, Eq)]
pub struct Writing {
    pub file: Vec<u8>,
    pub buffer_length: usize,
    pub buffer_from: u8,
    pub handed: Handed,
}

impl Writing {
    /// What the buffer holds before the call.
    pub fn buffer(&self) -> Vec<u8> {
        filled(self.buffer_length, self.buffer_from)
    }

    /// What the file is read into; all 0 if it is refused.
    pub fn read(&self) -> Flat {
        read(&self.file).map_or_else(|_| Flat::zero(), |tables| Flat::of(&tables))
    }

    /// The tables that are written, and the product beside them.
    pub fn tables(&self) -> (Flat, usize) {
        self.edited(self.read())
    }

    /// The same where the file is read into other tables.
    pub fn edited(&self, mut flat: Flat) -> (Flat, usize) {
        match &self.handed {
            Handed::Product(product) => (flat, *product),
            Handed::Edited(edits) => {
                for edit in edits {
                    flat.0[edit.place] = edit.value;
                }
                let product = flat.product();
                (flat, product)
            }
        }
    }
}

/// A file record, then a record like it of the question: the buffer's length in two bytes, the byte it is made from, then
/// a byte 0 and three bytes for each edit, its place and its value, or a byte 1 and the product in three bytes.
pub fn put_writing(stream: &mut Vec<u8>, writing: &Writing) {
    put_file(stream, &writing.file);
    let mut question = Vec::new();
    put_length(&mut question, writing.buffer_length, 2);
    question.push(writing.buffer_from);
    match &writing.handed {
        Handed::Edited(edits) => {
            question.push(0);
            for edit in edits {
                put_length(&mut question, edit.place, 2);
                question.push(edit.value);
            }
        }
        Handed::Product(product) => {
            question.push(1);
            put_length(&mut question, *product, 3);
        }
    }
    put_file(stream, &question);
}

fn put_length(stream: &mut Vec<u8>, length: usize, bytes: usize) {
    assert!(length >> (8 * bytes) == 0, "{length} does not fit in {bytes} bytes");
    stream.extend_from_slice(&length.to_le_bytes()[..bytes]);
}

/// What is asked, with what it is asked of.
#[derive(Clone, Debug, PartialEq, Eq)]
pub enum Record {
    /// The tables of a file.
    Reading(Vec<u8>),
    /// The verdict on a file.
    Verdict(Vec<u8>),
    /// The verdict with memory that is just enough, and with each of its three parts one short.
    Memory(Vec<u8>),
    /// The pool of a text.
    Expression(Vec<u8>),
    Question(Question),
    Replay(Replay),
    Writing(Writing),
}

/// The byte that says what is asked, then the record of it.
pub fn put_record(stream: &mut Vec<u8>, record: &Record) {
    let mut put = |tag: u8, file: &[u8]| {
        stream.push(tag);
        put_file(stream, file);
    };
    match record {
        Record::Reading(file) => put(b'r', file),
        Record::Verdict(file) => put(b'v', file),
        Record::Memory(file) => put(b's', file),
        Record::Expression(text) => put(b'e', text),
        Record::Question(question) => {
            stream.push(b'm');
            put_question(stream, question);
        }
        Record::Replay(replay) => {
            stream.push(b't');
            put_replay(stream, replay);
        }
        Record::Writing(writing) => {
            stream.push(b'w');
            put_writing(stream, writing);
        }
    }
}

/// Takes records off the front of a stream.
pub struct Records<'a>(pub &'a [u8]);

impl<'a> Records<'a> {
    fn take(&mut self, count: usize) -> Result<&'a [u8], String> {
        if count > self.0.len() {
            return Err(format!("the stream ends inside a record ({} bytes left of {count})", self.0.len()));
        }
        let (taken, rest) = self.0.split_at(count);
        self.0 = rest;
        Ok(taken)
    }

    fn number(&mut self, bytes: usize) -> Result<usize, String> {
        let low_first = self.take(bytes)?;
        Ok(low_first.iter().rev().fold(0, |number, &byte| number << 8 | usize::from(byte)))
    }

    /// A record behind its byte; none at the end of the stream.
    pub fn record(&mut self) -> Option<Result<Record, String>> {
        let (&tag, rest) = self.0.split_first()?;
        self.0 = rest;
        let whole = match tag {
            b'r' => self.file().map(|file| file.map(|file| Record::Reading(file.to_vec()))),
            b'v' => self.file().map(|file| file.map(|file| Record::Verdict(file.to_vec()))),
            b's' => self.file().map(|file| file.map(|file| Record::Memory(file.to_vec()))),
            b'e' => self.file().map(|text| text.map(|text| Record::Expression(text.to_vec()))),
            b'm' => self.question().map(|question| question.map(Record::Question)),
            b't' => self.replay().map(|replay| replay.map(Record::Replay)),
            b'w' => self.writing().map(|writing| writing.map(Record::Writing)),
            _ => Some(Err(format!("a record begins with byte {tag}"))),
        };
        Some(whole.unwrap_or_else(|| Err("the stream ends behind a record's first byte".to_string())))
    }

    /// None at the end of the stream.
    pub fn file(&mut self) -> Option<Result<&'a [u8], String>> {
        if self.0.is_empty() {
            return None;
        }
        Some(self.number(3).and_then(|length| self.take(length)))
    }

    /// None at the end of the stream.
    pub fn question(&mut self) -> Option<Result<Question, String>> {
        let file = self.file()?;
        Some(file.and_then(|file| self.rest_of_question(file)))
    }

    fn rest_of_question(&mut self, file: &[u8]) -> Result<Question, String> {
        let control_state = self.number(2)?;
        let length = self.number(2)?;
        let contents = self.take(length)?.to_vec();
        Ok(Question { file: file.to_vec(), control_state, contents })
    }

    /// None at the end of the stream.
    pub fn replay(&mut self) -> Option<Result<Replay, String>> {
        let file = self.file()?;
        Some(file.and_then(|file| self.rest_of_replay(file)))
    }

    fn rest_of_replay(&mut self, file: &[u8]) -> Result<Replay, String> {
        let length = self.number(3)?;
        let trace = self.take(length)?.to_vec();
        let memory_length = self.number(2)?;
        let [memory_from, record_from] = [self.number(1)? as u8, self.number(1)? as u8];
        Ok(Replay { file: file.to_vec(), trace, memory_length, memory_from, record_from })
    }

    /// None at the end of the stream.
    pub fn writing(&mut self) -> Option<Result<Writing, String>> {
        let file = self.file()?;
        Some(file.and_then(|file| self.rest_of_writing(file)))
    }

    fn rest_of_writing(&mut self, file: &[u8]) -> Result<Writing, String> {
        let length = self.number(3)?;
        let mut question = Records(self.take(length)?);
        let buffer_length = question.number(2)?;
        let buffer_from = question.number(1)? as u8;
        let handed = match question.number(1)? {
            0 => Handed::Edited(question.edits()?),
            1 => Handed::Product(question.number(3)?),
            mode => return Err(format!("a writing of mode {mode}")),
        };
        if !question.0.is_empty() {
            return Err(format!("{} bytes are left of a writing", question.0.len()));
        }
        Ok(Writing { file: file.to_vec(), buffer_length, buffer_from, handed })
    }

    /// All that is left.
    fn edits(&mut self) -> Result<Vec<Edit>, String> {
        let mut edits = Vec::new();
        while !self.0.is_empty() {
            let edit = Edit { place: self.number(2)?, value: self.number(1)? as u8 };
            if edit.place >= SPACE {
                return Err(format!("an edit at place {}", edit.place));
            }
            edits.push(edit);
        }
        Ok(edits)
    }
}

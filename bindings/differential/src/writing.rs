//! Writing: what is read is written back, and damaged tables are written as the reference says.

use reference_checker::random::Random;
use reference_checker::read::{Refusal, Tables};
use swarmbanner::lent::{self, at, FILE_MOST, REPLY_LEAST, SPACE_LEAST};

use crate::compare::{demand, length, refused, MORE};
use crate::damage::damage;
use crate::flat::flat;
use crate::lend::Lent;
use crate::tally::Tally;
use crate::write::{expected, Reply};

/// Lengths of a buffer for tables that no file has.
const ANY_LENGTH: usize = 300;

pub struct Writer {
    buffer: Lent<u8>,
    reply: Lent<usize>,
}

impl Writer {
    pub fn new(random: &mut Random) -> Self {
        Writer {
            buffer: Lent::new(FILE_MOST + MORE, || random.between(1, 255) as u8),
            reply: Lent::new(REPLY_LEAST + MORE, || random.between(1, usize::MAX - 1)),
        }
    }

    /// The tables of a file as they are and damaged; a file that is refused is put in the place of tables, for bytes of any
    /// kind.
    pub fn compare(
        &mut self,
        file: &[u8],
        tables: &Result<Tables, Refusal>,
        random: &mut Random,
        tally: &mut Tally,
    ) -> Result<(), String> {
        let Ok(tables) = tables else { return self.write(file, random, tally).map(drop) };
        let mut tables = flat(tables);
        let start = tables[at::LENGTHS..at::TRANSITIONS].to_vec();
        if let Ok(written) = self.write(&tables, random, tally)? {
            demand(written == file, "write: what is read is not written back")?;
        }
        damage(&mut tables, random);
        if let Ok(written) = self.write(&tables, random, tally)? {
            if written != file {
                tally.count("write: damaged and written");
            }
            if tables[at::LENGTHS..at::TRANSITIONS] != start {
                tally.count("write: another start");
            }
        }
        Ok(())
    }

    /// Tables that may be cut, or have something after them, beside the reference. Returns what that says.
    fn write(&mut self, tables: &[u8], random: &mut Random, tally: &mut Tally) -> Result<Reply, String> {
        let mut tables = tables.to_vec();
        tables.resize_with(length(random, SPACE_LEAST), || random.byte());
        let file_length = expected(&tables, usize::MAX).map_or(ANY_LENGTH, |file| file.len());
        let (buffer_length, reply_length) = (length(random, file_length), length(random, REPLY_LEAST));
        let expected = expected(&tables, buffer_length);
        let kind = lent::write(&tables, self.buffer.lend(buffer_length), self.reply.lend(reply_length));
        if reply_length < REPLY_LEAST {
            tally.count("write: no room");
            demand(kind == lent::NO_ROOM, "write: room was found where there is none")?;
            demand(self.buffer.kept() && self.reply.kept(), "write: written to without room")?;
            return Ok(expected);
        }
        tally.count_written(&expected);
        demand(self.reply.kept_from(REPLY_LEAST), "write: the reply's rest has changed")?;
        let told = (kind, self.reply.now()[..REPLY_LEAST].try_into().expect("a reply has four numbers"));
        let wanted = match &expected {
            Ok(file) => (lent::WRITTEN, [file.len(), 0, 0, 0]),
            Err(refusal) => refused(refusal),
        };
        demand(told == wanted, &format!("write: told {told:?}, not {wanted:?}"))?;
        self.left(&expected)?;
        Ok(expected)
    }

    /// What writing leaves in the buffer.
    fn left(&self, expected: &Reply) -> Result<(), String> {
        let Ok(file) = expected else {
            return demand(self.buffer.kept(), "write: the buffer has changed after a refusal");
        };
        demand(self.buffer.now()[..file.len()] == *file, "write: another file")?;
        demand(self.buffer.kept_from(file.len()), "write: the buffer's rest has changed")
    }
}

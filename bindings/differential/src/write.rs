//! What writing must reply to tables in the layout of `include/swarmbanner.h`, by the reference's writer.

use reference_checker::flat::Flat;
use reference_checker::read::Refusal;
use reference_checker::write::{write, NO_FILE};
use swarmbanner::lent::{FILE_MOST, SPACE_LEAST};

/// The file, or why none is written.
pub type Reply = Result<Vec<u8>, Refusal>;

/// The reply to tables, of which there may be too few or more than enough, and to a buffer of this length.
pub fn expected(tables: &[u8], buffer_length: usize) -> Reply {
    let front = tables.get(..SPACE_LEAST).and_then(|front| front.try_into().ok());
    let flat = Flat(front.ok_or(Refusal { number: NO_FILE, place: 0 })?);
    let mut buffer = vec![0; buffer_length.min(FILE_MOST)];
    let length = write(&flat, flat.product(), &mut buffer)?;
    buffer.truncate(length);
    Ok(buffer)
}

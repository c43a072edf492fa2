//! The calls as they are, on memory that the caller lends; `include/swarmbanner.h` says what each promises.
//!
//! A call returns the kind of its reply and puts the four numbers that go with it into the front of `reply`, 0 where there are fewer. All of them
//! take slices of any length and with anything in them. They do not ask whether the library has the layout of this crate;
//! who calls them compares [`layout`] with [`LAYOUT`] first, as the typed calls do.
//!
//! ```
//! use swarmbanner::lent;
//!
//! assert_eq!(lent::layout(), lent::LAYOUT);
//! let mut reply = [7; 4];
//! assert_eq!(lent::check(&[], &mut [], &mut [], &mut [], &mut reply), lent::REFUSED);
//! assert_eq!(reply, [2, 0, 0, 0]); // lent memory too short
//! ```

pub mod at;

/// Nothing fails. With it go the pairs visited.
pub const CLOSED: usize = 0;
/// What waits at the start is not in the set of the starting control state.
pub const OUTSIDE: usize = 1;
/// A step leads outside. With it go the control state, the transition, the number of messages shown, and how many of the messages
/// after the step the set that it leads to follows; 0 where that has no root.
pub const LEAVES: usize = 2;
/// Contents of a set are bad. With it go the bad entry and the number of messages shown.
pub const BAD: usize = 3;
/// The file, the question, the tables or the text are turned away. With it go the number and the place.
pub const REFUSED: usize = 4;
/// The space for the reply, the tables or the pool is too short. Nothing was written anywhere.
pub const NO_ROOM: usize = 5;
/// The file was read.
pub const READ: usize = 6;
/// The contents belong to the set. With it goes how many messages were followed, which is all of them.
pub const YES: usize = 7;
/// The contents do not belong to the set. With it goes how many messages were followed before there was no arc for the next one;
/// all of them where the last state is not final, 0 where there is no root.
pub const NO: usize = 8;
/// A replay is at the end of its trace. With it go the steps taken.
pub const END: usize = 9;
/// A replay is at a configuration outside the map. With it go the steps taken, and how many of the messages that wait its set
/// follows.
pub const LEFT: usize = 10;
/// A step of a trace is turned away. With it go the number, the place in the trace and the steps taken.
pub const STEP_REFUSED: usize = 11;
/// A trace is too long. With it go 1 and 16,384.
pub const TRACE_REFUSED: usize = 12;
/// Queue memory is too short. With it goes 2.
pub const MEMORY_REFUSED: usize = 13;
/// The file with the given tables was written. With it goes its length.
pub const WRITTEN: usize = 14;
/// The diagram of an expression was drawn. With it go its root, which is 0, and the number of its states.
pub const DRAWN: usize = 15;

/// The number of the layout that this crate is written for, SWARMBANNER_LAYOUT of the header. [`layout`] is the library's.
pub const LAYOUT: usize = 4;

/// Bytes that a file can have.
pub const FILE_MOST: usize = 16_384;
/// Bytes that a trace can have.
pub const TRACE_MOST: usize = 16_384;
/// Bytes that the text of an expression can have.
pub const TEXT_MOST: usize = 256;
/// Groups of an expression that can lie in one another.
pub const DEPTH_MOST: usize = 8;
/// Numbers of messages that can stand in an expression.
pub const OCCURRENCES_MOST: usize = 32;
/// Machines that a file can have.
pub const MACHINES_MOST: usize = 4;
/// Control states that a file can have.
pub const CONTROL_STATES_MOST: usize = 256;
/// Queues that a file can have.
pub const QUEUES_MOST: usize = 4;
/// Messages that the queues can have together.
pub const MESSAGES_MOST: usize = 32;
/// Messages that a queue can start with.
pub const STARTING_MOST: usize = 8;
/// Transitions that a file can have.
pub const TRANSITIONS_MOST: usize = 128;
/// Messages that a transition can send or receive at once.
pub const WORD_MOST: usize = 16;
/// Diagram states that a file can have.
pub const POOL_STATES_MOST: usize = 127;
/// Bad entries that a file can have.
pub const BAD_ENTRIES_MOST: usize = 64;

/// Entries that `reply` needs.
pub const REPLY_LEAST: usize = 4;
/// Bytes that the tables of a file need.
pub const SPACE_LEAST: usize = at::BAD + BAD_ENTRIES_MOST * at::BAD_ROW;
/// Entries that each scratch table of a check needs.
pub const TABLE_LEAST: usize = 32_512;
/// Bytes that the contents buffer of a check needs.
pub const CONTENTS_LEAST: usize = 32_768;
/// Entries that the record of a replay needs.
pub const RECORD_LEAST: usize = RECORD_LENGTHS + QUEUES_MOST;
/// Bytes of memory that a replay needs for each queue of the file; queue q has those from this times q on.
pub const QUEUE_LEAST: usize = 1_024;
/// Bytes that the pool of an expression needs: the final marks and the arcs, as they lie in the tables.
pub const POOL_LEAST: usize = at::ROOTS - at::FINALS;

/// Where in the record the state of each machine is.
pub const RECORD_STATES: usize = 0;
/// Where in the record it says where in its bytes each queue begins.
pub const RECORD_HEADS: usize = RECORD_STATES + MACHINES_MOST;
/// Where in the record the number of messages that wait in each queue is.
pub const RECORD_LENGTHS: usize = RECORD_HEADS + QUEUES_MOST;

mod c {
    extern "C" {
        pub fn swarmbanner_layout() -> usize;
        pub fn swarmbanner_read(
            file: *const u8,
            file_len: usize,
            space: *mut u8,
            space_len: usize,
            reply: *mut usize,
            reply_len: usize,
        ) -> usize;
        pub fn swarmbanner_write(
            tables: *const u8,
            tables_len: usize,
            buffer: *mut u8,
            buffer_len: usize,
            reply: *mut usize,
            reply_len: usize,
        ) -> usize;
        pub fn swarmbanner_member(
            file: *const u8,
            file_len: usize,
            control: usize,
            contents: *const u8,
            contents_len: usize,
            reply: *mut usize,
            reply_len: usize,
        ) -> usize;
        pub fn swarmbanner_check(
            file: *const u8,
            file_len: usize,
            seen: *mut u16,
            seen_len: usize,
            queue: *mut u16,
            queue_len: usize,
            contents: *mut u8,
            contents_len: usize,
            reply: *mut usize,
            reply_len: usize,
        ) -> usize;
        pub fn swarmbanner_replay(
            file: *const u8,
            file_len: usize,
            trace: *const u8,
            trace_len: usize,
            memory: *mut u8,
            memory_len: usize,
            record: *mut usize,
            record_len: usize,
            reply: *mut usize,
            reply_len: usize,
        ) -> usize;
        pub fn swarmbanner_expression(
            text: *const u8,
            text_len: usize,
            pool: *mut u8,
            pool_len: usize,
            reply: *mut usize,
            reply_len: usize,
        ) -> usize;
    }
}

/// The number of the library's layout. Where it is not [`LAYOUT`], the lengths above and the places in [`at`] are not the
/// library's.
pub fn layout() -> usize {
    // SAFETY: it takes nothing and touches nothing.
    unsafe { c::swarmbanner_layout() }
}

/// Reads a file: [`READ`], [`REFUSED`] or [`NO_ROOM`]. The tables fill the front of the space, unless the file is refused.
pub fn read(file: &[u8], space: &mut [u8], reply: &mut [usize]) -> usize {
    // SAFETY: each pointer and length are of one slice. Those written to are borrowed exclusively, so they overlap nothing.
    unsafe {
        c::swarmbanner_read(file.as_ptr(), file.len(), space.as_mut_ptr(), space.len(), reply.as_mut_ptr(), reply.len())
    }
}

/// Writes the file that has these tables, the first [`SPACE_LEAST`] bytes of `tables`: [`WRITTEN`], [`REFUSED`] or [`NO_ROOM`].
///
/// The file fills the front of the buffer, and what follows is as it was; after a refusal all of it is: 16 for tables that no
/// file is read into, also too few of them, and else 17 for a buffer shorter than the file. [`FILE_MOST`] bytes always suffice.
///
/// ```
/// use swarmbanner::lent::{self, at, FILE_MOST, SPACE_LEAST};
///
/// // Only empty queues are inside; then nothing is, as the only diagram state is not final any more.
/// let b = [2, 1, 1, 0, 0, 1, 1, 2, 0, 0, 0, 1, 0, 1, 0, 1, 0, 0, 2, 0, 1, 0, 1, 1, 0, 1, 0];
/// let (mut tables, mut buffer, mut reply) = ([0; SPACE_LEAST], [0; FILE_MOST], [0; 4]);
/// assert_eq!(lent::read(&b, &mut tables, &mut reply), lent::READ);
/// tables[at::FINALS] = 0;
/// assert_eq!(lent::write(&tables, &mut buffer, &mut reply), lent::WRITTEN);
/// assert_eq!((reply[0], buffer[23]), (b.len(), 0));
/// assert_eq!(swarmbanner::check(&buffer[..reply[0]]).to_string(), "outside");
/// ```
pub fn write(tables: &[u8], buffer: &mut [u8], reply: &mut [usize]) -> usize {
    // SAFETY: each pointer and length are of one slice. Those written to are borrowed exclusively, so they overlap nothing.
    unsafe {
        c::swarmbanner_write(
            tables.as_ptr(),
            tables.len(),
            buffer.as_mut_ptr(),
            buffer.len(),
            reply.as_mut_ptr(),
            reply.len(),
        )
    }
}

/// Asks whether contents belong to a control state, and how far its diagram follows them: [`YES`], [`NO`], [`REFUSED`] or
/// [`NO_ROOM`].
///
/// ```
/// use swarmbanner::lent;
///
/// // One message 0 may wait.
/// let c = [2, 1, 1, 0, 0, 1, 1, 2, 0, 0, 0, 1, 0, 1, 0, 1, 0, 0, 2, 0, 1, 0, 2, 1, 1, 0, 1, 1, 0, 1, 0];
/// let mut reply = [7; 4];
/// assert_eq!(lent::member(&c, 0, &[0, 0, 0], &mut reply), lent::NO);
/// assert_eq!(reply, [1, 0, 0, 0]); // the second has no arc
/// ```
pub fn member(file: &[u8], control: usize, contents: &[u8], reply: &mut [usize]) -> usize {
    // SAFETY: each pointer and length are of one slice. Only `reply` is written to, and it is borrowed exclusively; the
    // other two may be the same, as both are only read.
    unsafe {
        c::swarmbanner_member(
            file.as_ptr(),
            file.len(),
            control,
            contents.as_ptr(),
            contents.len(),
            reply.as_mut_ptr(),
            reply.len(),
        )
    }
}

/// Checks a file: [`CLOSED`], [`OUTSIDE`], [`LEAVES`], [`BAD`], [`REFUSED`] or [`NO_ROOM`].
///
/// After a verdict both tables are 0 over their whole length and the contents shown fill the front of the buffer; after a
/// refusal all three are as they were.
pub fn check(file: &[u8], seen: &mut [u16], queue: &mut [u16], contents: &mut [u8], reply: &mut [usize]) -> usize {
    // SAFETY: each pointer and length are of one slice. The four written to are borrowed exclusively, so they overlap
    // nothing.
    unsafe {
        c::swarmbanner_check(
            file.as_ptr(),
            file.len(),
            seen.as_mut_ptr(),
            seen.len(),
            queue.as_mut_ptr(),
            queue.len(),
            contents.as_mut_ptr(),
            contents.len(),
            reply.as_mut_ptr(),
            reply.len(),
        )
    }
}

/// Replays a trace, from the start that the file says: [`END`], [`LEFT`], [`STEP_REFUSED`], [`REFUSED`], [`TRACE_REFUSED`],
/// [`MEMORY_REFUSED`] or [`NO_ROOM`].
///
/// After the first three the front of the record has the last configuration, and each queue of the file has its messages and
/// then 0 in its [`QUEUE_LEAST`] bytes of memory; what follows in both is as it was. After a refusal of the file, the trace or
/// the memory all of both is.
pub fn replay(file: &[u8], trace: &[u8], memory: &mut [u8], record: &mut [usize], reply: &mut [usize]) -> usize {
    // SAFETY: each pointer and length are of one slice. The three written to are borrowed exclusively, so they overlap
    // nothing; the other two may be the same, as both are only read.
    unsafe {
        c::swarmbanner_replay(
            file.as_ptr(),
            file.len(),
            trace.as_ptr(),
            trace.len(),
            memory.as_mut_ptr(),
            memory.len(),
            record.as_mut_ptr(),
            record.len(),
            reply.as_mut_ptr(),
            reply.len(),
        )
    }
}

/// Draws the diagram of an expression: [`DRAWN`], [`REFUSED`] or [`NO_ROOM`].
///
/// Final marks and arcs fill the first [`POOL_LEAST`] bytes of the pool as they lie in the tables from [`at::FINALS`] up to
/// [`at::ROOTS`], and what follows is as it was; after a refusal all of it is: 18 to 22, and 5 for a number that is no message's.
///
/// ```
/// use swarmbanner::lent::{self, at, FILE_MOST, POOL_LEAST, SPACE_LEAST};
///
/// // Message 0 is sent and received; as it is, any number of them may wait.
/// let r = [2, 1, 1, 0, 0, 1, 1, 2, 0, 0, 0, 1, 0, 1, 0, 1, 0, 0, 2, 0, 1, 0, 1, 1, 1, 0, 0, 1, 0];
/// let (mut tables, mut pool, mut buffer, mut reply) = ([0; SPACE_LEAST], [0; POOL_LEAST], [0; FILE_MOST], [0; 4]);
/// assert_eq!(lent::read(&r, &mut tables, &mut reply), lent::READ);
///
/// // Now none or one.
/// assert_eq!(lent::expression(b"|0", &mut pool, &mut reply), lent::DRAWN);
/// assert_eq!(reply, [0, 2, 0, 0]);
/// tables[at::COUNTS + 4] = reply[1] as u8;
/// tables[at::FINALS..at::ROOTS].copy_from_slice(&pool);
/// assert_eq!(lent::write(&tables, &mut buffer, &mut reply), lent::WRITTEN);
/// assert_eq!(swarmbanner::check(&buffer[..reply[0]]).to_string(), "leaves 0 0 1 1: 0");
/// ```
pub fn expression(text: &[u8], pool: &mut [u8], reply: &mut [usize]) -> usize {
    // SAFETY: each pointer and length are of one slice. Those written to are borrowed exclusively, so they overlap nothing.
    unsafe {
        c::swarmbanner_expression(
            text.as_ptr(),
            text.len(),
            pool.as_mut_ptr(),
            pool.len(),
            reply.as_mut_ptr(),
            reply.len(),
        )
    }
}

use super::{product, Arc, BadEntry, DiagramState, Kind, Machine, PoolState, Queue, Session, Transition};
use crate::fits::must_fit;
use crate::lent::{self, at, FILE_MOST, REPLY_LEAST, SPACE_LEAST};
use crate::Refusal;

/// Reads a session file.
///
/// # Errors
///
/// Fails where the bytes are not a session file.
///
/// # Panics
///
/// Panics where the library has another layout than this crate ([`lent::LAYOUT`]).
///
/// ```
/// use swarmbanner::Kind;
///
/// let r = [2, 1, 1, 0, 0, 1, 1, 2, 0, 0, 0, 1, 0, 1, 0, 1, 0, 0, 2, 0, 1, 0, 1, 1, 1, 0, 0, 1, 0];
/// let session = swarmbanner::read(&r)?;
/// assert_eq!(session.machines().len(), 2);
/// assert_eq!(session.transitions()[0].kind, Kind::Send { queue: 0, word: vec![0] });
/// let root = session.root(session.start()).expect("the starting control state has a root");
/// assert!(session.is_final(root));
/// assert_eq!(session.arc(root, 0), Some(root));
/// # Ok::<(), swarmbanner::Refusal>(())
/// ```
pub fn read(file: &[u8]) -> Result<Session, Refusal> {
    must_fit();
    let mut space = [0; SPACE_LEAST];
    let mut reply = [0; REPLY_LEAST];
    let kind = lent::read(file, &mut space, &mut reply);
    match kind {
        lent::READ => Ok(Space(&space).session()),
        lent::REFUSED => Err(Refusal::told(&reply)),
        _ => unreachable!("reading with room for tables and a reply answers no kind {kind}"),
    }
}

/// Files.
impl Session {
    /// Makes the session file that says what this session says: [`read`] gives an equal session for it, and for a session that
    /// was read it is the file.
    ///
    /// # Errors
    ///
    /// Fails by 16 where no file says so. Everything is within its range, so there is one cause: a word accepted from a root of
    /// the map or of a bad entry has a message of an earlier queue after one of a later queue.
    ///
    /// # Panics
    ///
    /// Panics where the library has another layout than this crate ([`lent::LAYOUT`]).
    ///
    /// ```
    /// // Queue 0 has message 0, queue 1 has message 1; inside are any 0s, then any 1s.
    /// let s = [1, 1, 0, 2, 1, 1, 1, 0, 0, 0, 1, 0, 1, 0, 2, 1, 2, 0, 0, 1, 1, 1, 1, 1, 1, 1, 0];
    /// let mut session = swarmbanner::read(&s)?;
    /// assert_eq!(session.write()?, s);
    ///
    /// // With a way back from the 1s to the 0s, 1 0 would be inside.
    /// let (zeros, ones) = (session.state(0).unwrap(), session.state(1).unwrap());
    /// session.set_arc(ones, 0, zeros)?;
    /// assert_eq!(session.write().unwrap_err().to_string(), "refused 16 at 0");
    /// # Ok::<(), Box<dyn std::error::Error>>(())
    /// ```
    pub fn write(&self) -> Result<Vec<u8>, Refusal> {
        let mut buffer = [0; FILE_MOST];
        let length = self.write_into(&mut buffer)?;
        Ok(buffer[..length].to_vec())
    }

    /// Makes the session file in the front of a buffer, and gives its length. The rest of the buffer is as it was; after an
    /// error all of it is. [`FILE_MOST`] bytes always suffice.
    ///
    /// # Errors
    ///
    /// Fails as [`write`](Session::write) does, and by 17 where the buffer is shorter than the file.
    ///
    /// # Panics
    ///
    /// Panics where the library has another layout than this crate ([`lent::LAYOUT`]).
    ///
    /// ```
    /// let r = [2, 1, 1, 0, 0, 1, 1, 2, 0, 0, 0, 1, 0, 1, 0, 1, 0, 0, 2, 0, 1, 0, 1, 1, 1, 0, 0, 1, 0];
    /// let session = swarmbanner::read(&r)?;
    /// let mut buffer = [9; 30];
    /// assert_eq!(session.write_into(&mut buffer)?, 29);
    /// assert_eq!((&buffer[..29], buffer[29]), (&r[..], 9));
    /// assert_eq!(session.write_into(&mut buffer[..28]).unwrap_err().number, 17);
    /// # Ok::<(), swarmbanner::Refusal>(())
    /// ```
    pub fn write_into(&self, buffer: &mut [u8]) -> Result<usize, Refusal> {
        must_fit();
        let mut reply = [0; REPLY_LEAST];
        let kind = lent::write(&tables_of(self), buffer, &mut reply);
        match kind {
            lent::WRITTEN => Ok(reply[0]),
            lent::REFUSED => Err(Refusal::told(&reply)),
            _ => unreachable!("writing with room for a reply answers no kind {kind}"),
        }
    }
}

/// From a table entry that has 0 for none and else 1 plus the state.
fn after_one(entry: u8) -> Option<DiagramState> {
    entry.checked_sub(1).map(DiagramState)
}

/// So many states, of the final marks and the arcs as they lie in the tables.
pub(super) fn pool_of(marks_and_arcs: &[u8], count: usize) -> Vec<PoolState> {
    let (marks, arcs) = marks_and_arcs.split_at(at::ARCS - at::FINALS);
    let state = |(&mark, row): (&u8, &[u8])| {
        let arcs = (0..).zip(row).filter_map(|(message, &entry)| {
            let target = after_one(entry)?;
            Some(Arc { message, target })
        });
        PoolState { is_final: mark == 1, arcs: arcs.collect() }
    };
    marks.iter().zip(arcs.chunks(at::ARC_ROW)).take(count).map(state).collect()
}

/// The tables as [`at`] says.
struct Space<'a>(&'a [u8; SPACE_LEAST]);

impl Space<'_> {
    fn session(&self) -> Session {
        let [machines, queues, _, transitions, pool, bad] =
            [0, 1, 2, 3, 4, 5].map(|count| self.number(at::COUNTS + count));
        let machines = self.machines(machines);
        let control_states = product(&machines);
        Session {
            machines,
            queues: self.queues(queues),
            transitions: (0..transitions).map(|number| self.transition(number)).collect(),
            pool: pool_of(&self.0[at::FINALS..at::ROOTS], pool),
            roots: (0..control_states).map(|control| after_one(self.0[at::ROOTS + control])).collect(),
            bad_entries: (0..bad).map(|entry| self.bad_entry(entry)).collect(),
        }
    }

    fn number(&self, place: usize) -> usize {
        usize::from(self.0[place])
    }

    fn row<const LENGTH: usize>(&self, table: usize, number: usize) -> &[u8] {
        &self.0[table + number * LENGTH..][..LENGTH]
    }

    fn machines(&self, count: usize) -> Vec<Machine> {
        (0..count)
            .map(|machine| Machine {
                states: self.number(at::STATES + machine),
                start: self.number(at::STARTS + machine),
            })
            .collect()
    }

    fn queues(&self, count: usize) -> Vec<Queue> {
        let mut first = 0;
        (0..count)
            .map(|queue| {
                let messages = first..first + self.0[at::MESSAGES + queue];
                first = messages.end;
                let contents = self.row::<{ at::CONTENTS_ROW }>(at::CONTENTS, queue);
                Queue { messages, starting: contents[..self.number(at::LENGTHS + queue)].to_vec() }
            })
            .collect()
    }

    fn transition(&self, number: usize) -> Transition {
        let row = self.row::<{ at::TRANSITION_ROW }>(at::TRANSITIONS, number);
        let queue = usize::from(row[4]);
        let word = row[at::TRANSITION_WORD..][..usize::from(row[5])].to_vec();
        let kind = match row[3] {
            0 => Kind::Local,
            1 => Kind::Send { queue, word },
            _ => Kind::Receive { queue, word },
        };
        Transition { machine: row[0].into(), from: row[1].into(), to: row[2].into(), kind }
    }

    fn bad_entry(&self, entry: usize) -> BadEntry {
        let row = self.row::<{ at::BAD_ROW }>(at::BAD, entry);
        BadEntry { control: row[0].into(), root: DiagramState(row[1]) }
    }
}

/// The tables of a session, as [`at`] says.
fn tables_of(session: &Session) -> [u8; SPACE_LEAST] {
    let mut space = [0; SPACE_LEAST];
    put(&mut space, at::COUNTS, counts_of(session));
    put(&mut space, at::STATES, session.machines.iter().map(|machine| machine.states));
    put(&mut space, at::STARTS, session.machines.iter().map(|machine| machine.start));
    put(&mut space, at::MESSAGES, session.queues.iter().map(|queue| queue.messages.len()));
    put(&mut space, at::LENGTHS, session.queues.iter().map(|queue| queue.starting.len()));
    for (number, queue) in session.queues.iter().enumerate() {
        put(&mut space, at::CONTENTS + number * at::CONTENTS_ROW, queue.starting.iter().map(|&message| message.into()));
    }
    for (number, transition) in session.transitions.iter().enumerate() {
        put(&mut space, at::TRANSITIONS + number * at::TRANSITION_ROW, row_of(transition));
    }
    put(&mut space, at::FINALS, session.pool.iter().map(|state| state.is_final.into()));
    for (number, state) in session.pool.iter().enumerate() {
        for arc in &state.arcs {
            put(&mut space, at::ARCS + number * at::ARC_ROW + usize::from(arc.message), [arc.target.index() + 1]);
        }
    }
    put(&mut space, at::ROOTS, session.roots.iter().map(|root| root.map_or(0, |root| root.index() + 1)));
    for (number, entry) in session.bad_entries.iter().enumerate() {
        put(&mut space, at::BAD + number * at::BAD_ROW, [entry.control, entry.root.index()]);
    }
    space
}

/// Puts numbers into the tables from a place on.
fn put(space: &mut [u8; SPACE_LEAST], place: usize, numbers: impl IntoIterator<Item = usize>) {
    for (entry, number) in space[place..].iter_mut().zip(numbers) {
        *entry = u8::try_from(number).expect("every number of a session is below 256");
    }
}

fn counts_of(session: &Session) -> [usize; at::STATES - at::COUNTS] {
    [
        session.machines.len(),
        session.queues.len(),
        session.queues.iter().map(|queue| queue.messages.len()).sum(),
        session.transitions.len(),
        session.pool.len(),
        session.bad_entries.len(),
    ]
}

fn row_of(transition: &Transition) -> impl Iterator<Item = usize> + '_ {
    let (kind, queue, word): (usize, usize, &[u8]) = match &transition.kind {
        Kind::Local => (0, 0, &[]),
        Kind::Send { queue, word } => (1, *queue, word),
        Kind::Receive { queue, word } => (2, *queue, word),
    };
    let head = [transition.machine, transition.from, transition.to, kind, queue, word.len()];
    head.into_iter().chain(word.iter().map(|&message| message.into()))
}

use super::error::MACHINE_STATES_MOST;
use super::{
    product, Arc, BadEntry, Diagram, DiagramState, Kind, Machine, PoolState, Queue, Session, SessionError, Transition,
};
use crate::lent::{
    BAD_ENTRIES_MOST, CONTROL_STATES_MOST, MACHINES_MOST, MESSAGES_MOST, POOL_STATES_MOST, QUEUES_MOST, STARTING_MOST,
    TRANSITIONS_MOST, WORD_MOST,
};

type Changed<T> = Result<T, SessionError>;

fn demand(holds: bool, else_told: SessionError) -> Changed<()> {
    if holds {
        Ok(())
    } else {
        Err(else_told)
    }
}

/// Making and changing a session. A change that would put something outside its range gives an error and leaves the session as
/// it was.
///
/// How many states the machines have, and how many messages the queues, stays as [`Session::new`] or [`read`](crate::read)
/// made them, since all the rest goes by them. Diagram states are added and never removed, so the number of one stays good.
impl Session {
    /// A session of these machines and of queues with so many messages each. The queues start empty. It has no transitions, one
    /// diagram state that is not final and has no arcs, no roots and no bad entries.
    ///
    /// # Errors
    ///
    /// Fails where there are not 1 to 4 machines of 1 to 16 states each, with up to 256 control states together, or not 1 to 4
    /// queues of 1 to 32 messages each, with up to 32 together, or where a machine does not have the state that it is to start
    /// in. The first that is wrong is told, in the order of a file.
    ///
    /// ```
    /// use swarmbanner::{Kind, Machine, Session, Transition};
    ///
    /// // One machine sends message 0, another receives it, and any number may wait.
    /// let machine = Machine { states: 1, start: 0 };
    /// let mut session = Session::new(&[machine, machine], &[1])?;
    /// let (send, receive) = (Kind::Send { queue: 0, word: vec![0] }, Kind::Receive { queue: 0, word: vec![0] });
    /// session.add_transition(Transition { machine: 0, from: 0, to: 0, kind: send })?;
    /// session.add_transition(Transition { machine: 1, from: 0, to: 0, kind: receive })?;
    /// let any = session.state(0).expect("a new session has one diagram state");
    /// session.set_final(any, true)?;
    /// session.set_arc(any, 0, any)?;
    /// session.set_root(0, Some(any))?;
    ///
    /// let file = session.write()?;
    /// assert_eq!(swarmbanner::check(&file).to_string(), "closed 4");
    /// assert_eq!(swarmbanner::read(&file)?, session);
    /// # Ok::<(), Box<dyn std::error::Error>>(())
    /// ```
    pub fn new(machines: &[Machine], messages: &[usize]) -> Changed<Self> {
        within_machines(machines)?;
        Ok(Session {
            machines: machines.to_vec(),
            queues: numbered(messages)?,
            transitions: vec![],
            pool: vec![PoolState { is_final: false, arcs: vec![] }],
            roots: vec![None; product(machines)],
            bad_entries: vec![],
        })
    }

    /// Sets the state in which a machine starts.
    ///
    /// # Errors
    ///
    /// Fails where there is no such machine, or it has no such state.
    pub fn set_start(&mut self, machine: usize, state: usize) -> Changed<()> {
        self.has_machine_state(machine, state)?;
        self.machines[machine].start = state;
        Ok(())
    }

    /// Sets what waits in a queue at the start, oldest first, and gives what did before.
    ///
    /// # Errors
    ///
    /// Fails where there is no such queue or message, or where these are more than eight messages or one is of another queue.
    ///
    /// ```
    /// let r = [2, 1, 1, 0, 0, 1, 1, 2, 0, 0, 0, 1, 0, 1, 0, 1, 0, 0, 2, 0, 1, 0, 1, 1, 1, 0, 0, 1, 0];
    /// let mut session = swarmbanner::read(&r)?;
    /// assert_eq!(session.set_starting(0, &[0, 0])?, []);
    /// let file = session.write()?;
    /// // two machines and 4; behind the messages of the queue its two
    /// assert_eq!((file[0], &file[5..10]), (6, &[1, 1, 2, 0, 0][..]));
    /// let mut replayer = swarmbanner::Replayer::new();
    /// replayer.replay(&file, &[1]);
    /// assert_eq!(replayer.last().unwrap().queues, [[0]]); // one was received, one still waits
    /// # Ok::<(), Box<dyn std::error::Error>>(())
    /// ```
    pub fn set_starting(&mut self, queue: usize, messages: &[u8]) -> Changed<Vec<u8>> {
        let too_many = SessionError::StartingLength { queue, length: messages.len() };
        self.allows_word(queue, messages, STARTING_MOST, too_many)?;
        Ok(std::mem::replace(&mut self.queues[queue].starting, messages.to_vec()))
    }
}

/// As many machines as there can be, each with as many states, and all together.
fn within_machines(machines: &[Machine]) -> Changed<()> {
    let count = machines.len();
    demand((1..=MACHINES_MOST).contains(&count), SessionError::Machines { count })?;
    let mut product = 1;
    for (machine, &Machine { states, .. }) in machines.iter().enumerate() {
        demand((1..=MACHINE_STATES_MOST).contains(&states), SessionError::States { machine, states })?;
        product *= states;
        demand(product <= CONTROL_STATES_MOST, SessionError::ControlStates { machine })?;
    }
    machines.iter().enumerate().try_for_each(|(machine, &Machine { states, start })| {
        demand(start < states, SessionError::NoMachineState { machine, state: start })
    })
}

/// Queues of so many messages, which are numbered through them.
fn numbered(messages: &[usize]) -> Changed<Vec<Queue>> {
    let count = messages.len();
    demand((1..=QUEUES_MOST).contains(&count), SessionError::Queues { count })?;
    let mut first = 0;
    let queues = messages.iter().enumerate().map(|(queue, &messages)| {
        demand((1..=MESSAGES_MOST).contains(&messages), SessionError::Messages { queue, messages })?;
        let end = first + messages;
        demand(end <= MESSAGES_MOST, SessionError::MessageSum { queue })?;
        let messages = first as u8..end as u8;
        first = end;
        Ok(Queue { messages, starting: vec![] })
    });
    queues.collect()
}

/// Transitions.
impl Session {
    /// Adds a transition after the others, and gives its number.
    ///
    /// # Errors
    ///
    /// Fails where there are 128 already, where the session has no such machine, state, queue or message, or where the word
    /// has more than sixteen messages or one of another queue.
    pub fn add_transition(&mut self, transition: Transition) -> Changed<usize> {
        demand(self.transitions.len() < TRANSITIONS_MOST, SessionError::TransitionsFull)?;
        self.allows(&transition)?;
        self.transitions.push(transition);
        Ok(self.transitions.len() - 1)
    }

    /// Puts a transition in the place of another, and gives that.
    ///
    /// # Errors
    ///
    /// Fails where there is no transition with this number, and as [`add_transition`](Session::add_transition) does for the new
    /// one.
    ///
    /// ```
    /// use swarmbanner::Kind;
    ///
    /// let r = [2, 1, 1, 0, 0, 1, 1, 2, 0, 0, 0, 1, 0, 1, 0, 1, 0, 0, 2, 0, 1, 0, 1, 1, 1, 0, 0, 1, 0];
    /// let mut session = swarmbanner::read(&r)?;
    /// let mut twice = session.transitions()[0].clone();
    /// twice.kind = Kind::Send { queue: 0, word: vec![0, 0] };
    /// session.replace_transition(0, twice)?;
    /// assert_eq!(session.step(0, 0, &[]), Some((0, vec![0, 0])));
    /// # Ok::<(), Box<dyn std::error::Error>>(())
    /// ```
    pub fn replace_transition(&mut self, number: usize, transition: Transition) -> Changed<Transition> {
        self.has_transition(number)?;
        self.allows(&transition)?;
        Ok(std::mem::replace(&mut self.transitions[number], transition))
    }

    /// Takes a transition out, and gives it. Those after it have a number that is one lower then.
    ///
    /// # Errors
    ///
    /// Fails where there is no transition with this number.
    pub fn remove_transition(&mut self, number: usize) -> Changed<Transition> {
        self.has_transition(number)?;
        Ok(self.transitions.remove(number))
    }

    fn has_transition(&self, transition: usize) -> Changed<()> {
        demand(transition < self.transitions.len(), SessionError::NoTransition { transition })
    }

    fn has_machine_state(&self, machine: usize, state: usize) -> Changed<()> {
        let found = self.machines.get(machine).ok_or(SessionError::NoMachine { machine })?;
        demand(state < found.states, SessionError::NoMachineState { machine, state })
    }

    fn has_message(&self, message: u8) -> Changed<()> {
        demand(self.queue_of(message).is_some(), SessionError::NoMessage { message })
    }

    /// Whether a transition is within its ranges, asked in the order of a file.
    fn allows(&self, transition: &Transition) -> Changed<()> {
        self.has_machine_state(transition.machine, transition.from)?;
        self.has_machine_state(transition.machine, transition.to)?;
        match &transition.kind {
            Kind::Local => Ok(()),
            Kind::Send { queue, word } | Kind::Receive { queue, word } => {
                self.allows_word(*queue, word, WORD_MOST, SessionError::WordLength { length: word.len() })
            }
        }
    }

    /// Whether a word has so many messages at most, all of this queue.
    fn allows_word(&self, queue: usize, word: &[u8], most: usize, too_many: SessionError) -> Changed<()> {
        let of_queue = &self.queues.get(queue).ok_or(SessionError::NoQueue { queue })?.messages;
        demand(word.len() <= most, too_many)?;
        word.iter().try_for_each(|&message| {
            self.has_message(message)?;
            demand(of_queue.contains(&message), SessionError::OtherQueue { message, queue })
        })
    }
}

/// The pool.
impl Session {
    /// The diagram state with this number; none where the pool has no such state.
    pub fn state(&self, number: usize) -> Option<DiagramState> {
        (number < self.pool.len()).then_some(DiagramState(number as u8))
    }

    /// Adds a diagram state without arcs after the others, and gives its number.
    ///
    /// # Errors
    ///
    /// Fails where there are 127 already.
    pub fn add_state(&mut self, is_final: bool) -> Changed<DiagramState> {
        demand(self.pool.len() < POOL_STATES_MOST, SessionError::PoolFull)?;
        self.pool.push(PoolState { is_final, arcs: vec![] });
        Ok(DiagramState((self.pool.len() - 1) as u8))
    }

    /// Says whether contents that end in a diagram state belong to the set.
    ///
    /// # Errors
    ///
    /// Fails where the pool has no such state.
    pub fn set_final(&mut self, state: DiagramState, is_final: bool) -> Changed<()> {
        self.has_state(state)?;
        self.pool[state.index()].is_final = is_final;
        Ok(())
    }

    /// Has an arc lead from a diagram state for a message, in the place of the one that there may be, of which it gives the
    /// target.
    ///
    /// # Errors
    ///
    /// Fails where the pool has no such state or target, or there is no such message.
    ///
    /// ```
    /// let r = [2, 1, 1, 0, 0, 1, 1, 2, 0, 0, 0, 1, 0, 1, 0, 1, 0, 0, 2, 0, 1, 0, 1, 1, 1, 0, 0, 1, 0];
    /// let mut session = swarmbanner::read(&r)?;
    /// let none = session.state(0).expect("the pool has a state");
    /// let one = session.add_state(true)?;
    /// assert_eq!(session.set_arc(none, 0, one)?, Some(none));
    /// // At most one message may wait now, so a second send leads out.
    /// assert_eq!(swarmbanner::check(&session.write()?).to_string(), "leaves 0 0 1 1: 0");
    /// # Ok::<(), Box<dyn std::error::Error>>(())
    /// ```
    pub fn set_arc(&mut self, state: DiagramState, message: u8, target: DiagramState) -> Changed<Option<DiagramState>> {
        self.has_state(state)?;
        self.has_message(message)?;
        self.has_state(target)?;
        let arcs = &mut self.pool[state.index()].arcs;
        match place_of(arcs, message) {
            Ok(place) => Ok(Some(std::mem::replace(&mut arcs[place].target, target))),
            Err(place) => {
                arcs.insert(place, Arc { message, target });
                Ok(None)
            }
        }
    }

    /// Takes the arc of a diagram state for a message out, and gives its target; none where there is no arc.
    ///
    /// # Errors
    ///
    /// Fails where the pool has no such state, or there is no such message.
    pub fn remove_arc(&mut self, state: DiagramState, message: u8) -> Changed<Option<DiagramState>> {
        self.has_state(state)?;
        self.has_message(message)?;
        let arcs = &mut self.pool[state.index()].arcs;
        Ok(place_of(arcs, message).ok().map(|place| arcs.remove(place).target))
    }

    /// Adds the states of a diagram after the others, and gives its root as a state of this session.
    ///
    /// # Errors
    ///
    /// Fails where there would be more than 127 states, or the diagram has a message that no queue has.
    ///
    /// ```
    /// let r = [2, 1, 1, 0, 0, 1, 1, 2, 0, 0, 0, 1, 0, 1, 0, 1, 0, 0, 2, 0, 1, 0, 1, 1, 1, 0, 0, 1, 0];
    /// let mut session = swarmbanner::read(&r)?;
    /// let root = session.add_diagram(&swarmbanner::expression(b"| 0 | 0 0")?)?;
    /// session.set_root(0, Some(root))?;
    /// // At most two messages may wait now, so a third send leads out.
    /// assert_eq!(swarmbanner::check(&session.write()?).to_string(), "leaves 0 0 2 2: 0 0");
    /// # Ok::<(), Box<dyn std::error::Error>>(())
    /// ```
    pub fn add_diagram(&mut self, diagram: &Diagram) -> Changed<DiagramState> {
        let before = self.pool.len();
        demand(before + diagram.states().len() <= POOL_STATES_MOST, SessionError::PoolFull)?;
        self.has_messages(diagram)?;
        self.pool.extend(diagram.states().iter().map(|state| moved(state, before)));
        Ok(moved_state(diagram.root(), before))
    }

    /// Puts the states of a diagram in the place of the whole pool, and gives its root as a state of this session. Roots and bad
    /// entries keep the numbers of the states that they name.
    ///
    /// # Errors
    ///
    /// Fails where a root or a bad entry names a state that would not be there, or the diagram has a message that no queue has.
    ///
    /// ```
    /// use swarmbanner::{Machine, Session};
    ///
    /// let mut session = Session::new(&[Machine { states: 1, start: 0 }], &[2, 1])?;
    /// let root = session.set_pool(&swarmbanner::expression(b"(0|1)* 2*")?)?;
    /// session.set_root(0, Some(root))?;
    /// assert_eq!(swarmbanner::member(&session.write()?, 0, &[1, 0, 2]), Ok(true));
    /// # Ok::<(), Box<dyn std::error::Error>>(())
    /// ```
    pub fn set_pool(&mut self, diagram: &Diagram) -> Changed<DiagramState> {
        let named = self.roots.iter().flatten().chain(self.bad_entries.iter().map(|entry| &entry.root));
        let mut beyond = named.filter(|state| state.index() >= diagram.states().len());
        beyond.next().map_or(Ok(()), |&state| Err(SessionError::NoState { state }))?;
        self.has_messages(diagram)?;
        self.pool = diagram.states().to_vec();
        Ok(diagram.root())
    }

    fn has_messages(&self, diagram: &Diagram) -> Changed<()> {
        diagram.states().iter().flat_map(|state| &state.arcs).try_for_each(|arc| self.has_message(arc.message))
    }

    fn has_state(&self, state: DiagramState) -> Changed<()> {
        demand(state.index() < self.pool.len(), SessionError::NoState { state })
    }
}

/// A state of a diagram behind so many others. All numbers are below 127.
fn moved(state: &PoolState, by: usize) -> PoolState {
    let arc = |arc: &Arc| Arc { target: moved_state(arc.target, by), ..*arc };
    PoolState { arcs: state.arcs.iter().map(arc).collect(), ..*state }
}

fn moved_state(state: DiagramState, by: usize) -> DiagramState {
    DiagramState((state.index() + by) as u8)
}

/// Where the arc for a message is, or where it would be.
fn place_of(arcs: &[Arc], message: u8) -> Result<usize, usize> {
    arcs.binary_search_by_key(&message, |arc| arc.message)
}

/// The map and the bad entries.
impl Session {
    /// Sets the root of a control state's diagram, or none for an empty set.
    ///
    /// # Errors
    ///
    /// Fails where there is no such control state, or the pool has no such state.
    pub fn set_root(&mut self, control: usize, root: Option<DiagramState>) -> Changed<()> {
        self.has_control(control)?;
        root.map_or(Ok(()), |root| self.has_state(root))?;
        self.roots[control] = root;
        Ok(())
    }

    /// Adds a bad entry after the others, and gives its number.
    ///
    /// # Errors
    ///
    /// Fails where there are 64 already, there is no such control state, or the pool has no such state.
    pub fn add_bad_entry(&mut self, entry: BadEntry) -> Changed<usize> {
        demand(self.bad_entries.len() < BAD_ENTRIES_MOST, SessionError::BadEntriesFull)?;
        self.allows_bad_entry(entry)?;
        self.bad_entries.push(entry);
        Ok(self.bad_entries.len() - 1)
    }

    /// Puts a bad entry in the place of another, and gives that.
    ///
    /// # Errors
    ///
    /// Fails where there is no bad entry with this number, no such control state, or the pool has no such state.
    pub fn replace_bad_entry(&mut self, number: usize, entry: BadEntry) -> Changed<BadEntry> {
        self.has_bad_entry(number)?;
        self.allows_bad_entry(entry)?;
        Ok(std::mem::replace(&mut self.bad_entries[number], entry))
    }

    /// Takes a bad entry out, and gives it. Those after it have a number that is one lower then.
    ///
    /// # Errors
    ///
    /// Fails where there is no bad entry with this number.
    pub fn remove_bad_entry(&mut self, number: usize) -> Changed<BadEntry> {
        self.has_bad_entry(number)?;
        Ok(self.bad_entries.remove(number))
    }

    fn has_control(&self, control: usize) -> Changed<()> {
        demand(control < self.control_states(), SessionError::NoControl { control })
    }

    fn has_bad_entry(&self, entry: usize) -> Changed<()> {
        demand(entry < self.bad_entries.len(), SessionError::NoBadEntry { entry })
    }

    fn allows_bad_entry(&self, entry: BadEntry) -> Changed<()> {
        self.has_control(entry.control)?;
        self.has_state(entry.root)
    }
}

use crate::{DiagramState, Reply, Session};

/// How a way through a diagram ends.
#[derive(Clone, Copy, Debug, PartialEq, Eq)]
pub enum End {
    /// In a final state: the contents belong to the set.
    Final,
    /// In a state that is not final.
    NotFinal,
    /// Nowhere: there is no arc for the next message, or no root to begin with.
    Nowhere,
}

/// The way that contents take through a diagram.
#[derive(Clone, Debug, PartialEq, Eq)]
pub struct Way {
    /// The root and the state after each message that has an arc; none where there is no root.
    pub states: Vec<DiagramState>,
    /// The contents, also those after the place where the way ends.
    pub contents: Vec<u8>,
    /// How it ends.
    pub end: End,
}

impl Way {
    /// The way of contents of which so many messages are followed from a root, as a reply says; of contents that are inside it is
    /// all of them. None where the session has no such way, as the reply is on another one.
    ///
    /// ```
    /// use swarmbanner::{End, Way};
    ///
    /// // One message 0 may wait.
    /// let c = [2, 1, 1, 0, 0, 1, 1, 2, 0, 0, 0, 1, 0, 1, 0, 1, 0, 0, 2, 0, 1, 0, 2, 1, 1, 0, 1, 1, 0, 1, 0];
    /// let (session, contents) = (swarmbanner::read(&c)?, [0, 0, 0]);
    /// let followed = swarmbanner::membership(&c, 0, &contents)?.followed;
    /// let way = Way::followed(&session, session.root(0), &contents, followed).expect("the reply is on this file");
    /// assert_eq!((way.states.len(), way.end), (2, End::Nowhere));
    /// assert_eq!(way.lost(), Some((session.state(1).unwrap(), 0)));
    /// # Ok::<(), swarmbanner::Refusal>(())
    /// ```
    pub fn followed(session: &Session, root: Option<DiagramState>, contents: &[u8], followed: usize) -> Option<Self> {
        let mut states: Vec<DiagramState> = root.into_iter().collect();
        for &message in contents.get(..followed)? {
            states.push(session.arc(*states.last()?, message)?);
        }
        let end = match states.last() {
            Some(&last) if followed == contents.len() && session.is_final(last) => End::Final,
            Some(_) if followed == contents.len() => End::NotFinal,
            _ => End::Nowhere,
        };
        Some(Way { states, contents: contents.to_vec(), end })
    }

    /// Follows contents from a root, in plain Rust; where a reply says how far they are followed, [`Way::followed`] goes by that.
    pub fn follow(session: &Session, root: Option<DiagramState>, contents: &[u8]) -> Self {
        let mut reached = root;
        let leads = |&&message: &&u8| {
            reached = reached.and_then(|state| session.arc(state, message));
            reached.is_some()
        };
        let followed = contents.iter().take_while(leads).count();
        Way::followed(session, root, contents, followed).expect("so many messages lead somewhere")
    }

    /// The messages at which the way leaves a state by an arc, counted from 1.
    pub fn places(&self, state: DiagramState, message: u8) -> Vec<usize> {
        let arcs = self.states.iter().zip(&self.contents).take(self.states.len().saturating_sub(1));
        (1..).zip(arcs).filter(|(_, arc)| *arc == (&state, &message)).map(|(place, _)| place).collect()
    }

    /// The state and the message that has no arc from there, where that is how the way ends.
    pub fn lost(&self) -> Option<(DiagramState, u8)> {
        let &last = self.states.last()?;
        let &message = self.contents.get(self.states.len() - 1)?;
        Some((last, message))
    }
}

/// Why a file is not closed: contents that one diagram holds, and what another says of them.
#[derive(Clone, Debug, PartialEq, Eq)]
pub enum Failure {
    /// A step leads outside.
    Leaves {
        /// The control state before the step, and the way of the contents shown, which ends in a final state.
        before: (usize, Way),
        /// The transition taken.
        transition: usize,
        /// The control state after the step, and the way of the contents there, which does not end in a final state.
        after: (usize, Way),
    },
    /// Contents are inside and bad.
    Bad {
        /// The bad entry.
        entry: usize,
        /// Its control state, and the way of the contents there.
        inside: (usize, Way),
        /// The way of the contents in the entry's diagram. Both end in a final state.
        bad: Way,
    },
}

impl Failure {
    /// What a reply shows; none where it shows no contents, or is on another session. How far the contents after a step are followed
    /// is what the reply says.
    pub fn shown(session: &Session, reply: &Reply) -> Option<Self> {
        let way = |control: usize, contents: &[u8], followed: usize| {
            let way = Way::followed(session, session.root(control), contents, followed)?;
            Some((control, way))
        };
        match reply {
            Reply::Leaves { control, transition, contents, followed } => {
                let (target, after) = session.step(*control, *transition, contents)?;
                let before = way(*control, contents, contents.len())?;
                Some(Failure::Leaves { before, transition: *transition, after: way(target, &after, *followed)? })
            }
            Reply::Bad { entry, contents } => {
                let listed = session.bad_entries().get(*entry)?;
                let bad = Way::followed(session, Some(listed.root), contents, contents.len())?;
                Some(Failure::Bad { entry: *entry, inside: way(listed.control, contents, contents.len())?, bad })
            }
            _ => None,
        }
    }

    /// The control state that fails, and the transition that leads out of it.
    pub fn place(&self) -> (usize, Option<usize>) {
        match self {
            Failure::Leaves { before: (control, _), transition, .. } => (*control, Some(*transition)),
            Failure::Bad { inside: (control, _), .. } => (*control, None),
        }
    }
}

//! Words that are accepted out of queue order: of a file that is refused by 9, and of a session that no file says (16).

use std::collections::{BTreeSet, VecDeque};
use std::fmt;

use swarmbanner::Session;

/// Diagrams with their roots, as the search goes through them: plain numbers, of a file or of a session.
#[derive(Clone, Debug, Default, PartialEq, Eq)]
pub(crate) struct Diagrams {
    /// The first message of each queue; one after the last of all may follow.
    pub(crate) queues: Vec<usize>,
    /// The message and the target of each arc, for each diagram state.
    pub(crate) arcs: Vec<Vec<(usize, usize)>>,
    /// Whether each diagram state is final.
    pub(crate) finals: Vec<bool>,
    /// The root of each control state, or none.
    pub(crate) roots: Vec<Option<usize>>,
    /// The root of each bad entry.
    pub(crate) bad_roots: Vec<usize>,
}

/// What has a root.
#[derive(Clone, Copy, Debug, PartialEq, Eq)]
pub enum Owner {
    /// A control state, by the map.
    Control(usize),
    /// A bad entry.
    Bad(usize),
}

/// A word out of queue order, and the root that accepts it.
#[derive(Clone, Debug, PartialEq, Eq)]
pub struct Disorder {
    /// Whose root it is.
    pub owner: Owner,
    /// The diagram state.
    pub root: usize,
    /// The shortest such word, and of these the lowest.
    pub word: Vec<usize>,
    /// The first message that comes too late, with its queue; before it, the message that it comes after.
    pub pair: [(usize, usize); 2],
}

impl Diagrams {
    /// Those of a session.
    pub(crate) fn of(session: &Session) -> Self {
        let arcs = |state: &swarmbanner::PoolState| {
            state.arcs.iter().map(|arc| (arc.message.into(), arc.target.index())).collect()
        };
        Diagrams {
            queues: session.queues().iter().map(|queue| queue.messages.start.into()).collect(),
            arcs: session.pool().iter().map(arcs).collect(),
            finals: session.pool().iter().map(|state| state.is_final).collect(),
            roots: session.roots().iter().map(|root| root.map(|root| root.index())).collect(),
            bad_roots: session.bad_entries().iter().map(|entry| entry.root.index()).collect(),
        }
    }

    /// The queue of a message.
    pub(crate) fn queue_of(&self, message: usize) -> usize {
        self.queues.iter().rposition(|&first| first <= message).unwrap_or(0)
    }

    /// The first root that accepts a word out of order, those of the map before those of bad entries.
    pub(crate) fn disorder(&self) -> Option<Disorder> {
        let of_map = self.roots.iter().enumerate();
        let of_map = of_map.filter_map(|(control, root)| Some((Owner::Control(control), (*root)?)));
        let of_bad = self.bad_roots.iter().enumerate().map(|(entry, &root)| (Owner::Bad(entry), root));
        of_map.chain(of_bad).find_map(|(owner, root)| {
            let word = self.accepted_out_of_order(root)?;
            let queued = |message: usize| (message, self.queue_of(message));
            let mut pairs = word.windows(2).map(|pair| [queued(pair[0]), queued(pair[1])]);
            let pair = pairs.find(|[before, after]| after.1 < before.1)?;
            Some(Disorder { owner, root, word, pair })
        })
    }

    /// The shortest word, and of these the lowest, that a root accepts and in which a message of an earlier queue comes after one
    /// of a later queue. Words are alike where they lead to one state, end in one queue, and are both in order or both not.
    fn accepted_out_of_order(&self, root: usize) -> Option<Vec<usize>> {
        let mut met = BTreeSet::from([(root, 0, false)]);
        let mut words = VecDeque::from([(root, 0, false, vec![])]);
        while let Some((state, last, is_wrong, word)) = words.pop_front() {
            if is_wrong && self.finals[state] {
                return Some(word);
            }
            for &(message, target) in &self.arcs[state] {
                let queue = self.queue_of(message);
                let is_wrong = is_wrong || queue < last;
                if met.insert((target, queue, is_wrong)) {
                    words.push_back((target, queue, is_wrong, [&word[..], &[message]].concat()));
                }
            }
        }
        None
    }
}

impl fmt::Display for Owner {
    fn fmt(&self, f: &mut fmt::Formatter<'_>) -> fmt::Result {
        match self {
            Owner::Control(control) => write!(f, "control state {control}"),
            Owner::Bad(entry) => write!(f, "bad entry {entry}"),
        }
    }
}

impl fmt::Display for Disorder {
    fn fmt(&self, f: &mut fmt::Formatter<'_>) -> fmt::Result {
        let Disorder { owner, root, word, pair: [(before, later), (after, earlier)] } = self;
        let word: Vec<String> = word.iter().map(usize::to_string).collect();
        write!(f, "{owner} has root {root}, which accepts {}, ", word.join(" "))?;
        write!(f, "where message {after} of queue {earlier} comes after message {before} of queue {later}")
    }
}

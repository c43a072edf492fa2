//! Wrong verdicts on purpose: the mistakes that the document warns of, and others of their kind.
//!
//! A set of files is worth something only if each mistake changes the line of some of them. With no trap set, this is
//! a third way to the verdict, slow and plain; how far the target follows the contents after the step is counted on the way.
//! Mistakes about that number alone are in `far_traps`.

use std::collections::{BTreeSet, HashSet};
use std::ops::Range;

use crate::arcs::Arcs;
use crate::diagram::follow;
use crate::read::{Kind, Tables, Transition};
use crate::starting::{starting_with, Mistaken};
use crate::verdict::Verdict;

#[derive(Clone, Copy, Debug, PartialEq, Eq, PartialOrd, Ord)]
pub enum Trap {
    /// A sent word goes to the end of the whole word.
    AppendAtTheVeryEnd,
    /// A received word is taken from the front of the whole word.
    ReceiveFromTheVeryFront,
    /// A pair whose target has nowhere to go is dropped.
    DropLostTarget,
    /// A target that has nowhere to go fails even where the source does not accept.
    LostTargetFailsAtOnce,
    /// Pairs before and after the step are not kept apart.
    OneSide,
    /// Among words of equal length the step counts as lower than any message.
    StepFirst,
    /// Among words of equal length the highest is shown.
    HighestFirst,
    /// The contents shown for a receive lack the received word.
    ReceiveShownWithoutWord,
    /// The contents shown for a send have the sent word.
    SendShownWithWord,
    /// A receive puts its word in front instead of taking it away.
    ReceivePutsWord,
    /// Only the first step is walked.
    FirstStepOnly,
    /// The last machine is most significant.
    LastMachineFirst,
    /// A send or receive of the empty word has no pairs before it.
    EmptyWordIsLocal,
    /// A step to a control state without a root holds and counts nothing.
    RootlessTargetHolds,
    /// Pairs of a bad entry count also where its diagram is nowhere.
    BadCountsLost,
    /// The pair of a step's roots is not counted.
    RootsUncounted,
    /// A pair seen in an earlier item is not counted again.
    CountedOnceInAll,
    /// Steps are taken by transition, and within it by control state.
    TransitionsOutermost,
    /// Bad entries are tested before the steps.
    BadBeforeSteps,
    /// The root of a bad entry is read like one of the map, with 1 added.
    BadRootWithOneAdded,
    /// Steps from a control state to itself are left out.
    SelfStepsSkipped,
    /// The start is not tested.
    StartUntested,
    /// Only the first four messages of a word are followed.
    FourFollowed,
    /// A word ends after fifteen messages.
    FifteenTaken,
    /// The length of a word is kept in four bits, so that sixteen messages are none.
    SixteenAreNone,
    /// The contents shown for a receive have the first four messages of the received word.
    FourShown,
    /// The contents shown for a receive have a long word backwards.
    LongWordShownBackwards,
    /// A target that is lost past the fourth message of a sent word stays where it was before the word.
    LostTargetStays,
    /// A target that is lost past the fourth message of a sent word stops where it was lost.
    LostTargetStops,
    /// A message past the fourth that the diagram has no arc for is passed over.
    LostMessagePassedOver,
    /// A source that is lost past the fourth message of a received word has received what came before.
    LostSourceStops,
    /// Pairs count only where a word in queue order leads to them.
    WordsInOrderOnly,
    /// Pairs whose source leads to no final state do not count.
    DeadEndsUncounted,
    /// The start is asked with other messages than those that wait.
    Starts(Mistaken),
    /// What waits at the start is inside wherever it leads.
    StartNeedNotBeFinal,
    /// Empty queues are to be inside at the start, too.
    EmptyStartToo,
    /// At the start it is enough that empty queues are inside.
    EmptyStartEnough,
    /// Roots of steps and bad entries are taken from behind what waits at the start.
    WalkedFromBehindTheStart,
    /// What waits at the start is shown before the contents.
    StartShown,
    /// The messages that wait at the start count as pairs.
    StartCounted,
}

impl Trap {
    /// Mistakes that words of any length tell.
    pub const OF_ALL_WORDS: [Trap; 22] = [
        Trap::AppendAtTheVeryEnd,
        Trap::ReceiveFromTheVeryFront,
        Trap::DropLostTarget,
        Trap::LostTargetFailsAtOnce,
        Trap::OneSide,
        Trap::StepFirst,
        Trap::HighestFirst,
        Trap::ReceiveShownWithoutWord,
        Trap::SendShownWithWord,
        Trap::ReceivePutsWord,
        Trap::FirstStepOnly,
        Trap::LastMachineFirst,
        Trap::EmptyWordIsLocal,
        Trap::RootlessTargetHolds,
        Trap::BadCountsLost,
        Trap::RootsUncounted,
        Trap::CountedOnceInAll,
        Trap::TransitionsOutermost,
        Trap::BadBeforeSteps,
        Trap::BadRootWithOneAdded,
        Trap::SelfStepsSkipped,
        Trap::StartUntested,
    ];

    /// Mistakes that long words alone tell.
    pub const OF_LONG_WORDS: [Trap; 9] = [
        Trap::FourFollowed,
        Trap::FifteenTaken,
        Trap::SixteenAreNone,
        Trap::FourShown,
        Trap::LongWordShownBackwards,
        Trap::LostTargetStays,
        Trap::LostTargetStops,
        Trap::LostMessagePassedOver,
        Trap::LostSourceStops,
    ];

    /// Mistakes about words out of order, which lead to no final state.
    pub const OF_QUEUE_ORDER: [Trap; 2] = [Trap::WordsInOrderOnly, Trap::DeadEndsUncounted];

    /// Mistakes about what waits at the start.
    pub fn of_starting() -> impl Iterator<Item = Trap> {
        let others = [
            Trap::StartNeedNotBeFinal,
            Trap::EmptyStartToo,
            Trap::EmptyStartEnough,
            Trap::WalkedFromBehindTheStart,
            Trap::StartShown,
            Trap::StartCounted,
        ];
        Mistaken::ALL.map(Trap::Starts).into_iter().chain(others)
    }

    /// Whether a file tells it only if something waits at its start.
    pub fn is_of_starting(self) -> bool {
        Self::of_starting().any(|trap| trap == self)
    }

    pub fn all() -> impl Iterator<Item = Trap> {
        let of_steps = Self::OF_ALL_WORDS.into_iter().chain(Self::OF_LONG_WORDS).chain(Self::OF_QUEUE_ORDER);
        of_steps.chain(Self::of_starting())
    }
}

#[derive(Clone, Copy, Debug, PartialEq, Eq, Hash)]
struct Node {
    after: bool,
    source: usize,
    target: Option<usize>,
    /// Of the last message; 0 where words may be in any order.
    queue: usize,
}

/// A node, the contents shown if it fails, and how many messages the target has taken by then.
#[derive(Clone)]
struct Found {
    node: Node,
    contents: Vec<u8>,
    far: usize,
}

/// Messages of a word that the mistakes about long words take rightly.
const FOUR: usize = 4;

enum Item<'t> {
    Step { control_state: usize, number: usize, transition: &'t Transition },
    Bad { entry: usize },
}

/// What is searched for one item.
struct Search<'t> {
    kind: Kind,
    word: &'t [u8],
    before: Range<usize>,
    after: Range<usize>,
    is_bad: bool,
}

pub struct Judge<'t> {
    tables: &'t Tables,
    trap: Option<Trap>,
    counted: HashSet<Node>,
    pairs: usize,
    /// States that lead to a final one.
    alive: BTreeSet<usize>,
}

/// The verdict with a mistake, or without one.
pub fn verdict_with(tables: &Tables, trap: Option<Trap>) -> Verdict {
    Judge::new(tables, trap).verdict()
}

/// Whether a file tells a mistake of these, by more than how far contents are followed.
pub fn tells(tables: &Tables, verdict: &Verdict, trap: Trap) -> bool {
    verdict_with(tables, Some(trap)).without_far() != verdict.without_far()
}

/// The pairs of the items before the one that fails, or of all.
pub fn pairs_before_failing(tables: &Tables, trap: Option<Trap>) -> usize {
    let mut judge = Judge::new(tables, trap);
    judge.verdict();
    judge.pairs
}

impl<'t> Judge<'t> {
    fn new(tables: &'t Tables, trap: Option<Trap>) -> Self {
        let finals = (0..tables.pool_state_count).filter(|&state| tables.finals[state]).collect();
        let alive = Arcs::new(tables).leading_to(finals);
        Judge { tables, trap, counted: HashSet::new(), pairs: 0, alive }
    }

    fn is(&self, trap: Trap) -> bool {
        self.trap == Some(trap)
    }

    /// How far apart control states are that differ in one machine's state by one.
    fn weight(&self, machine: usize) -> usize {
        let states = &self.tables.states[..self.tables.machine_count];
        let lower = if self.is(Trap::LastMachineFirst) { &states[..machine] } else { &states[machine + 1..] };
        lower.iter().map(|&states| usize::from(states)).product()
    }

    fn root(&self, control_state: usize) -> Option<usize> {
        usize::from(self.tables.roots[control_state]).checked_sub(1)
    }

    /// Where the walk of an item begins.
    fn walked_from(&self, control_state: usize) -> Option<usize> {
        let root = self.root(control_state);
        if self.is(Trap::WalkedFromBehindTheStart) {
            return follow(self.tables, root, &starting_with(self.tables, None).concat());
        }
        root
    }

    fn starts_inside(&self, control_state: usize) -> bool {
        let mistaken = self.trap.and_then(|trap| if let Trap::Starts(mistaken) = trap { Some(mistaken) } else { None });
        let is_inside = |word: &[u8]| {
            let end = follow(self.tables, self.root(control_state), word);
            end.is_some_and(|state| self.tables.finals[state] || self.is(Trap::StartNeedNotBeFinal))
        };
        let waiting = starting_with(self.tables, mistaken).concat();
        match self.trap {
            Some(Trap::StartUntested) => true,
            Some(Trap::EmptyStartToo) => is_inside(&waiting) && is_inside(&[]),
            Some(Trap::EmptyStartEnough) => is_inside(&waiting) || is_inside(&[]),
            _ => is_inside(&waiting),
        }
    }

    fn items(&self) -> Vec<Item<'t>> {
        let tables = self.tables;
        let mut steps = Vec::new();
        for control_state in 0..tables.control_state_count {
            for (number, transition) in tables.used_transitions().iter().enumerate() {
                let machine = usize::from(transition.machine);
                let state = control_state / self.weight(machine) % usize::from(tables.states[machine]);
                let skipped = self.is(Trap::SelfStepsSkipped) && transition.from == transition.to;
                if state == usize::from(transition.from) && !skipped {
                    steps.push((control_state, number, transition));
                }
            }
        }
        if self.is(Trap::TransitionsOutermost) {
            steps.sort_by_key(|&(control_state, number, _)| (number, control_state));
        }
        if self.is(Trap::FirstStepOnly) {
            steps.truncate(1);
        }
        let mut items: Vec<Item> = steps
            .into_iter()
            .map(|(control_state, number, transition)| Item::Step { control_state, number, transition })
            .collect();
        let bad = (0..tables.bad_count).map(|entry| Item::Bad { entry });
        let at = if self.is(Trap::BadBeforeSteps) { 0 } else { items.len() };
        items.splice(at..at, bad);
        items
    }

    fn verdict(&mut self) -> Verdict {
        let tables = self.tables;
        let start =
            (0..tables.machine_count).map(|machine| usize::from(tables.starts[machine]) * self.weight(machine)).sum();
        if !self.starts_inside(start) {
            return Verdict::Outside;
        }
        let waiting = starting_with(tables, None).concat();
        let shown = |contents: Vec<u8>, is_after_start: bool| {
            if is_after_start {
                [&waiting[..], &contents].concat()
            } else {
                contents
            }
        };
        if self.is(Trap::StartCounted) {
            self.pairs += waiting.len();
        }
        for item in self.items() {
            match item {
                Item::Step { control_state, number, transition } => {
                    if let Some(Found { contents, far, .. }) = self.leaving(control_state, transition) {
                        let contents = shown(contents, self.is(Trap::StartShown));
                        return Verdict::Leaves { control_state, transition: number, contents, far };
                    }
                }
                Item::Bad { entry } => {
                    if let Some(Found { contents, .. }) = self.bad(entry) {
                        let contents = shown(contents, self.is(Trap::StartShown));
                        return Verdict::Bad { entry, contents };
                    }
                }
            }
        }
        Verdict::Closed { pairs: self.pairs as u64 }
    }

    fn leaving(&mut self, control_state: usize, transition: &'t Transition) -> Option<Found> {
        let source = self.walked_from(control_state)?;
        let weight = self.weight(usize::from(transition.machine));
        let next = control_state + usize::from(transition.to) * weight - usize::from(transition.from) * weight;
        let target = self.walked_from(next);
        if target.is_none() && self.is(Trap::RootlessTargetHolds) {
            return None;
        }
        let all = self.tables.message_sum;
        let own = self.tables.first_message(usize::from(transition.queue));
        let own_end = self.tables.first_message(usize::from(transition.queue) + 1);
        let (before, after) = match transition.kind {
            Kind::Send if self.is(Trap::AppendAtTheVeryEnd) => (0..all, 0..0),
            Kind::Send => (0..own_end, own_end..all),
            Kind::Receive if self.is(Trap::ReceiveFromTheVeryFront) => (0..0, 0..all),
            Kind::Receive => (0..own, own..all),
            Kind::Local => (0..0, 0..all),
        };
        let empty_as_local = self.is(Trap::EmptyWordIsLocal) && transition.length == 0;
        let kind = if empty_as_local { Kind::Local } else { transition.kind };
        let after = if empty_as_local { 0..all } else { after };
        let search = Search { kind, word: self.word_of(transition), before, after, is_bad: false };
        self.search(&search, Node { after: kind == Kind::Local, source, target, queue: 0 })
    }

    fn bad(&mut self, entry: usize) -> Option<Found> {
        let entry = self.tables.bad[entry];
        let source = self.walked_from(usize::from(entry.control_state))?;
        let root = usize::from(entry.root);
        let target = if self.is(Trap::BadRootWithOneAdded) { root.checked_sub(1) } else { Some(root) };
        let search =
            Search { kind: Kind::Local, word: &[], before: 0..0, after: 0..self.tables.message_sum, is_bad: true };
        self.search(&search, Node { after: true, source, target, queue: 0 })
    }

    /// Breadth first, each node with the word that found it. The first failing node, or none.
    fn search(&mut self, search: &Search, root: Node) -> Option<Found> {
        let mut known: HashSet<Node> = HashSet::from([self.key(root)]);
        let mut found = vec![Found { node: root, contents: vec![], far: 0 }];
        let mut next = 0;
        while next < found.len() {
            let Found { node, contents, far } = found[next].clone();
            if node.after && self.fails(search, node) {
                return Some(Found { node, contents, far });
            }
            for child in self.children(search, node) {
                if known.insert(self.key(child.node)) {
                    let contents = [&contents[..], &child.contents].concat();
                    found.push(Found { node: child.node, contents, far: far + child.far });
                }
            }
            next += 1;
        }
        let pairs: HashSet<Node> = found.iter().map(|found| Node { queue: 0, ..found.node }).collect();
        self.pairs += pairs.len();
        if self.is(Trap::RootsUncounted) && !search.is_bad {
            self.pairs -= 1;
        }
        if self.is(Trap::CountedOnceInAll) {
            self.pairs -= found.iter().filter(|found| self.counted.contains(&found.node)).count();
            self.counted.extend(found.iter().map(|found| found.node));
        }
        None
    }

    fn key(&self, node: Node) -> Node {
        Node { after: node.after && !self.is(Trap::OneSide), ..node }
    }

    fn fails(&self, search: &Search, node: Node) -> bool {
        let accepted = node.target.is_some_and(|target| self.tables.finals[target]);
        if self.is(Trap::LostTargetFailsAtOnce) && !search.is_bad && node.target.is_none() {
            return true;
        }
        self.tables.finals[node.source] && accepted == search.is_bad
    }

    /// The nodes one letter further, with what the letter adds to the contents shown and to what the target takes.
    fn children(&self, search: &Search, node: Node) -> Vec<Found> {
        let messages = if node.after { search.after.clone() } else { search.before.clone() };
        let mut children: Vec<Found> = messages
            .filter_map(|message| {
                let letter = vec![message as u8];
                let source = follow(self.tables, Some(node.source), &letter)?;
                let target = follow(self.tables, node.target, &letter);
                let queue = if self.is(Trap::WordsInOrderOnly) { self.tables.queue_of(letter[0]) } else { 0 };
                let far = usize::from(target.is_some());
                let child = Found { node: Node { source, target, queue, ..node }, contents: letter, far };
                (queue >= node.queue).then_some(child)
            })
            .collect();
        if !node.after {
            children.extend(self.across(search, node));
        }
        children.retain(|Found { node: child, .. }| {
            let dropped = if search.is_bad { !self.is(Trap::BadCountsLost) } else { self.is(Trap::DropLostTarget) };
            let is_dead = self.is(Trap::DeadEndsUncounted) && !self.alive.contains(&child.source);
            (child.target.is_some() || !dropped) && !is_dead
        });
        if self.is(Trap::HighestFirst) {
            children.reverse();
        }
        if self.is(Trap::StepFirst) {
            children.sort_by_key(|child| child.node.after == node.after);
        }
        children
    }

    fn across(&self, search: &Search, node: Node) -> Option<Found> {
        let sent_by_source = search.kind == Kind::Send || self.is(Trap::ReceivePutsWord);
        if sent_by_source {
            let (target, far) = self.read_word(Kind::Send, node.target, search.word);
            let shown = if self.is(Trap::SendShownWithWord) { search.word } else { &[] };
            return Some(Found { node: Node { after: true, target, ..node }, contents: shown.to_vec(), far });
        }
        let (source, _) = self.read_word(Kind::Receive, Some(node.source), search.word);
        let node = Node { after: true, source: source?, ..node };
        Some(Found { node, contents: self.shown(search.word), far: 0 })
    }

    fn word_of(&self, transition: &'t Transition) -> &'t [u8] {
        let word = transition.word();
        match self.trap {
            Some(Trap::FifteenTaken) => &word[..word.len().min(15)],
            Some(Trap::SixteenAreNone) => &word[..word.len() % 16],
            _ => word,
        }
    }

    /// Where a word leads, the target if it is sent, the source if it is received; and how many messages are taken.
    fn read_word(&self, kind: Kind, from: Option<usize>, word: &[u8]) -> (Option<usize>, usize) {
        let Some(mut state) = from else { return (None, 0) };
        let mut far = 0;
        for (place, &message) in word.iter().enumerate() {
            if place >= FOUR && self.is(Trap::FourFollowed) {
                break;
            }
            let Some(next) = follow(self.tables, Some(state), &[message]) else {
                let trap = self.trap.filter(|_| place >= FOUR);
                match (trap, kind) {
                    (Some(Trap::LostMessagePassedOver), _) => continue,
                    (Some(Trap::LostTargetStays), Kind::Send) => return (from, far),
                    (Some(Trap::LostTargetStops), Kind::Send) => return (Some(state), far),
                    (Some(Trap::LostSourceStops), Kind::Receive) => return (Some(state), far),
                    _ => return (None, far),
                }
            };
            state = next;
            far += 1;
        }
        (Some(state), far)
    }

    /// What the contents shown have of a received word, where it is crossed.
    fn shown(&self, word: &[u8]) -> Vec<u8> {
        match self.trap {
            Some(Trap::ReceiveShownWithoutWord) => vec![],
            Some(Trap::FourShown) => word[..word.len().min(FOUR)].to_vec(),
            Some(Trap::LongWordShownBackwards) if word.len() > FOUR => word.iter().rev().copied().collect(),
            _ => word.to_vec(),
        }
    }
}

//! The verdict decided from configurations and words, without a graph of pairs.
//!
//! A step is judged by the definition: contents are taken in order (shortest first, then lowest), each is made into a
//! configuration, the step is taken on it, and the result is tested. The search ends because two words are held alike
//! when no continuation can tell them apart: their parts to either side of the step act alike on every state of the
//! pool. Pairs are counted over the actions of all words of the queues named.
//!
//! Both are for small files. Where a pool has too many different actions there is no answer.

use std::collections::HashSet;
use std::ops::Range;

use crate::diagram::{accepts, far, follow, root};
use crate::read::{read, Kind, Tables, Transition};
use crate::verdict::{Reply, Verdict};

/// More words or actions than this are not looked at.
const LIMIT: usize = 6_000;

/// The file has too many different actions to decide it like this.
#[derive(Clone, Copy, Debug, PartialEq, Eq)]
pub struct TooLarge;

pub fn decide(file: &[u8]) -> Result<Reply, TooLarge> {
    match read(file) {
        Err(refusal) => Ok(Err(refusal)),
        Ok(tables) => Session::new(&tables).verdict().map(Ok),
    }
}

/// Whether a verdict holds on every word up to a length, by nothing but the definition: no search is cut short, and no
/// two words are held alike. Contents shown that are longer are tested by themselves.
pub fn confirm(tables: &Tables, verdict: &Verdict, longest: usize) -> bool {
    let session = Session::new(tables);
    let words = session.words_in_queue_order(longest);
    let on_words = session.first_failing(&words);
    match verdict {
        Verdict::Closed { .. } => matches!(on_words, Verdict::Closed { .. }),
        Verdict::Leaves { contents, .. } | Verdict::Bad { contents, .. } if contents.len() > longest => {
            order_of(verdict) < order_of(&on_words) && session.fails(verdict)
        }
        _ => on_words == *verdict,
    }
}

/// Where the item that decides stands among the items; *closed* comes after them all.
fn order_of(verdict: &Verdict) -> (usize, usize, usize) {
    match *verdict {
        Verdict::Outside => (0, 0, 0),
        Verdict::Leaves { control_state, transition, .. } => (1, control_state, transition),
        Verdict::Bad { entry, .. } => (2, entry, 0),
        Verdict::Closed { .. } => (3, 0, 0),
    }
}

/// How many contents of one length fail like those shown by a *leaves*.
pub fn competitors(tables: &Tables, control_state: usize, transition: usize, length: usize) -> usize {
    let session = Session::new(tables);
    let machines = &session.control_states[control_state];
    let step = &tables.transitions[transition];
    let words = session.words_in_queue_order(length);
    words.iter().filter(|word| word.len() == length && session.leaves(machines, step, word)).count()
}

/// What a word does to each state of the pool: where it leads from there.
type Action = Vec<Option<usize>>;

#[derive(Clone, Debug, PartialEq, Eq)]
struct Configuration {
    machines: Vec<u8>,
    queues: Vec<Vec<u8>>,
}

struct Session<'t> {
    tables: &'t Tables,
    /// The states of the machines for each control state, in the order of the numbers.
    control_states: Vec<Vec<u8>>,
}

impl<'t> Session<'t> {
    fn new(tables: &'t Tables) -> Self {
        let mut control_states = vec![vec![]];
        for &states in &tables.states[..tables.machine_count] {
            // Machine 0 is most significant, so each machine varies faster than those before it.
            control_states = control_states
                .into_iter()
                .flat_map(|earlier| (0..states).map(move |state| [&earlier[..], &[state]].concat()))
                .collect();
        }
        Session { tables, control_states }
    }

    fn root_of(&self, machines: &[u8]) -> Option<usize> {
        let number = self.control_states.iter().position(|states| states == machines)?;
        root(self.tables, number)
    }

    fn inside(&self, configuration: &Configuration) -> bool {
        let word = configuration.queues.concat();
        accepts(self.tables, self.root_of(&configuration.machines), &word)
    }

    /// How far the contents of all queues are followed from the root of the control state.
    fn far(&self, configuration: &Configuration) -> usize {
        far(self.tables, self.root_of(&configuration.machines), &configuration.queues.concat())
    }

    /// The same by every beginning: the longest that leads somewhere.
    fn far_by_beginnings(&self, configuration: &Configuration) -> usize {
        let (word, root) = (configuration.queues.concat(), self.root_of(&configuration.machines));
        let leads = |&taken: &usize| follow(self.tables, root, &word[..taken]).is_some();
        (0..=word.len()).filter(leads).max().unwrap_or(0)
    }

    /// The configuration after the step, or none if it cannot be taken.
    fn take(&self, transition: &Transition, before: &Configuration) -> Option<Configuration> {
        let mut after = before.clone();
        let machine = &mut after.machines[usize::from(transition.machine)];
        if *machine != transition.from {
            return None;
        }
        *machine = transition.to;
        let queue = &mut after.queues[usize::from(transition.queue)];
        match transition.kind {
            Kind::Local => {}
            Kind::Send => queue.extend(transition.word()),
            Kind::Receive => *queue = queue.strip_prefix(transition.word())?.to_vec(),
        }
        Some(after)
    }

    fn configuration(&self, machines: &[u8], word: &[u8]) -> Configuration {
        let mut queues = vec![Vec::new(); self.tables.queue_count];
        for &message in word {
            queues[self.tables.queue_of(message)].push(message);
        }
        Configuration { machines: machines.to_vec(), queues }
    }

    fn start(&self) -> Configuration {
        Configuration {
            machines: self.tables.starts[..self.tables.machine_count].to_vec(),
            queues: (0..self.tables.queue_count).map(|queue| self.tables.starting(queue).to_vec()).collect(),
        }
    }

    fn verdict(&self) -> Result<Verdict, TooLarge> {
        if !self.inside(&self.start()) {
            return Ok(Verdict::Outside);
        }
        let mut pairs = 0;
        for (control_state, machines) in self.control_states.iter().enumerate() {
            for (number, transition) in self.tables.used_transitions().iter().enumerate() {
                if machines[usize::from(transition.machine)] != transition.from {
                    continue;
                }
                if let Some(contents) = self.leaving_contents(machines, transition)? {
                    let far = self.far(&self.after(machines, transition, &contents).expect("the step is possible"));
                    return Ok(Verdict::Leaves { control_state, transition: number, contents, far });
                }
                pairs += self.pairs_of_step(machines, transition)?;
            }
        }
        for (number, entry) in self.tables.used_bad_entries().iter().enumerate() {
            let source = root(self.tables, usize::from(entry.control_state));
            let bad = Some(usize::from(entry.root));
            let both = |word: &[u8]| self.is_bad(number, word);
            if let Some(contents) = self.first_word(source, |word| self.action(word), both)? {
                return Ok(Verdict::Bad { entry: number, contents });
            }
            pairs += self.pairs_of_bad_entry(source, bad)?;
        }
        Ok(Verdict::Closed { pairs: pairs as u64 })
    }

    /// The first contents that are inside, allow the step, and are outside after it.
    fn leaving_contents(&self, machines: &[u8], transition: &Transition) -> Result<Option<Vec<u8>>, TooLarge> {
        let leaves = |word: &[u8]| self.leaves(machines, transition, word);
        self.first_word(self.root_of(machines), |word| self.parts(transition, word), leaves)
    }

    fn leaves(&self, machines: &[u8], transition: &Transition, word: &[u8]) -> bool {
        self.inside(&self.configuration(machines, word))
            && self.after(machines, transition, word).is_some_and(|after| !self.inside(&after))
    }

    /// The configuration that a step leads to from contents, if they allow it.
    fn after(&self, machines: &[u8], transition: &Transition, word: &[u8]) -> Option<Configuration> {
        self.take(transition, &self.configuration(machines, word))
    }

    /// Every contents up to a length, shortest first and then lowest.
    fn words_in_queue_order(&self, longest: usize) -> Vec<Vec<u8>> {
        let mut words = vec![vec![]];
        let mut shorter = 0..1;
        for _ in 0..longest {
            for index in shorter.clone() {
                let word: Vec<u8> = words[index].clone();
                words.extend(self.messages_behind(&word).map(|message| [&word[..], &[message]].concat()));
            }
            shorter = shorter.end..words.len();
        }
        words
    }

    /// The verdict on these words alone; the number of pairs is 0.
    fn first_failing(&self, words: &[Vec<u8>]) -> Verdict {
        if !self.inside(&self.start()) {
            return Verdict::Outside;
        }
        for (control_state, machines) in self.control_states.iter().enumerate() {
            for (transition, step) in self.tables.used_transitions().iter().enumerate() {
                if let Some(contents) = words.iter().find(|word| self.leaves(machines, step, word)) {
                    let far = self.after(machines, step, contents).map_or(0, |after| self.far_by_beginnings(&after));
                    return Verdict::Leaves { control_state, transition, contents: contents.clone(), far };
                }
            }
        }
        for entry in 0..self.tables.bad_count {
            if let Some(contents) = words.iter().find(|word| self.is_bad(entry, word)) {
                return Verdict::Bad { entry, contents: contents.clone() };
            }
        }
        Verdict::Closed { pairs: 0 }
    }

    /// Whether the item that a verdict names fails on the contents it shows, and those after the step are followed as far
    /// as it says.
    fn fails(&self, verdict: &Verdict) -> bool {
        match verdict {
            Verdict::Leaves { control_state, transition, contents, far } => {
                let (machines, step) = (&self.control_states[*control_state], &self.tables.transitions[*transition]);
                let after = self.after(machines, step, contents);
                self.leaves(machines, step, contents)
                    && after.is_some_and(|after| self.far_by_beginnings(&after) == *far)
            }
            Verdict::Bad { entry, contents } => self.is_bad(*entry, contents),
            Verdict::Closed { .. } | Verdict::Outside => false,
        }
    }

    fn is_bad(&self, entry: usize, word: &[u8]) -> bool {
        let entry = &self.tables.bad[entry];
        let own = root(self.tables, usize::from(entry.control_state));
        accepts(self.tables, own, word) && accepts(self.tables, Some(usize::from(entry.root)), word)
    }

    /// What decides how a word fares before and after the step, whatever is added to its end: the action of what
    /// stands before the step's place, how much of the received word is there, and the action of the rest. None where
    /// the queue does not begin with the received word and never will, since then the step is not taken.
    fn parts(&self, transition: &Transition, word: &[u8]) -> Option<(Action, usize, Action)> {
        let queue = usize::from(transition.queue);
        let queue_starts = word.iter().take_while(|&&message| self.tables.queue_of(message) < queue).count();
        let queue_ends = word.iter().take_while(|&&message| self.tables.queue_of(message) <= queue).count();
        let (before, taken) = match transition.kind {
            Kind::Local => (word.len(), 0),
            Kind::Send => (queue_ends, 0),
            Kind::Receive => (queue_starts, transition.word().len().min(queue_ends - queue_starts)),
        };
        let (earlier, rest) = word.split_at(before);
        let (taken, later) = rest.split_at(taken);
        if transition.kind == Kind::Receive {
            let is_whole = taken.len() == transition.word().len();
            if !transition.word().starts_with(taken) || !(is_whole || later.is_empty()) {
                return None;
            }
        }
        Some((self.action(earlier), taken.len(), self.action(later)))
    }

    fn action(&self, word: &[u8]) -> Action {
        (0..self.tables.pool_state_count).map(|state| follow(self.tables, Some(state), word)).collect()
    }

    /// The first contents, shortest first and then lowest, that pass a test which words nowhere in the source fail.
    /// `alike` gives equal values only for words that stay alike when the same messages are added. Contents are in queue
    /// order, so words that end in different queues do not go on with the same messages, and are not held alike.
    fn first_word<A: Eq + std::hash::Hash>(
        &self,
        source: Option<usize>,
        alike: impl Fn(&[u8]) -> A,
        test: impl Fn(&[u8]) -> bool,
    ) -> Result<Option<Vec<u8>>, TooLarge> {
        if source.is_none() {
            return Ok(None);
        }
        let mut known = HashSet::from([(0, alike(&[]))]);
        let mut words = vec![vec![]];
        while !words.is_empty() {
            let mut longer = Vec::new();
            for word in words {
                if test(&word) {
                    return Ok(Some(word));
                }
                for message in self.messages_behind(&word) {
                    let next = [&word[..], &[message]].concat();
                    let key = (self.tables.queue_of(message), alike(&next));
                    if follow(self.tables, source, &next).is_some() && known.insert(key) {
                        longer.push(next);
                    }
                }
                if known.len() > LIMIT {
                    return Err(TooLarge);
                }
            }
            words = longer;
        }
        Ok(None)
    }

    /// The messages that contents can go on with.
    fn messages_behind(&self, word: &[u8]) -> Range<u8> {
        let queue = word.last().map_or(0, |&message| self.tables.queue_of(message));
        self.tables.first_message(queue) as u8..self.tables.message_sum as u8
    }

    /// The different actions of all words of some queues.
    fn actions(&self, queues: Range<usize>) -> Result<Vec<Action>, TooLarge> {
        let messages = self.tables.first_message(queues.start)..self.tables.first_message(queues.end);
        let letters: Vec<Action> = messages.map(|message| self.action(&[message as u8])).collect();
        let mut actions = vec![self.action(&[])];
        let mut known = HashSet::from([actions[0].clone()]);
        let mut next = 0;
        while next < actions.len() {
            for letter in &letters {
                let longer: Action = actions[next].iter().map(|state| state.and_then(|state| letter[state])).collect();
                if known.insert(longer.clone()) {
                    actions.push(longer);
                }
            }
            if actions.len() > LIMIT {
                return Err(TooLarge);
            }
            next += 1;
        }
        Ok(actions)
    }

    fn pairs_of_step(&self, machines: &[u8], transition: &Transition) -> Result<usize, TooLarge> {
        let mut machines_after = machines.to_vec();
        machines_after[usize::from(transition.machine)] = transition.to;
        let source = self.root_of(machines);
        let target = self.root_of(&machines_after);
        if source.is_none() {
            return Ok(0);
        }
        let (queue, all) = (usize::from(transition.queue), self.tables.queue_count);
        let word = transition.word();
        let somewhere = |&(source, _): &Pair| source.is_some();
        let (before, crossed, later) = match transition.kind {
            Kind::Local => (HashSet::new(), HashSet::from([(source, target)]), 0..all),
            Kind::Send => {
                let before = self.read_by_both(&HashSet::from([(source, target)]), 0..queue + 1)?;
                let crossed = before.iter().map(|&(s, t)| (s, follow(self.tables, t, word))).collect();
                (before, crossed, queue + 1..all)
            }
            Kind::Receive => {
                let before = self.read_by_both(&HashSet::from([(source, target)]), 0..queue)?;
                let crossed = before.iter().map(|&(s, t)| (follow(self.tables, s, word), t)).collect();
                (before, crossed, queue..all)
            }
        };
        let after = self.read_by_both(&crossed, later)?;
        Ok(before.iter().filter(|pair| somewhere(pair)).count() + after.iter().filter(|pair| somewhere(pair)).count())
    }

    fn pairs_of_bad_entry(&self, source: Option<usize>, bad: Option<usize>) -> Result<usize, TooLarge> {
        if source.is_none() {
            return Ok(0);
        }
        let pairs = self.read_by_both(&HashSet::from([(source, bad)]), 0..self.tables.queue_count)?;
        Ok(pairs.iter().filter(|(source, bad)| source.is_some() && bad.is_some()).count())
    }

    /// Where both of a pair stand after any word of some queues.
    fn read_by_both(&self, pairs: &HashSet<Pair>, queues: Range<usize>) -> Result<HashSet<Pair>, TooLarge> {
        let mut reached = HashSet::new();
        for action in self.actions(queues)? {
            let apply = |state: Option<usize>| state.and_then(|state| action[state]);
            reached.extend(pairs.iter().map(|&(source, target)| (apply(source), apply(target))));
        }
        Ok(reached)
    }
}

/// Source and target, each a state or nowhere.
type Pair = (Option<usize>, Option<usize>);

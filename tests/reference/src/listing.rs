//! The numbers of a session file in turn, whatever the tables hold, with a mistake or without one.

use crate::flat::{Flat, KIND, LENGTH, QUEUE, WORD};
use crate::generate::draft::Role;
use crate::read::{
    BAD_ENTRIES, CONTROL_STATES, MACHINES, MESSAGES, POOL_STATES, QUEUES, STARTING, TRANSITIONS, WORD_LENGTH,
};
use crate::writing_traps::WritingTrap;

/// Lists the numbers of a file, whatever the tables hold. Where a count passes its table, the table ends the list.
pub(crate) struct Lister<'t> {
    flat: &'t Flat,
    trap: Option<WritingTrap>,
    numbers: Vec<(Role, usize)>,
}

impl<'t> Lister<'t> {
    pub(crate) fn listed(flat: &'t Flat, trap: Option<WritingTrap>) -> Vec<(Role, usize)> {
        let mut lister = Lister { flat, trap, numbers: Vec::new() };
        lister.machines();
        if lister.is(WritingTrap::StartBeforeField2) {
            lister.starting();
        }
        lister.queues();
        if !lister.is(WritingTrap::StartBeforeField2) && !lister.is(WritingTrap::StartBehindField3) {
            lister.starting();
        }
        lister.transitions();
        if lister.is(WritingTrap::StartBehindField3) {
            lister.starting();
        }
        lister.pool();
        if lister.is(WritingTrap::MapLast) {
            lister.bad_list();
            lister.map();
        } else {
            lister.map();
            lister.bad_list();
        }
        lister.numbers
    }

    fn is(&self, trap: WritingTrap) -> bool {
        self.trap == Some(trap)
    }

    fn put(&mut self, role: Role, number: impl Into<usize>) {
        self.numbers.push((role, number.into()));
    }

    fn used_queues(&self) -> usize {
        self.flat.queues().min(QUEUES)
    }

    /// Whether the new form is written.
    fn resumes(&self) -> bool {
        let mut waits = self.flat.starting_lengths()[..self.used_queues()].iter().map(|&length| length > 0);
        match self.trap {
            Some(WritingTrap::NewFormAlways) => true,
            Some(WritingTrap::FirstFormAlways) => false,
            Some(WritingTrap::FirstQueueDecides) => waits.next().unwrap_or(false),
            Some(WritingTrap::LastQueueDecides) => waits.next_back().unwrap_or(false),
            Some(WritingTrap::EveryQueueDecides) => waits.all(|waits| waits),
            _ => waits.any(|waits| waits),
        }
    }

    fn starting(&mut self) {
        if !self.resumes() || self.is(WritingTrap::StartLeftOut) {
            return;
        }
        let mut queues: Vec<usize> = (0..self.used_queues()).collect();
        match self.trap {
            Some(WritingTrap::LastQueueLeftOut) => drop(queues.pop()),
            Some(WritingTrap::QueuesBackwards) => queues.reverse(),
            _ => {}
        }
        let lengths_first = self.is(WritingTrap::LengthsWrittenFirst);
        if lengths_first {
            queues.iter().for_each(|&queue| self.put(Role::StartingLength, self.flat.starting_lengths()[queue]));
        }
        for queue in queues {
            if !lengths_first {
                self.put(Role::StartingLength, self.flat.starting_lengths()[queue]);
            }
            self.waiting(queue);
        }
    }

    fn waiting(&mut self, queue: usize) {
        let length = usize::from(self.flat.starting_lengths()[queue]).min(STARTING);
        let length = if self.is(WritingTrap::WholeRoomsWritten) { STARTING } else { length };
        let room = self.flat.starting().nth(queue).expect("every queue has a room");
        let mut messages = room[..length].to_vec();
        if self.is(WritingTrap::StartBackwards) {
            messages.reverse();
        }
        let before: usize = self.flat.messages()[..queue].iter().map(|&messages| usize::from(messages)).sum();
        let counted_from = if self.is(WritingTrap::StartOfTheirQueue) { before } else { 0 };
        for message in messages {
            self.put(Role::StartingMessage, usize::from(message).saturating_sub(counted_from));
        }
    }

    fn machines(&mut self) {
        let is_raised = self.resumes() && !self.is(WritingTrap::MachinesAsTheyAre);
        self.put(Role::Machines, self.flat.machines() + if is_raised { MACHINES } else { 0 });
        let used = self.flat.machines().min(MACHINES);
        let pairs: Vec<(u8, u8)> =
            self.flat.states()[..used].iter().copied().zip(self.flat.starts().iter().copied()).collect();
        if self.is(WritingTrap::StartsBesideStates) {
            for (states, start) in pairs {
                self.put(Role::States, states);
                self.put(Role::Start, start);
            }
            return;
        }
        pairs.iter().for_each(|&(states, _)| self.put(Role::States, states));
        pairs.iter().for_each(|&(_, start)| self.put(Role::Start, start));
    }

    fn queues(&mut self) {
        self.put(Role::Queues, self.flat.queues());
        if self.is(WritingTrap::SumWritten) {
            self.put(Role::Messages, self.flat.sum());
        }
        for &messages in &self.flat.messages()[..self.flat.queues().min(QUEUES)] {
            self.put(Role::Messages, messages);
        }
    }

    fn transitions(&mut self) {
        self.put(Role::Transitions, self.flat.transitions());
        for row in self.flat.rows().take(self.flat.transitions().min(TRANSITIONS)) {
            self.transition(row);
        }
    }

    fn transition(&mut self, row: &[u8]) {
        let (from, to) = if self.is(WritingTrap::FromAndToExchanged) { (row[2], row[1]) } else { (row[1], row[2]) };
        self.put(Role::Machine, row[0]);
        self.put(Role::From, from);
        self.put(Role::To, to);
        let kind = match (row[KIND], self.trap) {
            (kind @ (1 | 2), Some(WritingTrap::KindsExchanged)) => 3 - kind,
            (_, Some(WritingTrap::EmptyWordIsLocal)) if row[LENGTH] == 0 => 0,
            (kind, _) => kind,
        };
        self.put(Role::Kind, kind);
        if kind == 0 && !self.is(WritingTrap::LocalGoesOn) {
            return;
        }
        self.put(Role::Queue, row[QUEUE]);
        let length = usize::from(row[LENGTH]);
        let length = match self.trap {
            Some(WritingTrap::FourMessages) => length.min(4),
            Some(WritingTrap::SixteenAreNone) => length % WORD_LENGTH,
            _ => length,
        };
        self.put(Role::WordLength, length);
        let before: usize =
            self.flat.messages().iter().take(usize::from(row[QUEUE])).map(|&messages| usize::from(messages)).sum();
        let counted_from = if self.is(WritingTrap::MessagesOfTheirQueue) { before } else { 0 };
        for &message in &row[WORD..][..length.min(WORD_LENGTH)] {
            self.put(Role::WordMessage, usize::from(message).saturating_sub(counted_from));
        }
    }

    fn pool(&mut self) {
        self.put(Role::PoolStates, self.flat.pool_states());
        let used = self.flat.pool_states().min(POOL_STATES);
        let marks_first = self.is(WritingTrap::MarksFirst);
        if marks_first {
            self.flat.finals()[..used].iter().for_each(|&mark| self.put(Role::Final, mark));
        }
        for (&mark, arcs) in self.flat.finals().iter().zip(self.flat.arcs()).take(used) {
            if !marks_first {
                self.put(Role::Final, mark);
            }
            self.arcs(arcs);
        }
    }

    fn arcs(&mut self, arcs: &[u8]) {
        let all = &arcs[..self.flat.sum().min(MESSAGES)];
        let mut listed: Vec<(usize, u8)> = all.iter().copied().enumerate().collect();
        if self.is(WritingTrap::MissingArcsWritten) {
            listed.iter_mut().for_each(|(_, arc)| *arc = (*arc).max(1));
        }
        listed.retain(|&(_, arc)| arc > 0);
        if self.is(WritingTrap::ArcsDescending) {
            listed.reverse();
        }
        self.put(Role::Arcs, listed.len());
        for (message, arc) in listed {
            let [message, target] = [(Role::ArcMessage, message), (Role::ArcTarget, usize::from(arc - 1))];
            let in_turn = if self.is(WritingTrap::TargetsFirst) { [target, message] } else { [message, target] };
            self.numbers.extend(in_turn);
        }
    }

    fn map(&mut self) {
        let product = self.flat.product().min(CONTROL_STATES);
        let count = match self.trap {
            Some(WritingTrap::RootsEndWithTheLast) => {
                self.flat.roots()[..product].iter().rposition(|&root| root > 0).map_or(0, |last| last + 1)
            }
            Some(WritingTrap::AllRootsWritten) => CONTROL_STATES,
            _ => product,
        };
        self.flat.roots()[..count].iter().for_each(|&root| self.put(Role::Root, root));
    }

    fn bad_list(&mut self) {
        self.put(Role::BadEntries, self.flat.bad_entries());
        for entry in self.flat.bad().take(self.flat.bad_entries().min(BAD_ENTRIES)) {
            let in_turn = [(Role::BadControlState, usize::from(entry[0])), (Role::BadRoot, usize::from(entry[1]))];
            self.numbers.extend(in_turn);
            if self.is(WritingTrap::BadRootsFirst) {
                let last = self.numbers.len() - 1;
                self.numbers.swap(last - 1, last);
            }
        }
    }
}

//! The files to compare by: whole ones of every verdict, and damaged ones, of both forms. A seed and a number give a file.

use reference_checker::generate::draft::{encode, Draft, Number};
use reference_checker::generate::plan::{random_plan, Shape};
use reference_checker::generate::verdicts::{Plans, SHAPE};
use reference_checker::random::Random;
use reference_checker::read::{BAD_ENTRIES, CONTROL_STATES, LONGEST_FILE, MACHINES, MESSAGES, POOL_STATES, QUEUES};
use reference_checker::read::{TRANSITIONS, WORD_LENGTH};
use swarmbanner::lent::STARTING_MOST;

/// Small files with one count that may be at its limit.
const WIDE: [Shape; 5] = [
    Shape { control_states: CONTROL_STATES, machines: MACHINES, ..Shape::SMALL },
    Shape { messages: MESSAGES, queues: QUEUES, ..Shape::SMALL },
    Shape { transitions: TRANSITIONS, ..Shape::SMALL },
    Shape { pool_states: POOL_STATES, messages: 2, queues: 2, ..Shape::SMALL },
    Shape { bad: BAD_ENTRIES, ..Shape::SMALL },
];

/// Diagrams of any size, and so few items that they are checked in a moment.
const DEEP: Shape = Shape {
    machines: 2,
    control_states: 4,
    queues: QUEUES,
    messages: MESSAGES,
    transitions: 4,
    pool_states: POOL_STATES,
    bad: 4,
};

/// Lengths and messages for queues that have so many messages each.
fn any_start(messages: &[u8], random: &mut Random) -> Vec<u8> {
    let (is_empty, is_wrong) = (random.chance(20), random.chance(20));
    let sum: usize = messages.iter().map(|&count| usize::from(count)).sum();
    let mut first = 0;
    let queue = |&count: &u8| {
        let own = (first, first + usize::from(count) - 1);
        first += usize::from(count);
        let length = match random.below(8) {
            _ if is_empty => 0,
            0..3 => 0,
            3..6 => random.between(1, 3),
            6 => STARTING_MOST,
            _ => random.between(1, STARTING_MOST + usize::from(is_wrong)),
        };
        let (least, most) = if is_wrong { (0, sum) } else { own };
        let message = |_| random.between(least, most) as u8;
        [length as u8].into_iter().chain((0..length).map(message)).collect::<Vec<u8>>()
    };
    messages.iter().flat_map(queue).collect()
}

pub struct Files {
    plans: Plans,
}

impl Files {
    pub fn new() -> Self {
        Files { plans: Plans::new(0) }
    }

    /// The file with this number, and the source of all that is chosen about it afterwards.
    pub fn file(&mut self, seed: u64, number: u64) -> (Vec<u8>, &mut Random) {
        // Streams whose seeds lie a step of the source apart would overlap, so the number is mixed in.
        let mixed = Random::new(seed).below(usize::MAX) as u64 ^ Random::new(number).below(usize::MAX) as u64;
        self.plans.random = Random::new(mixed);
        let file = match self.plans.random.below(1000) {
            0..350 => self.plans.small().bytes(),
            350..430 => self.raw(&Shape::SMALL),
            430..450 => self.with_words_of_any_length(),
            450..460 => self.plans.mended(&Shape::MEDIUM).bytes(),
            460..461 => self.raw(&DEEP),
            461..480 => self.wide(),
            480..500 => self.with_any_start(),
            500..660 => self.with_number_damaged(),
            660..740 => self.cut(),
            740..780 => self.extended(),
            780..900 => self.with_bytes_changed(),
            900..940 => self.joined(),
            _ => self.random_bytes(),
        };
        (file, &mut self.plans.random)
    }

    fn raw(&mut self, shape: &Shape) -> Vec<u8> {
        random_plan(&mut self.plans.random, shape).bytes()
    }

    fn wide(&mut self) -> Vec<u8> {
        let shape = WIDE[self.plans.random.below(WIDE.len())];
        self.raw(&shape)
    }

    fn with_words_of_any_length(&mut self) -> Vec<u8> {
        let random = &mut self.plans.random;
        let mut plan = random_plan(random, &SHAPE);
        let queues: Vec<_> = (0..plan.queues.len()).map(|queue| plan.messages_of(queue)).collect();
        for action in plan.transitions.iter_mut().filter_map(|transition| transition.action.as_mut()) {
            let messages = &queues[action.queue];
            let length = random.between(0, WORD_LENGTH);
            action.word = (0..length).map(|_| random.between(messages.start, messages.end - 1)).collect();
        }
        plan.bytes()
    }

    /// The form with starting contents, which are any: none at all, as many as there can be, one more, messages of another queue.
    fn with_any_start(&mut self) -> Vec<u8> {
        let mut file = self.raw(&SHAPE);
        if usize::from(file[0]) > MACHINES {
            return file;
        }
        let random = &mut self.plans.random;
        let (machines, counts) = (usize::from(file[0]), 2 * usize::from(file[0]) + 1);
        let queues = usize::from(file[counts]);
        let begin = counts + 1 + queues;
        let starting = any_start(&file[counts + 1..begin], random);
        file[0] = (machines + MACHINES) as u8;
        file.splice(begin..begin, starting);
        file
    }

    fn small_draft(&mut self) -> Draft {
        random_plan(&mut self.plans.random, &SHAPE).draft()
    }

    /// Another number in the place of one: at the ends of its range, past them, or in a form that is not allowed.
    fn with_number_damaged(&mut self) -> Vec<u8> {
        let draft = self.small_draft();
        let random = &mut self.plans.random;
        let position = random.below(draft.numbers.len());
        let Number { least, most, value, .. } = draft.numbers[position];
        let raw = match random.below(8) {
            0 => encode(most + 1),
            1 => encode(least.saturating_sub(1)),
            2 => encode(most),
            3 => encode(random.between(least, most)),
            4 => encode(random.below(1 << 14)),
            5 => vec![128 | (value % 128) as u8, 0],
            6 => vec![128 | random.byte(), 128 | random.byte()],
            _ => vec![],
        };
        draft.bytes_with(position, &raw)
    }

    fn cut(&mut self) -> Vec<u8> {
        let mut file = self.raw(&SHAPE);
        let length = self.plans.random.below(file.len());
        file.truncate(length);
        file
    }

    /// Bytes after the last field, sometimes past the longest file.
    fn extended(&mut self) -> Vec<u8> {
        let mut file = self.raw(&SHAPE);
        let random = &mut self.plans.random;
        match random.below(40) {
            0 => file.resize(LONGEST_FILE + random.below(3), random.byte()),
            _ => file.extend((0..random.between(1, 9)).map(|_| random.byte())),
        }
        file
    }

    fn with_bytes_changed(&mut self) -> Vec<u8> {
        let mut file = self.raw(&SHAPE);
        let random = &mut self.plans.random;
        for _ in 0..random.between(1, 3) {
            let at = random.below(file.len());
            match random.below(6) {
                0 => file[at] = random.byte(),
                1 => file[at] ^= 1 << random.below(8),
                2 => file[at] = file[at].wrapping_add(1),
                3 => file[at] = file[at].wrapping_sub(1),
                4 => file.insert(at, random.below(5) as u8),
                _ if file.len() > 1 => drop(file.remove(at)),
                _ => {}
            }
        }
        file
    }

    /// The beginning of one file and the end of another.
    fn joined(&mut self) -> Vec<u8> {
        let (mut first, second) = (self.raw(&SHAPE), self.raw(&SHAPE));
        let random = &mut self.plans.random;
        first.truncate(random.below(first.len()));
        first.extend(&second[random.below(second.len())..]);
        first
    }

    fn random_bytes(&mut self) -> Vec<u8> {
        let random = &mut self.plans.random;
        let most = if random.chance(20) { 255 } else { random.between(1, 6) };
        (0..random.between(0, 80)).map(|_| random.between(0, most) as u8).collect()
    }
}

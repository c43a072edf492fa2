//! Questions of membership: every refusal, yes and no, and no for every reason.

use std::ops::Range;

use super::disorder::{add_some_harmless, alive, Harmless};
use super::document;
use super::plan::{fresh_plan, Plan, Shape};
use super::reading::{fresh_reading_cases, Expected, Generator};
use super::resuming_files::form_files;
use super::row_9::refused_about_order;
use super::verdicts::{contents_after, Plans};
use crate::membership::Member;
use crate::random::Random;
use crate::read::Refusal;
use crate::start_features::ENOUGH_OF_FORM;
use crate::stream::Question;
use crate::verdict::Verdict;
use crate::walk::control_state_after;

/// What a question was made for.
#[derive(Clone, Copy, Debug, PartialEq, Eq)]
pub enum Purpose {
    Document,
    /// Contents on a way through the diagram, to a final state if there is one.
    OnTheWay,
    /// Any contents in queue order.
    InOrder,
    NoRoot,
    /// Refused by 11, whatever the contents.
    ControlState,
    /// Refused by 12 at the place given.
    MessageTooHigh(usize),
    /// Refused by 13 at the place given.
    OutOfOrder(usize),
    /// The same, of contents that the arcs of a file that is read lead along.
    OutOfOrderAlongArcs(usize),
    /// In the set or not, of a file that is out of order where it does not matter.
    Harmless,
    /// Contents of such a file that lead into a dead end.
    IntoDeadEnd,
    /// Refused by 9, or by what comes before it in a file that is out of order, whatever is asked.
    WordOutOfOrder(Refusal),
    RefusedFile,
    /// Contents that belong and are long.
    Long,
    /// Contents that are followed so far.
    Far(usize),
    /// Contents asked of a file that resumes.
    Waiting,
    /// A file of either form, and what refuses it.
    OfEitherForm(Option<Refusal>),
}

/// What questions about files that are out of order can be.
pub const ABOUT_ORDER: [&str; 6] = [
    "yes, of a file out of order where it does not matter",
    "no, of a file out of order where it does not matter",
    "no, contents that lead into a dead end",
    "refused 13, contents that arcs lead along",
    "refused 9",
    "refused before 9 is asked",
];

impl Purpose {
    /// Which of these a question is, by its reply.
    pub fn about_order(self, reply: &Result<Member, Refusal>) -> Option<&'static str> {
        let [yes, no, dead_end, along_arcs, refused, refused_before] = ABOUT_ORDER;
        match (self, reply) {
            (Purpose::Harmless, Ok(Member { belongs: true, .. })) => Some(yes),
            (Purpose::Harmless, Ok(_)) => Some(no),
            (Purpose::IntoDeadEnd, _) => Some(dead_end),
            (Purpose::OutOfOrderAlongArcs(_), _) => Some(along_arcs),
            (Purpose::WordOutOfOrder(Refusal { number: 9, .. }), _) => Some(refused),
            (Purpose::WordOutOfOrder(_), _) => Some(refused_before),
            _ => None,
        }
    }
}

pub fn questions(seed: u64) -> Vec<(Purpose, Question)> {
    let mut random = Random::new(seed);
    let mut questions = document_questions();
    for _ in 0..200 {
        let plan = fresh_plan(&mut random, &Shape::SMALL);
        questions.extend(on_the_way(&mut random, &plan));
        questions.push(in_order(&mut random, &plan));
        questions.push(control_state_too_high(&mut random, &plan));
        questions.push(message_too_high(&mut random, &plan));
        questions.extend(out_of_order(&mut random, &plan));
        questions.extend(no_root(&mut random, &plan));
    }
    questions.extend(about_order(seed));
    questions.extend(refused_files(&mut random, seed));
    questions.extend(about_far(seed));
    questions.extend(about_start(seed));
    questions
}

/// Files that are out of order somewhere: where it does not matter, or along a word that a root accepts.
fn about_order(seed: u64) -> Vec<(Purpose, Question)> {
    let mut files = Generator::fresh(seed + 7);
    let mut random = Random::new(seed + 9);
    let mut questions = vec![];
    for round in 0..100 {
        let mut plan = files.harmless_plan(Harmless::ALL[round % Harmless::ALL.len()]);
        add_some_harmless(&mut random, &mut plan);
        questions.extend((0..4).find_map(|_| along_arcs(&mut random, &plan)));
        questions
            .extend(along(&mut random, &plan, |last, queue| last <= queue).map(|asked| (Purpose::Harmless, asked)));
    }
    for (file, refusal) in refused_about_order(seed + 7, 10) {
        let contents = (0..random.below(3)).map(|_| random.byte()).collect();
        questions.push((Purpose::WordOutOfOrder(refusal), Question { file, control_state: random.below(4), contents }));
    }
    questions
}

/// Contents that are lost at every place, and those of hundreds and thousands of messages.
fn about_far(seed: u64) -> Vec<(Purpose, Question)> {
    let mut random = Random::new(seed + 11);
    let mut plans = Plans::fresh(seed + 11);
    let mut questions = vec![];
    for round in 0..240 {
        let plan = fresh_plan(&mut random, &Shape::SMALL);
        // Half of them have all the queues that such plans can have.
        if round % 2 == 0 || plan.queues.len() == Shape::SMALL.queues {
            questions.extend(lost_on_the_way(&mut random, &plan));
        }
        if round % 3 == 0 {
            questions.extend(first_message(&mut random, &plan));
        }
    }
    for _ in 0..50 {
        let plan = plans.losing();
        questions.extend(as_questions(&plan, &mut plans));
    }
    let lengths = [(0..30, 10..50), (0..12, 100..140), (0..7, 256..330), (0..4, 1_000..1_200)];
    for (rounds, messages) in lengths {
        for _ in rounds {
            questions.extend(of_loops(&mut random, messages.clone()));
        }
    }
    questions.extend((0..6).map(|_| lost_soon(&mut random)));
    questions
}

/// What waits at the start is asked of files that resume, and so are other contents: it has no part in the answer. And files of
/// either form.
fn about_start(seed: u64) -> Vec<(Purpose, Question)> {
    let mut plans = Plans::resuming(seed + 17);
    let mut questions = vec![];
    for _ in 0..48 {
        let plan = plans.any();
        let waiting = plan.starting.concat();
        let start = plan.start();
        questions.push((Purpose::Waiting, about(&plan, start, &waiting)));
        questions.push((Purpose::Waiting, about(&plan, start, &[])));
        questions.extend(behind(&mut plans.random, &plan, waiting).map(|asked| (Purpose::Waiting, asked)));
        let other = along(&mut plans.random, &plan, |last, queue| last <= queue);
        questions.extend(other.map(|asked| (Purpose::Waiting, asked)));
        questions.push((Purpose::Waiting, in_order(&mut plans.random, &plan).1));
    }
    for (file, refusal) in form_files(seed + 16, ENOUGH_OF_FORM, Clone::clone) {
        questions.push((Purpose::OfEitherForm(refusal), Question { file, control_state: 0, contents: vec![] }));
    }
    questions
}

/// Some contents at the start and more behind them, along arcs as far as these go.
fn behind(random: &mut Random, plan: &Plan, mut contents: Vec<usize>) -> Option<Question> {
    let (start, more) = (plan.start(), random.between(1, 3));
    let step = |state: usize, message: &usize| plan.pool[state].arcs.get(message).copied();
    let mut state = contents.iter().try_fold(plan.roots[start]?, step);
    for _ in 0..more {
        let queue = contents.last().map_or(0, |&message| plan.queue_of(message));
        let in_order: Vec<usize> = (plan.messages_of(queue).start..plan.message_sum()).collect();
        let arcs = state.map_or(vec![], |state| plan.pool[state].arcs.keys().copied().collect::<Vec<usize>>());
        let along: Vec<usize> = in_order.iter().copied().filter(|message| arcs.contains(message)).collect();
        let message = *random.pick(&along).or_else(|| random.pick(&in_order))?;
        state = state.and_then(|state| step(state, &message));
        contents.push(message);
    }
    Some(about(plan, start, &contents))
}

/// One message that a root has an arc for, to a state that is not final if there is one.
fn first_message(random: &mut Random, plan: &Plan) -> Option<(Purpose, Question)> {
    let control_state = random.below(plan.roots.len());
    let arcs = &plan.pool[plan.roots[control_state]?].arcs;
    let to_final = |is_final| {
        let led = arcs.iter().filter(move |(_, &target)| plan.pool[target].is_final == is_final);
        led.map(|(&message, _)| message).collect::<Vec<usize>>()
    };
    let message = random.pick(&to_final(false)).copied().or_else(|| random.pick(&to_final(true)).copied())?;
    Some((Purpose::Far(1), about(plan, control_state, &[message])))
}

/// Contents along arcs in order, then a message without an arc, then any.
fn lost_on_the_way(random: &mut Random, plan: &Plan) -> Option<(Purpose, Question)> {
    let mut question = along(random, plan, |last, queue| last <= queue)?;
    let taken = question.contents.len();
    let step = |state: usize, &message: &u8| plan.pool[state].arcs[&usize::from(message)];
    let state = question.contents.iter().fold(plan.roots[question.control_state]?, step);
    let queue = question.contents.last().map_or(0, |&message| plan.queue_of(message.into()));
    let without_arc: Vec<usize> = (plan.messages_of(queue).start..plan.message_sum())
        .filter(|message| !plan.pool[state].arcs.contains_key(message))
        .collect();
    let of_later: Vec<usize> = without_arc.iter().copied().filter(|&message| plan.queue_of(message) > queue).collect();
    let lost = *random.pick(&of_later).filter(|_| random.chance(50)).or_else(|| random.pick(&without_arc))?;
    let least = plan.messages_of(plan.queue_of(lost)).start;
    let mut rest: Vec<usize> = (0..random.below(4)).map(|_| random.between(least, plan.message_sum() - 1)).collect();
    rest.sort_by_key(|&message| plan.queue_of(message));
    question.contents.extend([lost].iter().chain(&rest).map(|&message| message as u8));
    Some((Purpose::Far(taken), question))
}

/// What a *leaves* shows, asked: the contents before the step belong, those after it do not.
fn as_questions(plan: &Plan, plans: &mut Plans) -> Vec<(Purpose, Question)> {
    let (tables, verdict) = plans.judge(plan);
    let Verdict::Leaves { control_state, transition, contents, far } = verdict else { return vec![] };
    let led_to = control_state_after(&tables, control_state, &tables.transitions[transition]);
    let after = contents_after(plan, transition, &contents);
    let question = |control_state, contents| Question { file: plan.bytes(), control_state, contents };
    let before = (Purpose::Long, question(control_state, contents));
    let outside = led_to.map(|led_to| (Purpose::Far(far), question(led_to, after)));
    [Some(before), outside].into_iter().flatten().collect()
}

/// Three queues of the messages 0 1, 2 3 and 4. Any 0s belong, and so they do with some 4s behind them or with some 2s and
/// then some 4s. The messages 1 and 3 are read nowhere.
const LOOPS: &str = "01 01 00  03 02 02 01  00  03 01 03 00 00 02 01 04 02 00 02 02 01 04 02 01 01 04 02  01  00";

/// So many of the same message, one after the other.
fn about_loops(runs: &[(u8, usize)]) -> Question {
    let contents = runs.iter().flat_map(|&(message, count)| vec![message; count]).collect();
    Question { file: document::hex(LOOPS), control_state: 0, contents }
}

/// Contents that belong, that are read to their end and do not belong, and that are lost: so many of them are taken.
fn of_loops(random: &mut Random, messages: Range<usize>) -> [(Purpose, Question); 3] {
    let mut parts = || {
        let all = random.between(messages.start, messages.end - 1);
        let zeros = random.below(all - 1);
        let twos = random.between(1, all - zeros - 1);
        (all, zeros, twos)
    };
    let (all, zeros, twos) = parts();
    let belongs = about_loops(&[(0, zeros), (2, twos), (4, all - zeros - twos)]);
    let (to_its_end, zeros, _) = parts();
    let does_not_belong = about_loops(&[(0, zeros), (2, to_its_end - zeros)]);
    let (taken, zeros, _) = parts();
    let more = random.below(3);
    let lost = match random.below(2) {
        0 => about_loops(&[(0, taken), (1, 1), (0, more), (4, more)]),
        _ => about_loops(&[(0, zeros), (2, taken - zeros), (3, 1), (2, more), (4, more)]),
    };
    [(Purpose::Long, belongs), (Purpose::Far(to_its_end), does_not_belong), (Purpose::Far(taken), lost)]
}

/// Many messages, of which less than ten are taken.
fn lost_soon(random: &mut Random) -> (Purpose, Question) {
    let (taken, many) = (random.below(10), random.between(100, 120));
    (Purpose::Far(taken), about_loops(&[(0, taken), (1, 1), (2, many)]))
}

/// Contents that the arcs lead along in any order: refused where they are out of it, else asked if they end in a dead end.
fn along_arcs(random: &mut Random, plan: &Plan) -> Option<(Purpose, Question)> {
    let question = along(random, plan, |_, _| true)?;
    let contents: Vec<usize> = question.contents.iter().map(|&message| message.into()).collect();
    let is_out_of_order = |&place: &usize| plan.queue_of(contents[place]) < plan.queue_of(contents[place - 1]);
    if let Some(place) = (1..contents.len()).find(is_out_of_order) {
        return Some((Purpose::OutOfOrderAlongArcs(place), question));
    }
    let root = plan.roots[question.control_state]?;
    let end = contents.iter().fold(root, |state, message| plan.pool[state].arcs[message]);
    (!alive(plan).contains(&end)).then_some((Purpose::IntoDeadEnd, question))
}

fn document_questions() -> Vec<(Purpose, Question)> {
    let about = |file: &str, control_state: usize, contents: &[u8]| Question {
        file: document::hex(file),
        control_state,
        contents: contents.to_vec(),
    };
    vec![
        (Purpose::Document, about(document::S, 0, &[0, 1])),
        (Purpose::Document, about(document::S, 0, &[1, 0])),
        (Purpose::Document, about(document::S, 0, &[])),
        (Purpose::Document, about(document::S, 1, &[])),
        (Purpose::Document, about(document::S, 0, &[2])),
        (Purpose::Document, about(document::S, 0, &[1, 2, 0])),
        (Purpose::Document, about(document::R, 0, &[0, 0, 0])),
        (Purpose::Document, about(document::R, 65_535, &[255])),
        (Purpose::Long, about(document::R, 0, &[0; 20_000])),
        (Purpose::MessageTooHigh(20_000), about(document::R, 0, &[&[0; 20_000][..], &[1]].concat())),
    ]
}

fn about(plan: &Plan, control_state: usize, contents: &[usize]) -> Question {
    let contents = contents.iter().map(|&message| message as u8).collect();
    Question { file: plan.bytes(), control_state, contents }
}

fn on_the_way(random: &mut Random, plan: &Plan) -> Option<(Purpose, Question)> {
    Some((Purpose::OnTheWay, along(random, plan, |_, _| true)?))
}

/// Contents along arcs from a root, in which a message of one queue may come before one of another.
fn along(random: &mut Random, plan: &Plan, may_follow: impl Fn(usize, usize) -> bool) -> Option<Question> {
    let rooted: Vec<usize> =
        (0..plan.roots.len()).filter(|&control_state| plan.roots[control_state].is_some()).collect();
    let &control_state = random.pick(&rooted)?;
    let mut state = plan.roots[control_state]?;
    let mut contents = Vec::new();
    for _ in 0..random.between(0, 12) {
        let last = contents.last().map_or(0, |&message| plan.queue_of(message));
        let arcs = plan.pool[state].arcs.iter().map(|(&message, &target)| (message, target));
        let arcs: Vec<(usize, usize)> = arcs.filter(|&(message, _)| may_follow(last, plan.queue_of(message))).collect();
        let Some(&(message, target)) = random.pick(&arcs) else { break };
        contents.push(message);
        state = target;
        if plan.pool[state].is_final && random.chance(25) {
            break;
        }
    }
    Some(about(plan, control_state, &contents))
}

fn word_in_order(random: &mut Random, plan: &Plan, longest: usize) -> Vec<usize> {
    let mut contents: Vec<usize> = (0..random.between(0, longest)).map(|_| random.below(plan.message_sum())).collect();
    contents.sort_by_key(|&message| plan.queue_of(message));
    contents
}

fn in_order(random: &mut Random, plan: &Plan) -> (Purpose, Question) {
    let contents = word_in_order(random, plan, 8);
    (Purpose::InOrder, about(plan, random.below(plan.control_states()), &contents))
}

fn control_state_too_high(random: &mut Random, plan: &Plan) -> (Purpose, Question) {
    let control_state = match random.below(3) {
        0 => plan.control_states(),
        1 => plan.control_states() + random.between(1, 300),
        _ => random.between(256, 65_535),
    };
    let contents: Vec<usize> = (0..random.between(0, 4)).map(|_| random.below(256)).collect();
    (Purpose::ControlState, about(plan, control_state, &contents))
}

/// Messages after the one that is too high are anything.
fn message_too_high(random: &mut Random, plan: &Plan) -> (Purpose, Question) {
    let mut contents = word_in_order(random, plan, 6);
    let place = contents.len();
    contents.push(if random.chance(50) { plan.message_sum() } else { random.between(plan.message_sum(), 255) });
    contents.extend((0..random.between(0, 3)).map(|_| random.below(256)));
    (Purpose::MessageTooHigh(place), about(plan, random.below(plan.control_states()), &contents))
}

/// A message of a later queue, then one of an earlier queue, then anything.
fn out_of_order(random: &mut Random, plan: &Plan) -> Option<(Purpose, Question)> {
    if plan.queues.len() < 2 {
        return None;
    }
    let mut contents = word_in_order(random, plan, 5);
    let later = random.between(1, plan.queues.len() - 1);
    let earlier = random.between(0, later - 1);
    contents.retain(|&message| plan.queue_of(message) <= later);
    contents.push(plan.messages_of(later).start);
    let place = contents.len();
    contents.push(plan.messages_of(earlier).end - 1);
    contents.extend((0..random.between(0, 3)).map(|_| random.below(256)));
    Some((Purpose::OutOfOrder(place), about(plan, random.below(plan.control_states()), &contents)))
}

fn no_root(random: &mut Random, plan: &Plan) -> Option<(Purpose, Question)> {
    let rootless: Vec<usize> =
        (0..plan.roots.len()).filter(|&control_state| plan.roots[control_state].is_none()).collect();
    let &control_state = random.pick(&rootless)?;
    let contents = word_in_order(random, plan, 3);
    Some((Purpose::NoRoot, about(plan, control_state, &contents)))
}

/// Files refused by each row; the question would be refused too.
fn refused_files(random: &mut Random, seed: u64) -> Vec<(Purpose, Question)> {
    let mut asked = [0; 11];
    let mut questions = Vec::new();
    for case in fresh_reading_cases(seed).cases.into_iter().rev() {
        let Expected::Refused(number, _) = case.expected else { continue };
        let count = &mut asked[usize::from(number)];
        let enough = if number == 1 { 2 } else { 15 };
        if *count < enough && (number == 1 || case.bytes.len() < 300) {
            *count += 1;
            let question =
                Question { file: case.bytes, control_state: random.between(0, 300), contents: vec![random.byte()] };
            questions.push((Purpose::RefusedFile, question));
        }
    }
    questions
}

//! Files for checking: every verdict and refusal, and files that tell a mistaken checker from a right one.

use std::collections::{BTreeMap, BTreeSet};

use super::disorder::add_some_harmless;
use super::document;
use super::far;
use super::large;
use super::long;
use super::plan::{fresh_plan, random_transition, Direction, Plan, Shape, RESUMING};
use super::reading::{fresh_reading_cases, Expected};
use super::resume::resume;
use super::resuming_files::form_files;
use crate::decide::competitors;
use crate::far_features;
use crate::far_traps::FarTrap;
use crate::long_words;
use crate::order_features;
use crate::random::Random;
use crate::read::{read, Tables, WORD_LENGTH};
use crate::start_features;
use crate::traps::{tells, Trap};
use crate::verdict::Verdict;
use crate::walk::{check_tables, Scratch};

/// What `decide` can judge quickly.
pub const SHAPE: Shape =
    Shape { machines: 3, control_states: 6, queues: 3, messages: 4, transitions: 5, pool_states: 5, bad: 3 };

pub struct Case {
    pub kind: String,
    pub bytes: Vec<u8>,
}

/// Plans that are raw, half mended or mended until they are closed.
pub struct Plans {
    pub random: Random,
    /// Of a hundred plans so many resume.
    resuming: usize,
    scratch: Scratch,
}

impl Plans {
    pub fn new(seed: u64) -> Self {
        Plans { random: Random::new(seed), resuming: RESUMING, scratch: Scratch::default() }
    }

    /// Those that start with empty queues.
    pub(super) fn fresh(seed: u64) -> Self {
        Plans { resuming: 0, ..Plans::new(seed) }
    }

    /// Those that all resume.
    pub(super) fn resuming(seed: u64) -> Self {
        Plans { resuming: 100, ..Plans::new(seed) }
    }

    /// Lets something wait at the start of some plans.
    fn resume_some(&mut self, mut plan: Plan) -> Plan {
        if self.resuming > 0 && self.random.chance(self.resuming) {
            resume(&mut self.random, &mut plan);
        }
        plan
    }

    pub fn judge(&mut self, plan: &Plan) -> (Tables, Verdict) {
        let tables = read(&plan.bytes()).expect("plans are valid");
        let verdict = check_tables(&tables, &mut self.scratch);
        (tables, verdict)
    }

    fn judged(&mut self, next: impl Fn(&mut Self) -> Plan) -> (Plan, Tables, Verdict) {
        let plan = next(self);
        let (tables, verdict) = self.judge(&plan);
        (plan, tables, verdict)
    }

    /// A small plan.
    pub fn small(&mut self) -> Plan {
        self.mended(&SHAPE)
    }

    /// A small plan with long words, unless mending takes them away.
    pub fn long_worded(&mut self) -> Plan {
        match self.random.below(4) {
            0 => {
                let plan = long::chained(&mut self.random);
                self.resume_some(plan)
            }
            1 => {
                let plan = long::chained(&mut self.random);
                let plan = self.resume_some(plan);
                self.mend_some(plan)
            }
            _ => {
                let plan = long::along_arcs(&mut self.random, &SHAPE);
                let plan = self.resume_some(plan);
                self.mend_some(plan)
            }
        }
    }

    /// A small plan with parts out of order that change no set.
    pub fn disordered(&mut self) -> Plan {
        loop {
            let mut plan = self.mended(&Shape { pool_states: 4, ..SHAPE });
            if plan.queues.len() > 1 {
                add_some_harmless(&mut self.random, &mut plan);
                return plan;
            }
        }
    }

    /// A small plan with a step that leaves, made for where the target loses the contents.
    pub fn losing(&mut self) -> Plan {
        let plan = far::lost(&mut self.random);
        self.resume_some(plan)
    }

    /// The same with many messages.
    pub fn losing_many(&mut self) -> Plan {
        let plan = match self.random.below(10) {
            0 => far::lost_soon(&mut self.random),
            1..=6 => far::lost_late(&mut self.random, 100..140),
            7 | 8 => far::lost_late(&mut self.random, 256..340),
            _ => far::lost_late(&mut self.random, 1_000..1_200),
        };
        self.resume_some(plan)
    }

    /// A small plan of any of these kinds.
    pub(super) fn any(&mut self) -> Plan {
        match self.random.below(8) {
            0..=3 => self.small(),
            4 => self.mended(&Shape { queues: 4, ..SHAPE }),
            5 => self.disordered(),
            6 => self.long_worded(),
            _ => self.losing(),
        }
    }

    /// A plan of a shape with something to check, mended for no, some or many rounds.
    pub fn mended(&mut self, shape: &Shape) -> Plan {
        let mut plan = fresh_plan(&mut self.random, shape);
        while plan.transitions.len() < 2 {
            let transition = random_transition(&mut self.random, &plan);
            plan.transitions.push(transition);
        }
        let plan = self.resume_some(plan);
        self.mend_some(plan)
    }

    fn mend_some(&mut self, mut plan: Plan) -> Plan {
        let mends = match self.random.below(4) {
            0 => 0,
            1 => self.random.between(1, 3),
            2 => self.random.between(4, 12),
            _ => 60,
        };
        for round in 0..mends {
            let (_, verdict) = self.judge(&plan);
            let mut mended = plan.clone();
            if !self.mend(&mut mended, &verdict, round) {
                break;
            }
            // A set that grows may come to hold a word out of order; then another way is tried in the next round.
            if read(&mended.bytes()).is_ok() {
                plan = mended;
            }
        }
        plan
    }

    /// Changes what failed. False if nothing did.
    fn mend(&mut self, plan: &mut Plan, verdict: &Verdict, round: usize) -> bool {
        match verdict {
            Verdict::Closed { .. } => return false,
            Verdict::Outside => {
                let start = plan.start();
                let root = *plan.roots[start].get_or_insert(self.random.below(plan.pool.len()));
                let waiting: Vec<u8> = plan.starting.concat().iter().map(|&message| message as u8).collect();
                if !self.let_in(plan, root, &waiting) {
                    plan.starting.clear();
                }
            }
            Verdict::Leaves { control_state, transition, contents, .. } => {
                // Growing the set may go on for ever, so after some rounds the step goes.
                let grows = round < 30 && self.random.chance(70);
                if !(grows && self.grow(plan, *control_state, *transition, contents)) {
                    plan.transitions.remove(*transition);
                }
            }
            Verdict::Bad { entry, .. } => {
                if self.random.chance(50) {
                    plan.bad.remove(*entry);
                } else {
                    plan.bad[*entry].1 = self.random.below(plan.pool.len());
                    plan.pool[plan.bad[*entry].1].is_final &= self.random.chance(70);
                }
            }
        }
        true
    }

    /// Lets the target accept the contents after the step, or comes a message nearer to it.
    fn grow(&mut self, plan: &mut Plan, control_state: usize, transition: usize, contents: &[u8]) -> bool {
        let step = &plan.transitions[transition];
        let weight: usize = plan.states[step.machine + 1..].iter().product();
        let next = control_state + step.to * weight - step.from * weight;
        let Some(root) = plan.roots[next] else {
            plan.roots[next] = Some(self.random.below(plan.pool.len()));
            return true;
        };
        let after = contents_after(plan, transition, contents);
        self.let_in(plan, root, &after)
    }

    /// Lets a root accept some contents, or comes a message nearer to it. False where that cannot be.
    fn let_in(&mut self, plan: &mut Plan, root: usize, contents: &[u8]) -> bool {
        let (mut state, mut taken) = (root, 0);
        while let Some(&next) = contents.get(taken).and_then(|&message| plan.pool[state].arcs.get(&message.into())) {
            (state, taken) = (next, taken + 1);
        }
        let Some(&message) = contents.get(taken) else {
            plan.pool[state].is_final = true;
            return true;
        };
        let message = usize::from(message);
        let target = self.random.below(plan.pool.len());
        plan.pool[state].arcs.insert(message, target);
        // With the new arc a word out of order may be accepted; then it is taken back.
        let stays = read(&plan.bytes()).is_ok();
        if !stays {
            plan.pool[state].arcs.remove(&message);
        }
        stays
    }
}

pub(crate) fn contents_after(plan: &Plan, transition: usize, contents: &[u8]) -> Vec<u8> {
    let Some(action) = &plan.transitions[transition].action else { return contents.to_vec() };
    let own = plan.messages_of(action.queue);
    let begins = contents.iter().take_while(|&&message| usize::from(message) < own.start).count();
    let ends = contents.iter().take_while(|&&message| usize::from(message) < own.end).count();
    let word: Vec<u8> = action.word.iter().map(|&message| message as u8).collect();
    match action.direction {
        Direction::Send => [&contents[..ends], &word, &contents[ends..]].concat(),
        Direction::Receive => [&contents[..begins], &contents[begins + word.len()..]].concat(),
    }
}

const REFUSED_OF_EACH_ROW: usize = 130;
/// Random plans that are looked at.
const PLANS: usize = 60_000;
const LONG_WORDED_PLANS: usize = 40_000;
const DISORDERED_PLANS: usize = 10_000;
const LOSING_PLANS: usize = 20_000;
const PLANS_LOSING_MANY: usize = 10_000;
const RESUMING_PLANS: usize = 20_000;
/// Plans that are put into both forms.
const BOTH_FORMS: usize = 40;

/// How many files of each kind are kept.
fn quota(kind: &str) -> usize {
    match kind {
        "closed, few pairs" => 200,
        "closed" => 500,
        "outside" => 150,
        "leaves with 0" | "leaves with 1" => 250,
        "leaves with 2" | "leaves with 3" => 200,
        "leaves with 4 or more" => 250,
        "leaves, competing" => 300,
        "bad with 0" => 120,
        "bad with 1" | "bad with 2 or more" => 150,
        _ => 60,
    }
}

pub fn verdict_cases(seed: u64) -> Vec<Case> {
    let mut cases: Vec<Case> = document::cases()
        .into_iter()
        .chain(document::samples())
        .map(|worked| Case { kind: format!("document: {}", worked.name), bytes: worked.bytes })
        .collect();
    cases.extend(refused_cases(seed));
    cases.extend(large_cases(seed));
    cases.extend(long_worded_cases(seed));
    cases.extend(disordered_cases(seed));

    let mut plans = Plans::fresh(seed);
    let mut kept: BTreeMap<String, usize> = BTreeMap::new();
    for _ in 0..PLANS {
        let plan = plans.small();
        let (tables, verdict) = plans.judge(&plan);
        let wanted = |kind: &str| kept.get(kind).copied().unwrap_or(0) < quota(kind);
        if let Some(kind) = kind_of(&tables, &verdict, wanted) {
            *kept.entry(kind.clone()).or_default() += 1;
            cases.push(Case { kind, bytes: plan.bytes() });
        }
    }
    let about_far = far_cases(seed, &cases);
    cases.extend(about_far);
    cases.extend(resuming_cases(seed));
    cases
}

/// What a file is good for, the rarest first, if that is wanted.
fn kind_of(tables: &Tables, verdict: &Verdict, wanted: impl Fn(&str) -> bool) -> Option<String> {
    for trap in Trap::OF_ALL_WORDS {
        let kind = format!("tells from {trap:?}");
        if wanted(&kind) && tells(tables, verdict, trap) {
            return Some(kind);
        }
    }
    if competes(tables, verdict) && wanted("leaves, competing") {
        return Some("leaves, competing".to_string());
    }
    let kind = match verdict {
        Verdict::Closed { pairs } if *pairs < 10 => "closed, few pairs".to_string(),
        Verdict::Closed { .. } => "closed".to_string(),
        Verdict::Outside => "outside".to_string(),
        Verdict::Leaves { contents, .. } if contents.len() >= 4 => "leaves with 4 or more".to_string(),
        Verdict::Leaves { contents, .. } => format!("leaves with {}", contents.len()),
        Verdict::Bad { contents, .. } if contents.len() >= 2 => "bad with 2 or more".to_string(),
        Verdict::Bad { contents, .. } => format!("bad with {}", contents.len()),
    };
    wanted(&kind).then_some(kind)
}

/// Files that are kept as long as some feature, or a mistake, is still too seldom.
struct Wanted<'t> {
    missing: BTreeMap<String, usize>,
    features: fn(&Tables, &Verdict) -> BTreeSet<String>,
    traps: &'t [Trap],
}

impl<'t> Wanted<'t> {
    fn new(
        mut asked: BTreeMap<String, usize>,
        features: fn(&Tables, &Verdict) -> BTreeSet<String>,
        traps: &'t [Trap],
    ) -> Self {
        asked.extend(traps.iter().map(|trap| (format!("{trap:?}"), quota("tells from a trap"))));
        Wanted { missing: asked, features, traps }
    }

    fn takes(&mut self, tables: &Tables, verdict: &Verdict) -> bool {
        let mut good_for = (self.features)(tables, verdict);
        for &trap in self.traps {
            let name = format!("{trap:?}");
            if self.missing.contains_key(&name) && tells(tables, verdict, trap) {
                good_for.insert(name);
            }
        }
        let takes = good_for.iter().any(|feature| self.missing.contains_key(feature));
        if takes {
            for feature in good_for {
                self.missing.entry(feature).and_modify(|files| *files -= 1);
            }
            self.missing.retain(|_, &mut files| files > 0);
        }
        takes
    }

    fn cases(mut self, kind: &str, mut next: impl FnMut() -> (Plan, Tables, Verdict), plans: usize) -> Vec<Case> {
        let mut cases = Vec::new();
        for _ in 0..plans {
            let (plan, tables, verdict) = next();
            if self.takes(&tables, &verdict) {
                cases.push(Case { kind: kind.to_string(), bytes: plan.bytes() });
            }
        }
        cases
    }
}

fn long_worded_cases(seed: u64) -> Vec<Case> {
    let mut plans = Plans::fresh(seed + 3);
    let wanted = Wanted::new(long_words::asked(), long_words::features, &Trap::OF_LONG_WORDS);
    wanted.cases("long words", || plans.judged(Plans::long_worded), LONG_WORDED_PLANS)
}

fn disordered_cases(seed: u64) -> Vec<Case> {
    let mut plans = Plans::fresh(seed + 6);
    let wanted = Wanted::new(order_features::asked(), order_features::features, &Trap::OF_QUEUE_ORDER);
    wanted.cases("out of order", || plans.judged(Plans::disordered), DISORDERED_PLANS)
}

/// Files with a step that leaves, as long as what they show of how far contents are followed is too seldom among all.
fn far_cases(seed: u64, others: &[Case]) -> Vec<Case> {
    let mut plans = Plans::fresh(seed + 10);
    let mut of_many = Wanted::new(far_features::asked_of_many(), far_features::of_verdict, &[]);
    let mut asked = far_features::asked_of_verdicts();
    asked.extend(FarTrap::of_verdicts().map(|trap| (format!("{trap:?}"), trap.asked())));
    let mut of_all = Wanted::new(asked, far_features::of_verdict_with_told, &[]);
    let judged = |bytes: &[u8], plans: &mut Plans| {
        let tables = read(bytes).ok()?;
        let verdict = check_tables(&tables, &mut plans.scratch);
        Some((tables, verdict))
    };
    for (tables, verdict) in others.iter().filter_map(|case| judged(&case.bytes, &mut plans)) {
        of_many.takes(&tables, &verdict);
        of_all.takes(&tables, &verdict);
    }
    let mut cases = of_many.cases("lost late", || plans.judged(Plans::losing_many), PLANS_LOSING_MANY);
    for (tables, verdict) in cases.iter().filter_map(|case| judged(&case.bytes, &mut plans)) {
        of_all.takes(&tables, &verdict);
    }
    cases.extend(of_all.cases("lost", || plans.judged(Plans::losing), LOSING_PLANS));
    cases
}

/// Files that resume, of every verdict, and some of them in the first form, too; and those that tell the two forms apart.
fn resuming_cases(seed: u64) -> Vec<Case> {
    let mut plans = Plans::resuming(seed + 12);
    let mut asked = start_features::asked_of_verdicts();
    asked.extend(Trap::of_starting().map(|trap| (format!("{trap:?}"), start_features::ENOUGH_TOLD)));
    let wanted = Wanted::new(asked, start_features::of_verdict_with_told, &[]);
    let mut cases = wanted.cases("something waits", || plans.judged(Plans::any), RESUMING_PLANS);
    for round in 0..BOTH_FORMS {
        let plan = plans.any();
        let fresh = Plan { starting: vec![], ..plan.clone() };
        let in_turn = if round % 2 == 0 { [plan, fresh] } else { [fresh, plan] };
        cases.extend(in_turn.map(|plan| Case { kind: "both forms".to_string(), bytes: plan.bytes() }));
    }
    let of_form = form_files(seed + 13, start_features::ENOUGH_OF_FORM, Clone::clone).into_iter();
    cases.extend(of_form.map(|(bytes, _)| Case { kind: "of either form".to_string(), bytes }));
    cases
}

/// Whether other contents of the same length fail too, so that the lowest must be chosen.
fn competes(tables: &Tables, verdict: &Verdict) -> bool {
    match verdict {
        Verdict::Leaves { control_state, transition, contents, .. } => {
            contents.len() <= 5 && competitors(tables, *control_state, *transition, contents.len()) > 1
        }
        _ => false,
    }
}

/// Walks that fill the tables, long contents, and middling files.
fn large_cases(seed: u64) -> Vec<Case> {
    let mut plans = Plans::fresh(seed + 2);
    let mut files = vec![
        large::long_local_leaves(),
        large::long_send_leaves(),
        large::last_step_leaves(),
        large::last_entry_is_bad(),
        large::many_dense_steps(&mut plans.random),
    ];
    files.push(large::longest_test_of_order(&mut plans.random));
    files.push(large::dense(&mut plans.random, None));
    files.push(large::with_holes(&mut plans.random, None, 50));
    files.push(large::with_holes(&mut plans.random, None, 90));
    for direction in [Direction::Send, Direction::Receive] {
        files.push(large::dense(&mut plans.random, Some((direction, 4))));
        files.push(large::dense(&mut plans.random, Some((direction, WORD_LENGTH))));
        files.push(large::with_holes(&mut plans.random, Some((direction, WORD_LENGTH)), 50));
        files.push(large::with_holes(&mut plans.random, Some((direction, 4)), 90));
    }
    for _ in 0..120 {
        let plan = plans.mended(&Shape::MEDIUM);
        files.push(plan);
    }
    files.into_iter().map(|plan| Case { kind: "large".to_string(), bytes: plan.bytes() }).collect()
}

/// Small refused files, spread evenly over what the generator for reading has for each row.
fn refused_cases(seed: u64) -> Vec<Case> {
    let mut by_row: BTreeMap<u8, Vec<Vec<u8>>> = BTreeMap::new();
    for seed in [seed, seed + 1] {
        for case in fresh_reading_cases(seed).cases {
            if let Expected::Refused(number, _) = case.expected {
                if case.bytes.len() < 300 || number == 1 {
                    by_row.entry(number).or_default().push(case.bytes);
                }
            }
        }
    }
    let mut cases = Vec::new();
    for (number, files) in by_row {
        // Files refused by 1 are long.
        let count = if number == 1 { 2 } else { REFUSED_OF_EACH_ROW };
        let stride = (files.len() / count).max(1);
        let spread = files.into_iter().step_by(stride).take(count);
        cases.extend(spread.map(|bytes| Case { kind: format!("refused by {number}"), bytes }));
    }
    cases
}

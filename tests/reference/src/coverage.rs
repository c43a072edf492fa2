//! What the generated files, questions, replays, writings and texts hit: rows, boundaries, verdicts, ends, damage, and mistakes
//! they would tell.

use std::collections::{BTreeMap, BTreeSet};

use crate::derivatives::State;
use crate::expression::{expression, Pool};
use crate::expression_features;
use crate::expression_traps::{expression_with, ExpressionTrap};
use crate::far_features;
use crate::far_traps::{far_of_contents, far_of_replay, far_of_step, FarTrap};
use crate::flat::Flat;
use crate::form_traps::FormTrap;
use crate::generate::draft::Role;
use crate::generate::expression as texts;
use crate::generate::membership::{Purpose, ABOUT_ORDER};
use crate::generate::reading::{Expected, Generator};
use crate::generate::replay as replays;
use crate::generate::resuming_files;
use crate::generate::row_9;
use crate::generate::verdicts;
use crate::generate::writing as writings;
use crate::long_words::{self, has_long_word};
use crate::membership::{member_of, membership, membership_line, Member};
use crate::order_features::{self, OrderHits};
use crate::positions::pool_of;
use crate::read::{read, Kind, Refusal, Tables, WORD_LENGTH};
use crate::replay::{replay, Answer, Reply};
use crate::replay_features::{self, Retaken};
use crate::replay_traps::{self, replay_with, ReplayTrap};
use crate::rings::{replay_as_read, replay_in_rings};
use crate::start_features::{self, FormHits};
use crate::starting::{member_with, MemberTrap};
use crate::stream::{Question, Replay, Writing};
use crate::traps::{self, Trap};
use crate::verdict::{line, Verdict};
use crate::walk::{check, check_tables, Scratch};
use crate::write::write;
use crate::writing_features;
use crate::writing_traps::{ReadBack, WritingTrap};

/// Each row from 3 to 10 is hit at least this often.
const ENOUGH: usize = 50;

pub struct Coverage {
    pub report: String,
    pub complaints: Vec<String>,
}

/// What the files for reading hit.
struct ReadingHits<'c> {
    were_read: usize,
    /// Refusals by number.
    rows: BTreeMap<u8, usize>,
    /// Files that fare as they were made to, by kind.
    kinds: BTreeMap<&'c str, usize>,
    /// Files that are read and have a word of this length.
    word_lengths: [usize; WORD_LENGTH + 1],
    of_form: FormHits,
    of_order: OrderHits,
}

pub fn reading_coverage(generator: &Generator) -> Coverage {
    let mut hits = ReadingHits {
        were_read: 0,
        rows: BTreeMap::new(),
        kinds: BTreeMap::new(),
        word_lengths: [0; WORD_LENGTH + 1],
        of_form: FormHits::new(FormTrap::all()),
        of_order: OrderHits::default(),
    };
    let mut complaints = Vec::new();
    for (index, case) in generator.cases.iter().enumerate() {
        let reply = read(&case.bytes);
        hits.of_form.add(&case.bytes, |read| read.clone());
        hits.of_order.add(&case.bytes);
        match &reply {
            Ok(tables) => hits.add_tables(tables),
            Err(refusal) => *hits.rows.entry(refusal.number).or_default() += 1,
        }
        let as_made = match (case.expected, &reply) {
            (Expected::Open, _) | (Expected::Read, Ok(_)) => true,
            (Expected::Refused(number, place), Err(refusal)) => *refusal == Refusal { number, place },
            _ => false,
        };
        if as_made {
            *hits.kinds.entry(&case.kind).or_default() += 1;
        } else {
            let reply = reply.map(|_| "read");
            complaints.push(format!("file {index} ({}): made for {:?}, but {reply:?}", case.kind, case.expected));
        }
    }
    complaints.extend(hits.complaints());
    for role in Role::all() {
        for end in ["least", "most"] {
            if !generator.at_limit.contains_key(&(role, end)) {
                complaints.push(format!("no valid file has {role} at its {end}"));
            }
        }
    }

    let bytes: usize = generator.cases.iter().map(|case| case.bytes.len()).sum();
    let mut report = format!("{} files, {bytes} bytes, {} read\n", generator.cases.len(), hits.were_read);
    report += &hits.report();
    for ((role, end), hits) in &generator.at_limit {
        report += &format!("valid with {role} at its {end}: {hits}\n");
    }
    Coverage { report, complaints }
}

/// Each length of a word is in at least this many files that are read.
const ENOUGH_OF_A_LENGTH: usize = 8;
/// Kinds of damage to long words, each with how many files must be of it.
const LONG_WORD_DAMAGE: [(&str, usize); 5] = [
    ("row 5: a word of 17", 40),
    ("row 5: bytes end at the length 17", 10),
    ("row 5: 4 before 5 at the length 17", 10),
    ("row 5: a length far past, and 17 messages", 20),
    ("row 7: late in a long word", 20),
];
/// Files of each kind made for row 9.
const ENOUGH_OF_ROW_9: usize = 30;

impl ReadingHits<'_> {
    fn add_tables(&mut self, tables: &Tables) {
        self.were_read += 1;
        let sent_or_received = tables.used_transitions().iter().filter(|step| step.kind != Kind::Local);
        let lengths: BTreeSet<usize> = sent_or_received.map(|step| step.word().len()).collect();
        for length in lengths {
            self.word_lengths[length] += 1;
        }
    }

    fn complaints(&self) -> Vec<String> {
        let mut complaints = Vec::new();
        let mut ask = |what: String, hits: Option<usize>, enough: usize| {
            let hits = hits.unwrap_or(0);
            if hits < enough {
                complaints.push(format!("{what} is hit only {hits} times"));
            }
        };
        ask("row 1".to_string(), self.rows.get(&1).copied(), 1);
        for row in (3..=10).chain([23]) {
            ask(format!("row {row}"), self.rows.get(&row).copied(), ENOUGH);
        }
        for (length, &files) in self.word_lengths.iter().enumerate() {
            ask(format!("a word of {length}"), Some(files), ENOUGH_OF_A_LENGTH);
        }
        for (kind, enough) in LONG_WORD_DAMAGE {
            ask(kind.to_string(), self.kinds.get(kind).copied(), enough);
        }
        for (kind, enough) in resuming_files::KINDS {
            ask(kind.to_string(), self.kinds.get(kind).copied(), enough);
        }
        for kind in row_9::kinds() {
            let files = self.kinds.get(&kind[..]).copied();
            ask(kind, files, ENOUGH_OF_ROW_9);
        }
        complaints.extend(self.of_form.complaints("files"));
        complaints.extend(self.of_order.complaints(ENOUGH_OF_ROW_9));
        complaints
    }

    fn report(&self) -> String {
        let mut report = String::new();
        for (row, hits) in &self.rows {
            report += &format!("refused by {row}: {hits}\n");
        }
        for (kind, hits) in &self.kinds {
            report += &format!("{kind}: {hits}\n");
        }
        for (length, hits) in self.word_lengths.iter().enumerate() {
            report += &format!("read with a word of {length}: {hits}\n");
        }
        report + &self.of_form.report("files") + &self.of_order.report()
    }
}

/// Each verdict, and each refusal from 3 to 10, is hit at least this often.
const ENOUGH_VERDICTS: usize = 100;
/// Each mistake changes the line of at least this many files.
const ENOUGH_TOLD: usize = 50;
/// Files for checking, questions and replays that each mistake about row 9 changes, and that are out of order in each place.
const ENOUGH_OF_ORDER: usize = 10;
/// Mistakes are tried on files up to this many bytes: they are searched for plainly.
const SMALL_FILE: usize = 300;

/// Which mistakes about how far a word is followed would be told, and how often.
struct FarHits {
    told: BTreeMap<FarTrap, usize>,
    disagreements: Vec<String>,
}

impl FarHits {
    fn new(traps: impl Iterator<Item = FarTrap>) -> Self {
        FarHits { told: traps.map(|trap| (trap, 0)).collect(), disagreements: vec![] }
    }

    /// Counts the mistakes that a number tells, given how it is found with each of them or with none.
    fn add(&mut self, what: &str, far: usize, far_with: impl Fn(Option<FarTrap>) -> usize) {
        let by_arcs = far_with(None);
        if by_arcs != far {
            self.disagreements.push(format!("{what}: followed as far as {far}, but by arcs {by_arcs}"));
        }
        for (&trap, count) in &mut self.told {
            *count += usize::from(far_with(Some(trap)) != far);
        }
    }

    fn complaints(&self, of: &str) -> Vec<String> {
        let seldom = self.told.iter().filter(|(trap, &count)| count < trap.asked());
        let complaints = seldom.map(|(trap, count)| format!("only {count} {of} tell {trap:?}"));
        self.disagreements.iter().cloned().chain(complaints).collect()
    }

    fn report(&self, of: &str) -> String {
        self.told
            .iter()
            .map(|(trap, count)| format!("{of} whose number F would change by {trap:?}: {count}\n"))
            .collect()
    }
}

/// What the files for checking hit.
struct VerdictHits<'c> {
    lines: BTreeMap<String, usize>,
    kinds: BTreeMap<&'c str, usize>,
    features: BTreeMap<&'static str, usize>,
    /// Features of long words, of queue order and of how far contents are followed that are asked.
    asked_features: BTreeMap<String, usize>,
    told: BTreeMap<Trap, usize>,
    far: FarHits,
    of_form: FormHits,
    of_order: OrderHits,
}

/// The features that files for checking must have, each with how many files.
fn asked_of_verdicts() -> BTreeMap<String, usize> {
    let others = order_features::asked().into_iter().chain(far_features::asked_of_verdicts());
    long_words::asked().into_iter().chain(others).chain(start_features::asked_of_verdicts()).collect()
}

pub fn verdict_coverage(cases: &[verdicts::Case]) -> Coverage {
    let mut scratch = Scratch::default();
    let mut hits = VerdictHits {
        lines: BTreeMap::new(),
        kinds: BTreeMap::new(),
        features: BTreeMap::new(),
        asked_features: asked_of_verdicts().into_keys().map(|feature| (feature, 0)).collect(),
        told: Trap::all().map(|trap| (trap, 0)).collect(),
        far: FarHits::new(FarTrap::of_verdicts()),
        of_form: FormHits::new(FormTrap::OF_FORM.into_iter()),
        of_order: OrderHits::default(),
    };
    for case in cases {
        let reply = check(&case.bytes, &mut scratch);
        *hits.lines.entry(line_kind(&line(&reply))).or_default() += 1;
        *hits.kinds.entry(&case.kind).or_default() += 1;
        hits.of_order.add(&case.bytes);
        if case.bytes.len() <= SMALL_FILE {
            hits.of_form.add(&case.bytes, |read| match read {
                Ok(tables) => Ok(check_tables(tables, &mut scratch)),
                Err(refusal) => Err(*refusal),
            });
        }
        if let (Ok(tables), Ok(verdict)) = (read(&case.bytes), &reply) {
            hits.add_verdict(&tables, verdict, case.bytes.len() <= SMALL_FILE);
        }
    }
    let bytes: usize = cases.iter().map(|case| case.bytes.len()).sum();
    let report = format!("{} files for checking, {bytes} bytes\n{}", cases.len(), hits.report());
    Coverage { report, complaints: hits.complaints() }
}

impl VerdictHits<'_> {
    fn add_verdict(&mut self, tables: &Tables, verdict: &Verdict, is_small: bool) {
        for (feature, has) in features_of(tables) {
            *self.features.entry(feature).or_default() += usize::from(has);
        }
        let mut features = long_words::features(tables, verdict);
        features.extend(far_features::of_verdict(tables, verdict));
        features.extend(start_features::of_verdict(tables, verdict));
        if let Verdict::Leaves { control_state, transition, contents, far } = verdict {
            let step = &tables.transitions[*transition];
            self.far.add(&verdict.to_string(), *far, |trap| far_of_step(tables, *control_state, step, contents, trap));
        }
        if is_small {
            features.extend(order_features::features(tables, verdict));
        }
        for feature in features {
            self.asked_features.entry(feature).and_modify(|files| *files += 1);
        }
        if is_small {
            for (&trap, count) in self.told.iter_mut().filter(|(trap, _)| tables.resumes() || !trap.is_of_starting()) {
                *count += usize::from(traps::tells(tables, verdict, trap));
            }
        }
    }

    fn complaints(&self) -> Vec<String> {
        let mut complaints = Vec::new();
        let wanted = ["closed", "outside", "leaves", "bad"].map(String::from);
        let rows =
            (3..=10).map(|row| (format!("refused {row}"), ENOUGH_VERDICTS)).chain([("refused 23".to_string(), 10)]);
        for (wanted, enough) in wanted.map(|verdict| (verdict, ENOUGH_VERDICTS)).into_iter().chain(rows) {
            let hits = self.lines.get(&wanted).copied().unwrap_or(0);
            if hits < enough {
                complaints.push(format!("{wanted} is hit only {hits} times"));
            }
        }
        for (feature, enough) in asked_of_verdicts() {
            let hits = self.asked_features[&feature];
            if hits < enough {
                complaints.push(format!("only {hits} files have: {feature}"));
            }
        }
        for (trap, &count) in &self.told {
            if count < if trap.is_of_starting() { start_features::ENOUGH_TOLD } else { ENOUGH_TOLD } {
                complaints.push(format!("only {count} files tell {trap:?}"));
            }
        }
        complaints.extend(self.far.complaints("files"));
        complaints.extend(self.of_form.complaints("files"));
        complaints.extend(self.of_order.complaints(ENOUGH_OF_ORDER));
        complaints
    }

    fn report(&self) -> String {
        let mut report = String::new();
        for (line, count) in &self.lines {
            report += &format!("{line}: {count}\n");
        }
        for (feature, count) in &self.features {
            report += &format!("with {feature}: {count}\n");
        }
        for (feature, count) in &self.asked_features {
            report += &format!("{feature}: {count}\n");
        }
        for (kind, count) in self.kinds.iter().filter(|(kind, _)| !kind.starts_with("document")) {
            report += &format!("kept as {kind}: {count}\n");
        }
        for (trap, count) in &self.told {
            report += &format!("files whose line would change by {trap:?}: {count}\n");
        }
        report + &self.far.report("files") + &self.of_form.report("files") + &self.of_order.report()
    }
}

/// The first word of a line, with the number of a refusal.
fn line_kind(line: &str) -> String {
    let words = if line.starts_with("refused") { 2 } else { 1 };
    line.split(' ').take(words).collect::<Vec<_>>().join(" ")
}

fn features_of(tables: &Tables) -> Vec<(&'static str, bool)> {
    let transitions = tables.used_transitions();
    let some = |kind: Kind| transitions.iter().any(|transition| transition.kind == kind);
    let word =
        |length: u8| transitions.iter().any(|transition| transition.kind != Kind::Local && transition.length == length);
    vec![
        ("a send", some(Kind::Send)),
        ("a receive", some(Kind::Receive)),
        ("a local step", some(Kind::Local)),
        ("an empty word", word(0)),
        ("a word of four", word(4)),
        ("a long word", has_long_word(tables)),
        ("a full word", word(WORD_LENGTH as u8)),
        ("several queues", tables.queue_count > 1),
        ("several machines", tables.machine_count > 1),
        ("a missing root", tables.roots[..tables.control_state_count].contains(&0)),
        ("a bad entry", tables.bad_count > 0),
    ]
}

/// Questions of each kind about files that are out of order.
const ENOUGH_QUESTIONS_OF_ORDER: usize = 24;

pub fn membership_coverage(questions: &[(Purpose, Question)]) -> Coverage {
    let mut replies: BTreeMap<String, usize> = BTreeMap::new();
    let mut about_order: BTreeMap<&str, usize> = ABOUT_ORDER.map(|kind| (kind, 0)).into();
    let mut of_order = OrderHits::default();
    let mut asked = far_features::asked_of_questions();
    asked.extend(start_features::asked_of_questions());
    let mut features: BTreeMap<String, usize> = asked.keys().map(|feature| (feature.clone(), 0)).collect();
    let mut far = FarHits::new(FarTrap::of_questions());
    let mut of_form = FormHits::new(FormTrap::OF_FORM.into_iter());
    let mut told = BTreeMap::from(MemberTrap::ALL.map(|trap| (trap, 0)));
    let mut complaints = Vec::new();
    for (index, (purpose, question)) in questions.iter().enumerate() {
        let reply = membership(&question.file, question.control_state, &question.contents);
        let as_made = match *purpose {
            Purpose::ControlState => reply == Err(Refusal { number: 11, place: 0 }),
            Purpose::MessageTooHigh(place) => reply == Err(Refusal { number: 12, place }),
            Purpose::OutOfOrder(place) | Purpose::OutOfOrderAlongArcs(place) => {
                reply == Err(Refusal { number: 13, place })
            }
            Purpose::WordOutOfOrder(refusal) => reply == Err(refusal),
            Purpose::RefusedFile => reply.is_err_and(|refusal| refusal.number <= 10),
            Purpose::NoRoot => reply == Ok(Member { belongs: false, far: 0 }),
            Purpose::IntoDeadEnd => reply == Ok(Member { belongs: false, far: question.contents.len() }),
            Purpose::OnTheWay | Purpose::InOrder | Purpose::Harmless => reply.is_ok(),
            Purpose::Long => reply == Ok(Member { belongs: true, far: question.contents.len() }),
            Purpose::Far(far) => reply.is_ok_and(|member| member.far == far),
            Purpose::Waiting | Purpose::OfEitherForm(None) => reply.is_ok(),
            Purpose::OfEitherForm(Some(refusal)) => reply == Err(refusal),
            Purpose::Document => true,
        };
        if !as_made {
            complaints.push(format!("question {index} ({purpose:?}): {}", membership_line(&reply)));
        }
        if let (Ok(tables), Ok(member)) = (read(&question.file), reply) {
            let Question { control_state, contents, .. } = question;
            far.add(&format!("question {index}"), member.far, |trap| {
                far_of_contents(&tables, *control_state, contents, trap)
            });
            let of_start = start_features::of_question(&tables, contents, member);
            for feature in
                far_features::of_question(&tables, *control_state, contents, member).into_iter().chain(of_start)
            {
                features.entry(feature).and_modify(|count| *count += 1);
            }
            for (&trap, count) in &mut told {
                *count += usize::from(member_with(&tables, *control_state, contents, Some(trap)) != member);
            }
        }
        of_form.add(&question.file, |read| match read {
            Ok(tables) => member_of(tables, question.control_state, &question.contents),
            Err(refusal) => Err(*refusal),
        });
        *replies.entry(line_kind(&membership_line(&reply))).or_default() += 1;
        of_order.add(&question.file);
        if let Some(kind) = purpose.about_order(&reply) {
            about_order.entry(kind).and_modify(|count| *count += 1);
        }
    }
    for wanted in ["yes", "no", "refused 11", "refused 12", "refused 13"] {
        let hits = replies.get(wanted).copied().unwrap_or(0);
        if hits < ENOUGH {
            complaints.push(format!("{wanted} is hit only {hits} times"));
        }
    }
    for (kind, count) in about_order.iter().filter(|(_, &count)| count < ENOUGH_QUESTIONS_OF_ORDER) {
        complaints.push(format!("only {count} questions about order are: {kind}"));
    }
    for (feature, enough) in &asked {
        let count = features[feature];
        if count < *enough {
            complaints.push(format!("only {count} questions have: {feature}"));
        }
    }
    for (trap, count) in told.iter().filter(|(_, &count)| count < start_features::ENOUGH_TOLD) {
        complaints.push(format!("only {count} questions tell {trap:?}"));
    }
    complaints.extend(far.complaints("questions"));
    complaints.extend(of_form.complaints("questions"));
    complaints.extend(of_order.complaints(ENOUGH_OF_ORDER));
    let mut report = format!("{} questions\n", questions.len());
    for (reply, count) in &replies {
        report += &format!("{reply}: {count}\n");
    }
    for (kind, count) in &about_order {
        report += &format!("about order, {kind}: {count}\n");
    }
    for (feature, count) in &features {
        report += &format!("{feature}: {count}\n");
    }
    for (trap, count) in &told {
        report += &format!("questions whose line would change by {trap:?}: {count}\n");
    }
    report += &far.report("questions");
    Coverage { report: report + &of_form.report("questions") + &of_order.report(), complaints }
}

/// Each mistake changes the line of at least this many replays.
const ENOUGH_REPLAYS_TOLD: usize = 10;
/// Mistakes are tried on traces up to this many bytes, but for those about long traces.
const SHORT_TRACE: usize = 600;

/// The answer of the form that is timed.
fn in_rings(asked: &Replay) -> Answer {
    let mut lent = asked.lent();
    let reply = replay_in_rings(&mut lent.record, &asked.file, &asked.trace, &mut lent.memory);
    Answer { reply, lent }
}

pub fn replay_coverage(cases: &[replays::Case]) -> Coverage {
    let asked = replay_features::asked();
    let mut features: BTreeMap<String, usize> = asked.keys().map(|feature| (feature.clone(), 0)).collect();
    let mut told: BTreeMap<ReplayTrap, usize> =
        ReplayTrap::ALL.into_iter().chain(ReplayTrap::of_starting()).map(|trap| (trap, 0)).collect();
    let mut far_hits = FarHits::new(FarTrap::of_replays());
    let mut of_form = FormHits::new(FormTrap::OF_FORM.into_iter());
    let mut of_order = OrderHits::default();
    let mut complaints = Vec::new();
    let mut bytes = 0;
    for (index, replays::Case { kind, replay: asked, expected }) in cases.iter().enumerate() {
        bytes += asked.file.len() + asked.trace.len();
        of_order.add(&asked.file);
        let lent = asked.lent();
        let answer = replay(&asked.file, &asked.trace, &lent);
        if expected.is_some_and(|expected| expected != answer.reply) {
            complaints.push(format!("replay {index} ({kind}): made for {expected:?}, but {}", answer.reply));
        }
        let without_a_mistake = replay_with(&asked.file, &asked.trace, &lent, None);
        for (form, other) in [("in rings", in_rings(asked)), ("without a mistake", without_a_mistake)] {
            if other != answer {
                complaints.push(format!("replay {index} ({kind}): {}, but {form} {}", answer.reply, other.reply));
            }
        }
        for feature in replay_features::features(asked, &answer) {
            features.entry(feature).and_modify(|count| *count += 1);
        }
        let is_short = asked.trace.len() <= SHORT_TRACE;
        if is_short {
            of_form.add(&asked.file, |read| {
                let mut lent = asked.lent();
                let reply = replay_as_read(&mut lent.record, read, &asked.trace, &mut lent.memory);
                (reply, lent)
            });
        }
        let resumes = read(&asked.file).is_ok_and(|tables| tables.resumes());
        let is_tried = |trap: ReplayTrap| (is_short || trap.is_of_long_traces()) && (resumes || !trap.is_of_starting());
        for (&trap, count) in told.iter_mut().filter(|(&trap, _)| is_tried(trap)) {
            *count += usize::from(replay_traps::tells(&asked.file, &asked.trace, &lent, &answer, trap));
        }
        if let (Ok(tables), Reply::Outside { steps, far }) = (read(&asked.file), answer.reply) {
            let Retaken { before, last, received } = Retaken::new(&tables, &asked.trace[..steps]);
            far_hits.add(&format!("replay {index}"), far, |trap| {
                far_of_replay(&tables, before.as_ref(), &last, &received, trap)
            });
        }
    }
    for (feature, &enough) in &asked {
        let count = features[feature];
        if count < enough {
            complaints.push(format!("only {count} replays have: {feature}"));
        }
    }
    for (trap, &count) in &told {
        if count < if trap.is_of_starting() { start_features::ENOUGH_TOLD } else { ENOUGH_REPLAYS_TOLD } {
            complaints.push(format!("only {count} replays tell {trap:?}"));
        }
    }
    complaints.extend(far_hits.complaints("replays"));
    complaints.extend(of_form.complaints("replays"));
    complaints.extend(of_order.complaints(ENOUGH_OF_ORDER));
    let mut report = format!("{} replays, {bytes} bytes of files and traces\n", cases.len());
    for (feature, count) in &features {
        report += &format!("{feature}: {count}\n");
    }
    for (trap, count) in &told {
        report += &format!("replays whose line would change by {trap:?}: {count}\n");
    }
    report += &far_hits.report("replays");
    Coverage { report: report + &of_form.report("replays") + &of_order.report(), complaints }
}

/// Each mistake changes the line of at least this many writings.
const ENOUGH_WRITINGS_TOLD: usize = 10;
/// Mistakes are tried on files up to this many bytes, which can have any count at its most. Those about order are searched
/// for plainly, on small files.
const SHORT_FILE: usize = 2_000;

/// The reply to a writing, and the buffer afterwards.
type Written = (Result<usize, Refusal>, Vec<u8>);

/// Lends the buffer that the writing asks for.
fn lent(asked: &Writing, call: impl FnOnce(&mut [u8]) -> Result<usize, Refusal>) -> Written {
    let mut buffer = asked.buffer();
    let reply = call(&mut buffer);
    (reply, buffer)
}

/// What a writing was made for: the reply, and that all other bytes are kept.
fn is_as_made(case: &writings::Case, (reply, buffer): &Written) -> bool {
    let mut kept = case.writing.buffer();
    let is_reply = match &case.expected {
        writings::Expected::Open => true,
        writings::Expected::Refused(number) => *reply == Err(Refusal { number: *number, place: 0 }),
        writings::Expected::File(file) => *reply == Ok(file.len()) && buffer.starts_with(file),
    };
    if let Ok(length) = *reply {
        kept[..length].copy_from_slice(&buffer[..length]);
    }
    is_reply && kept == *buffer
}

pub fn writing_coverage(cases: &[writings::Case]) -> Coverage {
    let asked = writing_features::asked();
    let mut features: BTreeMap<String, usize> = asked.keys().map(|feature| (feature.clone(), 0)).collect();
    let mut told: BTreeMap<WritingTrap, usize> = WritingTrap::all().map(|trap| (trap, 0)).collect();
    let mut of_form = FormHits::new(FormTrap::of_tables());
    let mut kinds: BTreeMap<&str, usize> = BTreeMap::new();
    let mut complaints = Vec::new();
    for (index, case) in cases.iter().enumerate() {
        let (kind, writing) = (case.kind, &case.writing);
        let (flat, product) = writing.tables();
        let answer = lent(writing, |buffer| write(&flat, product, buffer));
        *kinds.entry(kind).or_default() += 1;
        if !is_as_made(case, &answer) {
            complaints.push(format!("writing {index} ({kind}): made for {:?}, but {:?}", case.expected, answer.0));
        }
        let read_back = ReadBack::new(&flat, product);
        let other = lent(writing, |buffer| read_back.write(buffer, None));
        if other != answer {
            complaints.push(format!("writing {index} ({kind}): {:?}, but read back {:?}", answer.0, other.0));
        }
        for feature in writing_features::features(writing, answer.0) {
            features.entry(feature).and_modify(|count| *count += 1);
        }
        if writing.file.len() <= SMALL_FILE {
            of_form.add(&writing.file, |read| {
                let read = read.as_ref().map_or_else(|_| Flat::zero(), Flat::of);
                let (flat, product) = writing.edited(read);
                lent(writing, |buffer| write(&flat, product, buffer))
            });
        }
        if writing.file.len() <= SHORT_FILE {
            let is_small = writing.file.len() <= SMALL_FILE;
            for (&trap, count) in told.iter_mut().filter(|(trap, _)| is_small || !trap.is_about_order()) {
                *count += usize::from(lent(writing, |buffer| read_back.write(buffer, Some(trap))) != answer);
            }
        }
    }
    for (feature, &enough) in &asked {
        let count = features[feature];
        if count < enough {
            complaints.push(format!("only {count} writings have: {feature}"));
        }
    }
    for (trap, &count) in told.iter().filter(|(_, &count)| count < ENOUGH_WRITINGS_TOLD) {
        complaints.push(format!("only {count} writings tell {trap:?}"));
    }
    complaints.extend(of_form.complaints("writings"));
    let bytes: usize = cases.iter().map(|case| case.writing.file.len()).sum();
    let mut report = format!("{} writings, {bytes} bytes of files\n", cases.len());
    for (kind, count) in &kinds {
        report += &format!("made as {kind}: {count}\n");
    }
    for (feature, count) in &features {
        report += &format!("{feature}: {count}\n");
    }
    for (trap, count) in &told {
        report += &format!("writings whose line would change by {trap:?}: {count}\n");
    }
    Coverage { report: report + &of_form.report("writings"), complaints }
}

/// Each mistake changes the line of at least this many texts.
const ENOUGH_TEXTS_TOLD: usize = 20;

fn is_text_as_made(expected: texts::Expected, reply: &Result<Vec<State>, Refusal>) -> bool {
    match (expected, reply) {
        (texts::Expected::Open, _) | (texts::Expected::WithinLimits, Ok(_)) => true,
        (texts::Expected::WithinLimits, Err(refusal)) => *refusal == Refusal { number: 22, place: 0 },
        (texts::Expected::States(count), Ok(states)) => states.len() == count,
        (texts::Expected::Refused(number, place), Err(refusal)) => *refusal == Refusal { number, place },
        _ => false,
    }
}

/// What the texts hit.
struct TextHits<'c> {
    kinds: BTreeMap<&'c str, usize>,
    features: BTreeMap<String, usize>,
    told: BTreeMap<ExpressionTrap, usize>,
}

pub fn expression_coverage(cases: &[texts::Case]) -> Coverage {
    let mut hits = TextHits {
        kinds: BTreeMap::new(),
        features: expression_features::asked().into_keys().map(|feature| (feature, 0)).collect(),
        told: BTreeMap::from(ExpressionTrap::ALL.map(|trap| (trap, 0))),
    };
    let mut complaints: Vec<String> = cases.iter().flat_map(|case| hits.add(case)).collect();
    complaints.extend(hits.complaints());
    let bytes: usize = cases.iter().map(|case| case.text.len()).sum();
    Coverage { report: format!("{} texts, {bytes} bytes\n{}", cases.len(), hits.report()), complaints }
}

impl<'c> TextHits<'c> {
    /// Counts what a text hits, and returns where its replies are not one, or not the one it was made for.
    fn add(&mut self, case: &'c texts::Case) -> Vec<String> {
        let text = &case.text;
        let reply = expression(text);
        *self.kinds.entry(case.kind).or_default() += 1;
        for feature in expression_features::features(text, &reply) {
            self.features.entry(feature).and_modify(|count| *count += 1);
        }
        for (&trap, count) in &mut self.told {
            *count += usize::from(expression_with(text, Some(trap)) != reply);
        }
        let by_positions = pool_of(text);
        let pool = reply.as_ref().map(|states| Pool::of(states)).map_err(|refusal| *refusal);
        let wrong = [
            (format!("not {:?}", case.expected), !is_text_as_made(case.expected, &reply)),
            ("otherwise by positions".to_string(), by_positions != pool),
            ("otherwise by tokens".to_string(), expression_with(text, None) != reply),
        ];
        let complain = |what: String| format!("{}, \"{}\": {reply:?}, {what}", case.kind, text.escape_ascii());
        wrong.into_iter().filter(|(_, is_wrong)| *is_wrong).map(|(what, _)| complain(what)).collect()
    }

    fn complaints(&self) -> Vec<String> {
        let mut complaints = Vec::new();
        for (feature, enough) in expression_features::asked() {
            let count = self.features[&feature];
            if count < enough {
                complaints.push(format!("only {count} texts have: {feature}"));
            }
        }
        for (trap, count) in self.told.iter().filter(|(_, &count)| count < ENOUGH_TEXTS_TOLD) {
            complaints.push(format!("only {count} texts tell {trap:?}"));
        }
        complaints
    }

    fn report(&self) -> String {
        let mut report = String::new();
        for (kind, count) in &self.kinds {
            report += &format!("made as {kind}: {count}\n");
        }
        for (feature, count) in &self.features {
            report += &format!("{feature}: {count}\n");
        }
        for (trap, count) in &self.told {
            report += &format!("texts whose line would change by {trap:?}: {count}\n");
        }
        report
    }
}

//! The ways to a verdict, those to row 9, those to how far contents are followed, those to read a file that resumes, and those to a
//! file from tables, against each other on random small files; and those from a text to a pool, on random texts.

use std::collections::BTreeMap;

use crate::decide::{confirm, decide};
use crate::digest::reading_line as reply_line;
use crate::endings::{count as count_occurrences, reached_by_words};
use crate::expression::{expression, parse, Pool};
use crate::expression_traps::expression_with;
use crate::far_traps::far_of_step;
use crate::flat::Flat;
use crate::form_traps::read_form_with;
use crate::generate::expression::random_texts;
use crate::generate::reading::Generator;
use crate::generate::replay::random_runs;
use crate::generate::resuming_files::random_files;
use crate::generate::verdicts::{contents_after, Plans};
use crate::generate::writing::random_writings;
use crate::long_words::has_long_word;
use crate::membership::{membership, Member};
use crate::order::{in_queue_order, in_queue_order_by_words};
use crate::order_traps::read_with;
use crate::positions::{pool_at_once, pool_of};
use crate::read::{read, read_asking, Refusal, Tables, QUEUES};
use crate::replay::{replay, Answer, Lent, Record, Reply, QUEUE_ROOM};
use crate::replay_traps::replay_with;
use crate::rings::replay_in_rings;
use crate::traps::verdict_with;
use crate::verdict::{line, Verdict};
use crate::walk::control_state_after;
use crate::write::{write, NO_FILE};
use crate::writing_traps::write_with;

#[derive(Default)]
pub struct Agreement {
    /// Files by the first word of their line.
    pub verdicts: BTreeMap<String, usize>,
    /// Those among them that have a long word.
    pub verdicts_with_long_words: BTreeMap<String, usize>,
    /// Files that have too many actions to be decided by words.
    pub too_large_for_words: usize,
    pub too_large_with_long_words: usize,
    pub disagreements: Vec<String>,
}

/// Words looked at one by one are kept to about this many a file.
const PLAIN_WORDS: usize = 400;

pub fn selftest(seed: u64, count: usize) -> Agreement {
    let mut plans = Plans::new(seed);
    let mut agreement = Agreement::default();
    for round in 0..count {
        let plan = match round % 4 {
            0 => plans.small(),
            1 => plans.disordered(),
            _ => plans.long_worded(),
        };
        let bytes = plan.bytes();
        let (tables, walked) = plans.judge(&plan);
        match compare_verdicts(&bytes, &tables, &walked) {
            Ok(true) => {}
            Ok(false) => {
                agreement.too_large_for_words += 1;
                agreement.too_large_with_long_words += usize::from(has_long_word(&tables));
            }
            Err(other) => agreement.disagreements.push(other),
        }
        *agreement.verdicts.entry(first_word(&walked)).or_default() += 1;
        if has_long_word(&tables) {
            *agreement.verdicts_with_long_words.entry(first_word(&walked)).or_default() += 1;
        }
    }
    agreement
}

/// The other ways to a verdict beside that by walking. False where there are too many words to decide by them.
fn compare_verdicts(bytes: &[u8], tables: &Tables, walked: &Verdict) -> Result<bool, String> {
    let disagree = |with: &str, other: String| {
        let hex: String = bytes.iter().map(|byte| format!("{byte:02x} ")).collect();
        Err(format!("walk: {walked}; {with}: {other}; file {hex}"))
    };
    let by_words = decide(bytes);
    if let Ok(reply) = &by_words {
        if reply.as_ref() != Ok(walked) {
            return disagree("words", line(reply));
        }
    }
    let plain = verdict_with(tables, None);
    if plain != *walked {
        return disagree("plain search", plain.to_string());
    }
    let longest = (1..6).take_while(|&length| tables.message_sum.pow(length) <= PLAIN_WORDS).last().unwrap_or(1);
    if !confirm(tables, walked, longest as usize) {
        return disagree("definition", "not confirmed".to_string());
    }
    Ok(by_words.is_ok())
}

fn first_word(verdict: &Verdict) -> String {
    verdict.to_string().split(' ').next().unwrap_or_default().to_string()
}

#[derive(Default)]
pub struct FarAgreement {
    /// Files with a step that leaves, and those of them that were decided by words, too.
    pub leaves: usize,
    pub by_words: usize,
    /// Replays that end outside.
    pub outside: usize,
    pub disagreements: Vec<String>,
}

/// How far contents are followed. Of a step that leaves by all ways to a verdict, by arcs, and by asking membership of the
/// contents after it; the files are made for where these are lost. Of replays that end outside by all ways to replay, and by
/// asking membership of what waits at the end.
pub fn selftest_far(seed: u64, count: usize) -> FarAgreement {
    let mut plans = Plans::new(seed);
    let mut agreement = FarAgreement::default();
    for round in 0..count {
        let plan = if round % 20 == 0 { plans.losing_many() } else { plans.losing() };
        let bytes = plan.bytes();
        let (tables, walked) = plans.judge(&plan);
        match compare_verdicts(&bytes, &tables, &walked) {
            Ok(is_by_words) => agreement.by_words += usize::from(is_by_words),
            Err(other) => agreement.disagreements.push(other),
        }
        if let Verdict::Leaves { control_state, transition, contents, far } = &walked {
            agreement.leaves += 1;
            let step = &tables.transitions[*transition];
            let by_arcs = far_of_step(&tables, *control_state, step, contents, None);
            let led_to = control_state_after(&tables, *control_state, step).expect("the step is possible");
            let before = membership(&bytes, *control_state, contents);
            let after = membership(&bytes, led_to, &contents_after(&plan, *transition, contents));
            let as_members = [(true, contents.len()), (false, *far)].map(|(belongs, far)| Ok(Member { belongs, far }));
            if by_arcs != *far || [before, after] != as_members {
                agreement.disagreements.push(format!("{walked}: by arcs {by_arcs}, asked {before:?} and {after:?}"));
            }
        }
    }
    for (file, trace) in random_runs(seed, count) {
        let lent = Lent { record: Record::default(), memory: vec![0; QUEUES * QUEUE_ROOM] };
        let answer = replay(&file, &trace, &lent);
        let mut rings = lent.clone();
        let reply = replay_in_rings(&mut rings.record, &file, &trace, &mut rings.memory);
        let others = [Answer { reply, lent: rings }, replay_with(&file, &trace, &lent, None)];
        let Reply::Outside { far, .. } = answer.reply else { continue };
        agreement.outside += 1;
        let tables = read(&file).expect("files of random runs are read");
        let waiting = answer.lent.memory.chunks(QUEUE_ROOM).zip(answer.lent.record.lengths);
        let contents: Vec<u8> = waiting.flat_map(|(room, length)| room[..length].to_vec()).collect();
        let states = answer.lent.record.states[..tables.machine_count].iter().zip(tables.states);
        let control_state =
            states.fold(0, |number, (&state, states)| number * usize::from(states) + usize::from(state));
        let asked = membership(&file, control_state, &contents);
        if others != [answer.clone(), answer.clone()] || asked != Ok(Member { belongs: false, far }) {
            agreement.disagreements.push(format!("{}, others {others:?}, asked {asked:?}; {file:?}", answer.reply));
        }
    }
    agreement
}

#[derive(Default)]
pub struct OrderAgreement {
    pub in_order: usize,
    pub out_of_order: usize,
    pub disagreements: Vec<String>,
}

/// Row 9 by sets of states, by every word and by arcs, on small pools whose arcs heed no order.
pub fn selftest_order(seed: u64, count: usize) -> OrderAgreement {
    let mut plans = Generator::new(seed);
    let mut agreement = OrderAgreement::default();
    for _ in 0..count {
        let bytes = plans.plan_in_any_order().bytes();
        let tables = read_asking(&bytes, |_| true).expect("nothing else is wrong");
        let in_order = in_queue_order(&tables);
        let by_words = in_queue_order_by_words(&tables).expect("the pool is small");
        let by_arcs = read_with(&bytes, None);
        if by_words != in_order || by_arcs != read(&bytes) || by_arcs.is_ok() != in_order {
            let hex: String = bytes.iter().map(|byte| format!("{byte:02x} ")).collect();
            agreement.disagreements.push(format!("by sets: {in_order}; by words: {by_words}; file {hex}"));
        }
        *if in_order { &mut agreement.in_order } else { &mut agreement.out_of_order } += 1;
    }
    agreement
}

#[derive(Default)]
pub struct FormAgreement {
    /// Files that are read, those of them that resume, and those that are refused.
    pub read: usize,
    pub resuming: usize,
    pub refused: usize,
    pub disagreements: Vec<String>,
}

/// Both forms read from left to right, and with what waits at the start taken out; most files are damaged.
pub fn selftest_forms(seed: u64, count: usize) -> FormAgreement {
    let mut agreement = FormAgreement::default();
    for file in random_files(seed, count) {
        let (reply, other) = (read(&file), read_form_with(&file, None));
        if reply != other {
            let hex: String = file.iter().map(|byte| format!("{byte:02x} ")).collect();
            let replies = [reply_line(&reply), reply_line(&other)];
            agreement
                .disagreements
                .push(format!("from left to right: {}; taken out: {}; file {hex}", replies[0], replies[1]));
        }
        match reply {
            Err(_) => agreement.refused += 1,
            Ok(tables) => {
                agreement.read += 1;
                agreement.resuming += usize::from(tables.resumes());
            }
        }
    }
    agreement
}

#[derive(Default)]
pub struct WritingAgreement {
    pub of_a_file: usize,
    pub of_none: usize,
    pub disagreements: Vec<String>,
}

/// Whether some file is read into tables, and which one: asked of each entry, and by writing them whatever they are, reading
/// what was written and comparing. The tables are of small files, most of them damaged in a few entries.
pub fn selftest_writing(seed: u64, count: usize) -> WritingAgreement {
    let mut agreement = WritingAgreement::default();
    for asked in random_writings(seed, count) {
        let (flat, product) = asked.tables();
        let [mut buffer, mut other_buffer] = [asked.buffer(), asked.buffer()];
        let reply = write(&flat, product, &mut buffer);
        let other = write_with(&flat, product, &mut other_buffer, None);
        let is_read = reply.is_err() || read(&buffer[..reply.unwrap_or(0)]).map(|tables| Flat::of(&tables)) == Ok(flat);
        if (reply, buffer) != (other, other_buffer) || !is_read {
            agreement.disagreements.push(format!("entry by entry: {reply:?}; read back: {other:?}; {asked:?}"));
        }
        match reply {
            Err(Refusal { number: NO_FILE, .. }) => agreement.of_none += 1,
            _ => agreement.of_a_file += 1,
        }
    }
    agreement
}

#[derive(Default)]
pub struct ExpressionAgreement {
    pub pools: usize,
    pub refused: usize,
    /// Pools that words were made for one by one, and those of them all states of which were reached so.
    pub by_words: usize,
    pub all_reached: usize,
    pub disagreements: Vec<String>,
}

/// Words are made one by one for texts of up to so many occurrences, and are of up to so many messages.
const FEW_OCCURRENCES: usize = 3;
const MESSAGES_OF_WORDS: usize = 5;

/// Pools by derivatives, by positions, and by tokens; for small texts by the words of the language, too.
pub fn selftest_expression(seed: u64, count: usize) -> ExpressionAgreement {
    let mut agreement = ExpressionAgreement::default();
    for text in random_texts(seed, count) {
        let reply = expression(&text);
        let mut disagree = |with: &str| {
            let text = text.escape_ascii();
            agreement.disagreements.push(format!("derivatives: {reply:?}; {with}; text \"{text}\""));
        };
        let pool = reply.clone().map(|states| Pool::of(&states));
        if pool_of(&text) != pool || pool_at_once(&text) != pool {
            disagree("otherwise by positions");
        }
        if expression_with(&text, None) != reply {
            disagree("otherwise by tokens");
        }
        let Ok(states) = &reply else {
            agreement.refused += 1;
            continue;
        };
        agreement.pools += 1;
        let alternatives = parse(&text).expect("a text of the grammar");
        if count_occurrences(&alternatives) <= FEW_OCCURRENCES {
            agreement.by_words += 1;
            match reached_by_words(states, &alternatives, MESSAGES_OF_WORDS) {
                Ok(reached) => agreement.all_reached += usize::from(reached == states.len()),
                Err(wrong) => disagree(&wrong),
            }
        }
    }
    agreement
}

//! Writing, against tables worked by hand from the document and the C header.

use std::collections::BTreeSet;

use reference_checker::coverage::writing_coverage;
use reference_checker::digest::writing_line;
use reference_checker::flat::{Flat, Part};
use reference_checker::generate::document::{hex, R, S};
use reference_checker::generate::large::longest;
use reference_checker::generate::reading::reading_cases;
use reference_checker::generate::writing::writing_cases;
use reference_checker::random::Random;
use reference_checker::read::{read, Refusal};
use reference_checker::selftest::selftest_writing;
use reference_checker::stream::{put_writing, Edit, Handed, Records, Writing};
use reference_checker::write::{faults, file_of, write, Fault};
use reference_checker::writing_traps::{write_with, WritingTrap, LONGEST_WRITTEN};

const NO_FILE: Result<usize, Refusal> = Err(Refusal { number: 16, place: 0 });
const TOO_SHORT: Result<usize, Refusal> = Err(Refusal { number: 17, place: 0 });

/// Entries at their places in the header.
fn flat(entries: &[(usize, &[u8])]) -> Flat {
    let mut flat = Flat::zero();
    for &(place, entries) in entries {
        flat.0[place..place + entries.len()].copy_from_slice(entries);
    }
    flat
}

fn flat_of_r() -> Flat {
    flat(&[
        (0, &[2, 1, 1, 2, 1, 0]),
        (6, &[1, 1]),
        (14, &[1]),
        (54, &[0, 0, 0, 1, 0, 1, 0]),
        (54 + 22, &[1, 0, 0, 2, 0, 1, 0]),
        (2870, &[1]),
        (2997, &[1]),
        (7061, &[1]),
    ])
}

fn flat_of_s() -> Flat {
    flat(&[
        (0, &[1, 2, 2, 1, 2, 0]),
        (6, &[1]),
        (14, &[1, 1]),
        (54, &[0, 0, 0, 1, 0, 1, 0]),
        (2870, &[1, 1]),
        (2997, &[1, 2]),
        (2997 + 32, &[0, 2]),
        (7061, &[1]),
    ])
}

fn with(flat: &Flat, edits: &[(usize, u8)]) -> Flat {
    let mut flat = flat.clone();
    for &(place, value) in edits {
        flat.0[place] = value;
    }
    flat
}

/// Writes to a buffer of some length that was all 9.
fn written(flat: &Flat, length: usize) -> (Result<usize, Refusal>, Vec<u8>) {
    let mut buffer = vec![9; length];
    let reply = write(flat, flat.product(), &mut buffer);
    (reply, buffer)
}

#[test]
fn r_and_s_are_restored() {
    for (text, flat) in [(R, flat_of_r()), (S, flat_of_s())] {
        let file = hex(text);
        assert_eq!(read(&file).map(|tables| Flat::of(&tables)), Ok(flat.clone()));
        assert_eq!(written(&flat, file.len()), (Ok(file.len()), file.clone()));
    }
}

#[test]
fn bytes_past_the_file_are_kept() {
    let longer = [&hex(R)[..], &[9; 11]].concat();
    assert_eq!(written(&flat_of_r(), 40), (Ok(29), longer));
    assert_eq!(written(&flat_of_r(), 28), (TOO_SHORT, vec![9; 28]));
    assert_eq!(written(&flat_of_r(), 0), (TOO_SHORT, vec![]));
}

#[test]
fn no_file_comes_before_too_short() {
    let damaged = with(&flat_of_r(), &[(7317, 1)]);
    for length in [0, 28, 29, 20_000] {
        assert_eq!(written(&damaged, length), (NO_FILE, vec![9; length]));
        assert_eq!(written(&Flat::zero(), length), (NO_FILE, vec![9; length]));
    }
}

#[test]
fn lines_have_the_reply_and_the_digest_of_the_whole_buffer() {
    // ((0 * 257 + 3) * 257 + 5) for bytes 2 and 4.
    assert_eq!(writing_line(Ok(1), &[2, 4]), "wrote 1 776");
    assert_eq!(writing_line(TOO_SHORT, &[]), "refused 17 at 0 0");
}

#[test]
fn each_fault_in_r() {
    let alone = [
        (2, 2, Fault::SumIsAnother),
        (2, 0, Fault::SumIsAnother),
        (8, 1, Fault::StatesPast),
        (11, 1, Fault::Start),
        (12, 1, Fault::StartsPast),
        (13, 255, Fault::StartsPast),
        (15, 1, Fault::MessagesPast),
        (54, 2, Fault::Machine),
        (55, 1, Fault::From),
        (56, 1, Fault::To),
        (57, 3, Fault::Kind),
        (57, 0, Fault::LocalLength),
        (58, 1, Fault::Queue),
        (59, 17, Fault::Length),
        (59, 255, Fault::Length),
        (60, 1, Fault::Message),
        (61, 1, Fault::WordPast),
        (75, 1, Fault::WordPast),
        (98, 1, Fault::RowPast),
        (2869, 1, Fault::RowPast),
        (2870, 2, Fault::Final),
        (2871, 1, Fault::FinalPast),
        (2996, 1, Fault::FinalPast),
        (2997, 2, Fault::Target),
        (2998, 1, Fault::ArcPastSum),
        (3028, 1, Fault::ArcPastSum),
        (3029, 1, Fault::ArcPast),
        (7060, 1, Fault::ArcPast),
        (7061, 2, Fault::Root),
        (7062, 1, Fault::RootPast),
        (7316, 1, Fault::RootPast),
        (7317, 1, Fault::BadPast),
        (7444, 1, Fault::BadPast),
    ];
    for (place, value, fault) in alone {
        let damaged = with(&flat_of_r(), &[(place, value)]);
        assert_eq!(faults(&damaged, damaged.product()), BTreeSet::from([fault]), "{value} at {place}");
        assert_eq!(written(&damaged, 40), (NO_FILE, vec![9; 40]), "{value} at {place}");
    }
}

#[test]
fn faults_of_several_entries() {
    let of = |flat: &Flat, edits: &[(usize, u8)]| {
        let damaged = with(flat, edits);
        faults(&damaged, damaged.product()).into_iter().collect::<Vec<Fault>>()
    };
    let (r, s) = (flat_of_r(), flat_of_s());
    assert_eq!(of(&r, &[(0, 1)]), [Fault::StatesPast, Fault::Machine]);
    assert_eq!(of(&r, &[(0, 3)]), [Fault::States, Fault::Start, Fault::RootPast]);
    assert_eq!(of(&r, &[(1, 2)]), [Fault::Messages]);
    assert_eq!(of(&r, &[(3, 1)]), [Fault::RowPast]);
    assert_eq!(of(&r, &[(4, 0)]), [Fault::PoolStates, Fault::FinalPast, Fault::ArcPast, Fault::Root]);
    assert_eq!(of(&r, &[(6, 17)]), [Fault::States]);
    assert_eq!(of(&r, &[(6, 16), (7, 16)]), []);
    assert_eq!(of(&r, &[(6, 16), (7, 17)]), [Fault::States, Fault::ProductPasses]);
    assert_eq!(of(&r, &[(2, 33), (14, 33)]), [Fault::Messages, Fault::SumPasses]);
    assert_eq!(of(&r, &[(1, 2), (2, 33), (14, 32), (15, 1)]), [Fault::SumPasses]);
    // The first transition of R becomes local entry by entry.
    assert_eq!(of(&r, &[(57, 0), (58, 1), (59, 0), (66, 5)]), [Fault::LocalQueue, Fault::LocalWord]);
    assert_eq!(of(&r, &[(57, 0), (59, 0)]), []);
    // In S message 1 is of queue 1, and with an arc for 0 behind it 1 0 is accepted, unless no root leads there.
    assert_eq!(of(&s, &[(60, 1)]), [Fault::MessageOfAnotherQueue]);
    assert_eq!(of(&s, &[(58, 1)]), [Fault::MessageOfAnotherQueue]);
    assert_eq!(of(&s, &[(58, 1), (60, 1)]), []);
    assert_eq!(of(&s, &[(3029, 1)]), [Fault::OutOfOrder]);
    assert_eq!(of(&s, &[(3029, 1), (7061, 0)]), []);
    assert_eq!(of(&s, &[(3029, 1), (7061, 0), (5, 1)]), [Fault::OutOfOrder]);
}

#[test]
fn the_product_handed_in_is_compared() {
    let mut buffer = [9; 29];
    for product in [0, 2, 257, 65_537] {
        assert_eq!(write(&flat_of_r(), product, &mut buffer), NO_FILE);
    }
    assert_eq!(buffer, [9; 29]);
    assert_eq!(write(&flat_of_r(), 1, &mut buffer), Ok(29));
}

#[test]
fn other_entries_are_other_files() {
    // A word of two messages, a local step more, a bad entry more, a state more.
    let before_pool = "02 01 01 00 00 01 01";
    let steps = "00 00 00 01 00 01 00 01 00 00 02 00 01 00";
    let pool = "01 01 01 00 00";
    for (edit, file) in [
        ((59, 2), format!("{before_pool} 02 00 00 00 01 00 02 00 00 01 00 00 02 00 01 00 {pool} 01 00")),
        ((3, 3), format!("{before_pool} 03 {steps} 00 00 00 00 {pool} 01 00")),
        ((5, 1), format!("{before_pool} 02 {steps} {pool} 01 01 00 00")),
        ((4, 2), format!("{before_pool} 02 {steps} 02 01 01 00 00 00 00 01 00")),
        ((2870, 0), format!("{before_pool} 02 {steps} 01 00 01 00 00 01 00")),
        ((2997, 0), format!("{before_pool} 02 {steps} 01 01 00 01 00")),
        ((7061, 0), format!("{before_pool} 02 {steps} {pool} 00 00")),
    ] {
        let (file, damaged) = (hex(&file), with(&flat_of_r(), &[edit]));
        assert_eq!(written(&damaged, file.len()), (Ok(file.len()), file), "{edit:?}");
    }
}

#[test]
fn numbers_from_128_on_take_two_bytes() {
    // One machine of 16 states and one of 16, 128 local transitions, 127 states without arcs, four bad entries.
    let mut tables = flat(&[(0, &[2, 1, 1, 128, 127, 4]), (6, &[16, 16]), (14, &[1]), (7061, &[127, 0, 126])]);
    for (entry, (control_state, root)) in [(127, 126), (128, 0), (255, 1), (0, 125)].into_iter().enumerate() {
        tables.0[7317 + 2 * entry] = control_state;
        tables.0[7318 + 2 * entry] = root;
    }
    let mut file = hex("02 10 10 00 00 01 01 80 01");
    file.extend([0; 4 * 128]);
    file.push(127);
    file.extend([0; 2 * 127]);
    file.extend([127, 0, 126]);
    file.extend([0; 253]);
    file.extend(hex("04 7f 7e 80 01 00 ff 01 01 00 7d"));
    assert_eq!(written(&tables, file.len()), (Ok(file.len()), file));
}

#[test]
fn the_longest_file_is_restored() {
    let file = longest(&mut Random::new(1)).bytes();
    assert_eq!(file.len(), LONGEST_WRITTEN);
    let tables = Flat::of(&read(&file).expect("the longest file is read"));
    assert_eq!(written(&tables, LONGEST_WRITTEN - 1), (TOO_SHORT, vec![9; LONGEST_WRITTEN - 1]));
    assert_eq!(written(&tables, LONGEST_WRITTEN), (Ok(LONGEST_WRITTEN), file));
}

#[test]
fn every_file_that_is_read_is_restored() {
    let mut restored = 0;
    for case in reading_cases(31).cases {
        let Ok(tables) = read(&case.bytes) else { continue };
        let flat = Flat::of(&tables);
        assert_eq!(flat.tables(), tables, "{}", case.kind);
        assert_eq!(file_of(&flat), case.bytes, "{}", case.kind);
        assert_eq!(written(&flat, case.bytes.len()), (Ok(case.bytes.len()), case.bytes), "{}", case.kind);
        restored += 1;
    }
    assert!(restored > 1_000, "{restored}");
}

#[test]
fn entry_by_entry_and_reading_back_agree() {
    let agreement = selftest_writing(41, 12_000);
    assert!(agreement.disagreements.is_empty(), "{}", agreement.disagreements.join("\n"));
    assert!(agreement.of_a_file > 3_000 && agreement.of_none > 3_000);
}

#[test]
fn entries_are_of_their_parts() {
    let r = with(&flat_of_r(), &[(57, 0), (59, 0), (5, 1)]);
    for (place, part) in [
        (0, Part::Machines),
        (5, Part::BadEntries),
        (7, Part::States),
        (8, Part::StatesPast),
        (11, Part::Starts),
        (12, Part::StartsPast),
        (14, Part::Messages),
        (15, Part::MessagesPast),
        (58, Part::LocalQueue),
        (59, Part::LocalLength),
        (60, Part::LocalWord),
        (76 + 4, Part::Queue),
        (76 + 6, Part::Word),
        (76 + 7, Part::WordPast),
        (98, Part::RowPast),
        (2870, Part::Final),
        (2871, Part::FinalPast),
        (2997, Part::Arc),
        (2998, Part::ArcPastSum),
        (3029, Part::ArcPast),
        (7061, Part::Root),
        (7062, Part::RootPast),
        (7317, Part::BadControlState),
        (7318, Part::BadRoot),
        (7319, Part::BadPast),
    ] {
        assert_eq!(Part::of(place, &r), part, "{place}");
    }
    assert_eq!(Part::RowPast.ends_at(98, &r), [true, false]);
    assert_eq!(Part::BadPast.ends_at(7444, &r), [false, true]);
}

#[test]
fn mistakes_change_what_is_worked_by_hand() {
    let changes = |flat: &Flat, length: usize, trap: WritingTrap| {
        let mut buffer = vec![9; length];
        let reply = write_with(flat, flat.product(), &mut buffer, Some(trap));
        (reply, buffer) != written(flat, length)
    };
    let r = flat_of_r();
    assert!(changes(&r, 30, WritingTrap::ByteAfterCleared) && !changes(&r, 29, WritingTrap::ByteAfterCleared));
    assert!(changes(&r, 29, WritingTrap::ExactRefused) && !changes(&r, 30, WritingTrap::ExactRefused));
    assert!(changes(&r, 28, WritingTrap::OneShortTaken) && !changes(&r, 27, WritingTrap::OneShortTaken));
    let damaged = with(&r, &[(7444, 1)]);
    assert!(changes(&damaged, 29, WritingTrap::Unseen(Part::BadPast)));
    assert!(!changes(&damaged, 29, WritingTrap::Unseen(Part::RootPast)));
    assert!(changes(&damaged, 28, WritingTrap::SeventeenFirst) && !changes(&damaged, 29, WritingTrap::SeventeenFirst));
    assert!(changes(&with(&r, &[(2, 2)]), 29, WritingTrap::SumUnseen));
    assert!(changes(&with(&flat_of_s(), &[(3029, 1)]), 40, WritingTrap::OrderUnasked));
}

#[test]
fn streams_of_writings_are_read_back() {
    let asked: Vec<Writing> = writing_cases(3).into_iter().map(|case| case.writing).collect();
    let mut stream = Vec::new();
    for writing in &asked {
        put_writing(&mut stream, writing);
    }
    let mut records = Records(&stream);
    for writing in &asked {
        assert_eq!(records.writing().expect("a record is left").as_ref(), Ok(writing));
    }
    assert!(records.writing().is_none());
}

#[test]
fn writings_are_put_as_the_page_says() {
    let mut stream = Vec::new();
    let edits = vec![Edit { place: 7_444, value: 3 }, Edit { place: 1, value: 2 }];
    let edited = Writing { file: vec![5], buffer_length: 20_000, buffer_from: 250, handed: Handed::Edited(edits) };
    put_writing(&mut stream, &edited);
    assert_eq!(stream, [1, 0, 0, 5, 10, 0, 0, 0x20, 0x4e, 250, 0, 0x14, 0x1d, 3, 1, 0, 2]);
    assert_eq!(edited.buffer()[..3], [250, 1, 8]);
    stream.clear();
    put_writing(&mut stream, &Writing { handed: Handed::Product(65_538), ..edited });
    assert_eq!(stream, [1, 0, 0, 5, 7, 0, 0, 0x20, 0x4e, 250, 1, 2, 0, 1]);
    for (broken, why) in [
        (vec![0, 0, 0, 4, 0, 0, 1, 0, 0, 2], "mode 2"),
        (vec![0, 0, 0, 5, 0, 0, 1, 0, 0, 0, 4], "inside a record"),
        (vec![0, 0, 0, 7, 0, 0, 1, 0, 0, 0, 0x15, 0x1d, 3], "place 7445"),
        (vec![0, 0, 0, 8, 0, 0, 1, 0, 0, 1, 0, 0, 0, 0], "1 bytes are left"),
    ] {
        let complaint = Records(&broken).writing().expect("bytes are left").expect_err(why);
        assert!(complaint.contains(why), "{complaint}");
    }
}

#[test]
fn generated_writings_fare_as_they_were_made() {
    let coverage = writing_coverage(&writing_cases(5));
    assert!(coverage.complaints.is_empty(), "{}", coverage.complaints.join("\n"));
}

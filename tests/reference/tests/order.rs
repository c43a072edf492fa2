//! Row 9: the ways to it against each other, and parts out of order that change nothing but pairs.

use reference_checker::generate::disorder::{add_harmless, add_some_harmless, Harmless};
use reference_checker::generate::document::{hex, samples};
use reference_checker::generate::large;
use reference_checker::generate::verdicts::Plans;
use reference_checker::order::{accepts_out_of_order, in_queue_order, in_queue_order_by_words};
use reference_checker::order_features::places_out_of_order;
use reference_checker::order_traps::{read_with, OrderTrap};
use reference_checker::random::Random;
use reference_checker::read::{read, read_asking, Tables};
use reference_checker::selftest::selftest_order;
use reference_checker::verdict::Verdict;

fn unasked(text: &str) -> Tables {
    read_asking(&hex(text), |_| true).unwrap_or_else(|refusal| panic!("{text} was {refusal}"))
}

#[test]
fn three_ways_agree_on_pools_in_any_order() {
    let agreement = selftest_order(11, 6_000);
    assert!(agreement.disagreements.is_empty(), "{}", agreement.disagreements.join("\n"));
    assert!(agreement.in_order > 1_000 && agreement.out_of_order > 1_000);
}

#[test]
fn words_are_made_up_to_their_length() {
    // Queues of one message each. Root 0 leads by 1 to state 1, by 1 to state 2, by 0 to state 3, which is final.
    let tables = unasked("01 01 00 02 01 01 00  04 00 01 01 01 00 01 01 02 00 01 00 03 01 00  01 00");
    assert!(!in_queue_order(&tables));
    assert_eq!(in_queue_order_by_words(&tables), Some(false));
    assert!(accepts_out_of_order(&tables, 3) && !accepts_out_of_order(&tables, 2));
}

#[test]
fn large_pools_are_not_asked_by_words() {
    let file = large::longest_test_of_order(&mut Random::new(1)).bytes();
    let tables = read(&file).expect("nothing is accepted");
    assert_eq!((file.len(), in_queue_order_by_words(&tables)), (8_394, None));
    let mut with_final = tables.clone();
    with_final.finals[126] = true;
    assert!(in_queue_order(&tables) && !in_queue_order(&with_final));
}

#[test]
fn samples_are_in_order_everywhere() {
    for sample in samples() {
        let tables = read(&sample.bytes).expect("the samples are read");
        assert!(places_out_of_order(&tables).is_empty(), "{}", sample.name);
    }
}

#[test]
fn harmless_parts_are_where_they_were_made() {
    let mut plans = Plans::new(21);
    let mut added = [0; Harmless::ALL.len()];
    for _ in 0..2_000 {
        let mut plan = plans.small();
        let (tables, _) = plans.judge(&plan);
        let part = Harmless::ALL[plans.random.below(added.len())];
        if places_out_of_order(&tables).is_empty() && add_harmless(&mut plans.random, &mut plan, part) {
            let places = places_out_of_order(&plans.judge(&plan).0);
            assert!(places.contains(part.place()), "{part:?}: {places:?}");
            added[part as usize] += 1;
        }
    }
    assert!(added.iter().all(|&plans| plans > 50), "{added:?}");
}

#[test]
fn harmless_parts_change_no_verdict_but_pairs_and_how_far() {
    let mut plans = Plans::new(22);
    let (mut more_pairs, mut farther) = (0, 0);
    for _ in 0..3_000 {
        let mut plan = plans.small();
        let (_, before) = plans.judge(&plan);
        add_some_harmless(&mut plans.random, &mut plan);
        let (_, after) = plans.judge(&plan);
        match (&before, &after) {
            (Verdict::Closed { pairs: fewer }, Verdict::Closed { pairs }) => {
                assert!(fewer <= pairs);
                more_pairs += usize::from(fewer < pairs);
            }
            // Into a dead end contents are followed farther.
            (Verdict::Leaves { far: less, .. }, Verdict::Leaves { far, .. }) => {
                assert_eq!(before.without_far(), after.without_far());
                assert!(less <= far);
                farther += usize::from(less < far);
            }
            _ => assert_eq!(before, after),
        }
    }
    assert!(more_pairs > 100 && farther > 10, "{more_pairs}, {farther}");
}

#[test]
fn mistakes_change_files_worked_by_hand() {
    let changes = |text: &str, trap: OrderTrap| {
        let file = hex(text);
        read_with(&file, Some(trap)) != read(&file)
    };
    // Queues of one and two messages. State 1 is entered by 1 and left by 0.
    let with = |rest: &str| format!("01 02 00 02 01 02 00 {rest}");
    let dead_end = with("03 01 01 01 01 01 01 00 02 00 00  01 00 00");
    assert!(changes(&dead_end, OrderTrap::DeadEndsCount) && !changes(&dead_end, OrderTrap::UnusedStatesCount));
    let unused = with("03 01 00 01 01 01 02 01 01 00 02  01 00 00");
    assert!(changes(&unused, OrderTrap::UnusedStatesCount) && !changes(&unused, OrderTrap::DeadEndsCount));
    let bad_root = with("03 00 01 01 01 00 01 00 02 01 00  00 03 01 00 00");
    assert!(changes(&bad_root, OrderTrap::BadRootsForgotten) && changes(&bad_root, OrderTrap::RootlessBadForgotten));
    let bad_root = with("03 00 01 01 01 00 01 00 02 01 00  03 00 01 00 00");
    assert!(changes(&bad_root, OrderTrap::BadRootsForgotten) && !changes(&bad_root, OrderTrap::RootlessBadForgotten));
    let equal_queues = with("03 00 01 01 01 00 01 02 02 01 00  01 00 00");
    assert!(changes(&equal_queues, OrderTrap::EqualQueuesRefused));
    assert!(!changes(&equal_queues, OrderTrap::NumbersCompared));
    let descending = with("03 00 01 02 01 00 01 01 02 01 00  01 00 00");
    assert!(changes(&descending, OrderTrap::NumbersCompared));
    let fault = "03 00 01 01 01 00 01 00 02 01 00";
    assert!(changes(&with(&format!("{fault} 01 04")), OrderTrap::AskedAfterField4));
    assert!(changes(&with(&format!("{fault} 01 00 41")), OrderTrap::AskedAfterField5));
    assert!(changes(&with(&format!("{fault} 01 00 00 00")), OrderTrap::AskedAfterTheEnd));
    assert!(changes(&with(&format!("{fault} 01 00 00")), OrderTrap::PlaceAfterField4));
}

//! Compare: the product finds a difference where brute force does, with as few objects.

use agreement::comparing::{comparing_agrees, four_objects_agree, Tally};

/// Pairs of diagrams that are compared.
const PAIRS: usize = 4_000;

/// Small pairs that are compared with up to four objects.
const FOUR_OBJECT_PAIRS: usize = 1_500;

#[test]
fn compare_agrees_on_small_edits() {
    let mut tally = Tally::default();
    for seed in 0..PAIRS as u64 {
        comparing_agrees(seed, &mut tally);
    }
    println!("{tally:?}");
    let differences: usize = tally.differences.iter().sum();
    assert!(
        tally.skipped * 50 <= PAIRS,
        "more than 1 of 50 left out: {tally:?}"
    );
    assert!(
        tally.no_difference * 5 >= PAIRS,
        "fewer than 1 of 5 alike: {tally:?}"
    );
    assert!(
        differences * 5 >= PAIRS,
        "fewer than 1 of 5 differ: {tally:?}"
    );
    for (count, times) in tally.differences.iter().enumerate() {
        assert!(
            *times >= 10,
            "differences of {count} objects are too rare: {tally:?}"
        );
    }
    for (rule, times) in tally.rules.iter().enumerate().skip(1) {
        assert!(
            *times >= 5,
            "differences by rule {rule} are too rare: {tally:?}"
        );
    }
}

#[test]
fn compare_agrees_with_up_to_four_objects() {
    let mut tally = Tally::default();
    for seed in 0..FOUR_OBJECT_PAIRS as u64 {
        four_objects_agree(seed, &mut tally);
    }
    println!("{tally:?}");
    assert!(
        tally.skipped * 10 <= FOUR_OBJECT_PAIRS,
        "more than 1 of 10 left out: {tally:?}"
    );
    assert!(
        tally.of_four >= 5,
        "differences of four objects are too rare: {tally:?}"
    );
}

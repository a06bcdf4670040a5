//! Files, whole and damaged: the product accepts and refuses as the independent readers do.

use agreement::files::{diagram_files, diagrams_agree, record_files, records_agree, Tally};
use generators::damage::damaged;
use generators::diagrams::{diagram, SMALL};
use generators::limits::full;
use generators::record_limits::largest;
use generators::Random;

/// Every number from `wanted` must have come at least `least` times.
fn occurred(tally: &Tally, wanted: std::ops::RangeInclusive<usize>, least: usize) {
    for number in wanted {
        assert!(
            tally[number] >= least,
            "reply {number} came too rarely: {tally:?}"
        );
    }
}

#[test]
fn diagram_files_agree() {
    let mut tally = Tally::default();
    for seed in 0..1_500 {
        diagrams_agree(seed, &diagram_files(seed), &mut tally);
    }
    occurred(&tally, 0..=8, 20);
}

#[test]
fn files_with_the_number_of_the_other_edition_agree() {
    let mut tally = Tally::default();
    for seed in 0..600 {
        let mut file = diagram(&mut Random::new(seed), SMALL).file();
        file[3] = 3 - file[3];
        diagrams_agree(seed, &[file], &mut tally);
    }
    occurred(&tally, 3..=3, 200);
    assert_eq!(tally[0] + tally[3], 600, "{tally:?}");
}

#[test]
fn record_files_agree() {
    let mut tally = Tally::default();
    for seed in 0..1_500 {
        records_agree(seed, &record_files(seed), &mut tally);
    }
    occurred(&tally, 0..=6, 20);
}

#[test]
fn files_at_the_limits_agree() {
    let mut tally = Tally::default();
    diagrams_agree(0, &generators::limits::diagram_files(), &mut tally);
    records_agree(0, &generators::record_limits::record_files(), &mut tally);
    occurred(&tally, 0..=4, 5);
    occurred(&tally, 6..=6, 5);
}

#[test]
fn damage_of_the_largest_files_agrees() {
    let mut tally = Tally::default();
    let mut random = Random::new(1);
    let (wide, narrow, record) = (full(2).fields(), full(1).fields(), largest().fields());
    let mut diagrams: Vec<_> = (0..200).map(|_| damaged(&mut random, &wide)).collect();
    diagrams.extend((0..200).map(|_| damaged(&mut random, &narrow)));
    let records: Vec<_> = (0..60).map(|_| damaged(&mut random, &record)).collect();
    diagrams_agree(1, &diagrams, &mut tally);
    records_agree(1, &records, &mut tally);
    occurred(&tally, 0..=3, 5);
}

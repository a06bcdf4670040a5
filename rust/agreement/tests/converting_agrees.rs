//! Convert: the product writes the files that the independent converter does, and refuses the same.

use agreement::converting::{conversions_agree, files, Tally};
use generators::damage::damaged;
use generators::limits::{diagram_files, full};
use generators::Random;

/// Files of either edition must have been written, and every one of these numbers have come, so often.
fn occurred(tally: &Tally, numbers: &[usize], least: usize) {
    println!("{tally:?}");
    let numbers = numbers.iter().map(|number| tally.statuses[*number]);
    let often = tally.written.into_iter().chain(numbers);
    assert!(often.min() >= Some(least), "something is rare: {tally:?}");
}

#[test]
fn files_are_converted_alike() {
    let mut tally = Tally::default();
    for seed in 0..1_500 {
        conversions_agree(seed, &files(seed), &mut tally);
    }
    occurred(&tally, &[1, 2, 3, 6, 20, 25], 20);
}

#[test]
fn files_at_the_limits_are_converted_alike() {
    let mut tally = Tally::default();
    conversions_agree(0, &diagram_files(), &mut tally);
    occurred(&tally, &[1, 2, 3, 4, 6, 20, 25], 5);
}

#[test]
fn the_largest_files_are_converted_alike() {
    let mut random = Random::new(1);
    let mut tally = Tally::default();
    for plan in [full(1), full(2)] {
        let fields = plan.fields();
        let mut files = vec![plan.file(); 20];
        files.extend((0..100).map(|_| damaged(&mut random, &fields)));
        conversions_agree(1, &files, &mut tally);
    }
    occurred(&tally, &[1, 2, 3, 20], 5);
}

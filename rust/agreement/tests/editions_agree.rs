//! Edition 1 against edition 2: the product tells no difference, whatever it is asked.

use agreement::alike::Tally;
use agreement::editions::{compared_alike, editions_do_not_matter};

#[test]
fn editions_are_not_told_apart() {
    let mut tally = Tally::default();
    for seed in 0..1_000 {
        editions_do_not_matter(seed, &mut tally);
    }
    for (rule, times) in tally.rules.iter().enumerate() {
        assert!(*times >= 20, "rule {rule} was shown too rarely: {tally:?}");
    }
}

#[test]
fn pairs_are_compared_alike_in_every_two_editions() {
    let differences = (0..300).filter(|seed| compared_alike(*seed)).count();
    println!("{differences} differences");
    assert!(differences >= 60, "only {differences} pairs differ");
}

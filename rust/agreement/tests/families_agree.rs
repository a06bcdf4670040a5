//! Deep and wide families of types: the product replies as the independent comparer does, by files
//! and by texts, and tells two families apart exactly where a type counts as another.

use agreement::families::{families_agree, families_without_a_parent_differ, Tally};

#[test]
fn families_are_read_and_judged_alike() {
    let mut tally = Tally::default();
    for seed in 0..400 {
        families_agree(seed, &mut tally);
    }
    let often = tally.rules[0] >= 1_000 && tally.rules[3] >= 10_000;
    assert!(often && tally.refusals[0] >= 800, "{tally:?}");
    for refusal in [4, 5, 6, 7, 24] {
        assert!(tally.refusals[refusal] >= 20, "{refusal}: {tally:?}");
    }
}

#[test]
fn families_differ_where_a_parent_is_missed() {
    let mut tally = Tally::default();
    for seed in 0..400 {
        families_without_a_parent_differ(seed, &mut tally);
    }
    assert!(tally.differences >= 100 && tally.none >= 100, "{tally:?}");
}

//! Files that are made up without faults are accepted, up to the largest there are.

use brute::{read_diagram, read_record};
use generators::diagrams::{diagram, SMALL};
use generators::edits::edited;
use generators::families::{family, linked, without_a_parent};
use generators::limits::full;
use generators::record_limits::largest;
use generators::Random;

#[test]
fn generated_diagrams_are_accepted() {
    for seed in 0..500 {
        let plan = diagram(&mut Random::new(seed), SMALL);
        let edited = edited(&mut Random::new(seed), &plan);
        assert!(read_diagram(&plan.file()).is_ok(), "seed {seed}: {plan:?}");
        assert!(
            read_diagram(&edited.file()).is_ok(),
            "seed {seed}: {edited:?}"
        );
    }
}

#[test]
fn families_are_accepted() {
    for seed in 0..500 {
        let mut random = Random::new(seed);
        let plan = family(&mut random);
        for plan in [
            linked(&mut random, &plan),
            without_a_parent(&mut random, &plan),
            plan,
        ] {
            assert!(read_diagram(&plan.file()).is_ok(), "seed {seed}: {plan:?}");
        }
    }
}

#[test]
fn the_largest_files_have_their_length() {
    assert_eq!(
        [1, 2].map(|edition| full(edition).file().len()),
        [3_926, 3_990]
    );
    assert_eq!(largest().file().len(), 59_300);
    assert!([1, 2]
        .iter()
        .all(|edition| read_diagram(&full(*edition).file()).is_ok()));
    assert!(read_record(&largest().file()).is_ok());
}

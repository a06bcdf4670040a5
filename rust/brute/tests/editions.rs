//! The two editions of a diagram file: one diagram in both, and files that go by neither.

mod common;

use brute::{
    compare, compile, judge, read_diagram, read_text, write_diagram, Association, Diagram, Edition,
    Limits,
};
use common::*;
use generators::diagrams::{diagram, LARGE, SMALL};
use generators::edition_faults::with_edition_fault;
use generators::editions::in_edition;
use generators::hex::hex;
use generators::Random;

/// The ends' limits of a diagram.
fn limits(diagram: &Diagram) -> Vec<Limits> {
    let ends = |a: &Association| [a.left.limits, a.right.limits];
    diagram.associations.iter().flat_map(ends).collect()
}

#[test]
fn a_diagram_is_the_same_from_files_of_both_editions() {
    let (mut in_both, mut only_in_two) = (0, 0);
    for seed in 0..600 {
        let mut random = Random::new(seed);
        let size = *random.pick(&[SMALL, LARGE]);
        let plan = diagram(&mut random, size);
        let wide = in_edition(2, &plan).expect("edition 2 has all limits");
        let read = read_diagram(&wide.file()).expect("generated diagrams are accepted");
        assert_eq!(
            write_diagram(Edition::Two, &read),
            wide.file(),
            "seed {seed}"
        );
        let narrow = in_edition(1, &plan);
        assert_eq!(Edition::One.holds(&read), narrow.is_some(), "seed {seed}");
        let Some(narrow) = narrow.map(|plan| plan.file()) else {
            assert!(limits(&read)
                .iter()
                .any(|l| l.low > 100 || l.up.is_some_and(|up| up > 100)));
            only_in_two += 1;
            continue;
        };
        assert_eq!(
            narrow.len() + 4 * read.associations.len(),
            wide.file().len()
        );
        assert_eq!(read_diagram(&narrow), Ok(read.clone()), "seed {seed}");
        assert_eq!(write_diagram(Edition::One, &read), narrow, "seed {seed}");
        in_both += usize::from(!read.associations.is_empty());
    }
    assert!(
        in_both >= 200 && only_in_two >= 80,
        "{in_both}, {only_in_two}"
    );
}

#[test]
fn files_with_faults_of_the_edition_are_refused_or_written_again() {
    let mut seen = [0; 9];
    for seed in 0..4_000 {
        let mut random = Random::new(seed);
        let plan = diagram(&mut random, SMALL);
        let file = with_edition_fault(&mut random, &plan);
        let number = match read_diagram(&file) {
            Ok(read) => {
                assert_eq!(write_diagram(edition_of(&file), &read), file);
                0
            }
            Err(refusal) => usize::from(refusal),
        };
        let first = &file[..4];
        let is_edition = first == b"\x10\x00\x01\x01" || first == b"\x10\x00\x01\x02";
        assert!(is_edition || number == 3, "{number}: {}", hex(&file));
        seen[number] += 1;
    }
    let often = [(2, 100), (3, 1_500)];
    assert!(
        often.iter().all(|(number, times)| seen[*number] >= *times),
        "{seen:?}"
    );
}

#[test]
fn a_file_with_associations_is_refused_by_the_other_edition() {
    let mut tried = 0;
    for seed in 0..600 {
        let plan = diagram(&mut Random::new(seed), SMALL);
        let mut file = plan.file();
        file[3] = 3 - file[3];
        let expected = if plan.associations.is_empty() { 0 } else { 3 };
        let refusal = read_diagram(&file).err().unwrap_or(0);
        assert_eq!(refusal, expected, "seed {seed}");
        tried += usize::from(expected == 3);
    }
    assert!(tried >= 200, "{tried}");
}

/// The diagram of a text with one association from G to L with these limits at the right.
fn groups_of_lines(limits: &str) -> Diagram {
    let text = format!("classdiagram d {{class G; class L; association G -> L [{limits}];}}");
    read_text(text.as_bytes()).expect("the text is accepted")
}

#[test]
fn a_diagram_beyond_edition_1_has_no_file_of_it() {
    let held = |limits| Edition::One.holds(&groups_of_lines(limits));
    assert!(["0..100", "100..*", "100", "*"]
        .iter()
        .all(|limits| held(limits)));
    let beyond = [
        "101", "0..101", "101..*", "255", "0..255", "255..*", "256", "0..4000",
    ];
    assert!(!beyond.iter().any(|limits| held(limits)));
    let diagram = groups_of_lines("0..255");
    let written = std::panic::catch_unwind(|| write_diagram(Edition::One, &diagram));
    assert!(written.is_err());
}

#[test]
fn limits_above_all_objects_differ_from_nothing() {
    let unbounded = groups_of_lines("*");
    for limits in ["0..100", "0..255", "0..256", "0..257", "0..4000"] {
        let other = groups_of_lines(limits);
        for bound in 0..=4 {
            assert_eq!(compare(&unbounded, &other, bound), None, "{limits}");
            assert_eq!(compare(&other, &unbounded, bound), None, "{limits}");
        }
    }
}

#[test]
fn limits_that_no_site_meets_forbid_their_source() {
    let unmet = ["9..9", "256..*", "256..256", "258..4000", "4000"];
    for limits in unmet {
        let under = groups_of_lines(limits);
        let group = compare(&groups_of_lines("*"), &under, 8).expect("a G alone");
        assert_eq!(group.objects, [b"G"], "{limits}");
        assert_eq!(judge(&under, &group), 6, "{limits}");
        for other in unmet {
            assert_eq!(
                compare(&under, &groups_of_lines(other), 4),
                None,
                "{limits}, {other}"
            );
        }
    }
}

#[test]
fn entries_have_the_high_byte_of_each_limit_first() {
    let list = compile(&groups_of_lines("258..3999"));
    assert_eq!(list, [[1, 0, 0, 1, 2, 15, 159], [4, 0, 0, 0, 0, 0, 0]]);
    let list = compile(&groups_of_lines("4000..*"));
    assert_eq!(list, [[2, 0, 0, 15, 160, 0, 0], [4, 0, 0, 0, 0, 0, 0]]);
}

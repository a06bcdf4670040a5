//! Two diagrams that differ only in ↔ against no arrowhead say the same.

use brute::{compare_within, compile, evaluate, judge, read_diagram, read_record};
use generators::diagrams::{loosened, LARGE, LINKED, SMALL, TINY, WIDE};
use generators::fillings::searched_soon;
use generators::heads::{headed_pair, reheaded};
use generators::hex::hex;
use generators::records::record;
use generators::Random;

#[test]
fn lists_and_judgements_are_the_same() {
    let mut rules = [0; 10];
    for seed in 0..600 {
        let mut random = Random::new(seed);
        let size = *random.pick(&[SMALL, SMALL, LINKED, LARGE]);
        let (one_plan, other_plan) = headed_pair(&mut random, size);
        let files = [one_plan.file(), other_plan.file()];
        let [one, other] = files.each_ref().map(|file| read_diagram(file).unwrap());
        let shown = format!("seed {seed}: {:#?}", files.map(|file| hex(&file)));
        assert_eq!(compile(&one), compile(&other), "{shown}");
        for _ in 0..30 {
            let most = random.between(0, 8);
            let file = record(&mut random, &one_plan, most).file();
            let record = read_record(&file).expect("generated records are accepted");
            let shown = format!("{shown}\nrecord: {}", hex(&file));
            let judged = judge(&one, &record);
            assert_eq!(judged, judge(&other, &record), "{shown}");
            let evaluated = evaluate(&one, &record);
            assert_eq!(evaluated, evaluate(&other, &record), "{shown}");
            rules[usize::from(judged)] += 1;
        }
    }
    let each_often = rules.iter().all(|times| *times >= 40);
    assert!(each_often, "some judgements are rare: {rules:?}");
}

#[test]
fn there_is_no_difference() {
    let (mut compared, mut given_up) = (0, 0);
    for seed in 0..600 {
        let mut random = Random::new(seed);
        let size = *random.pick(&[TINY, SMALL, LINKED, WIDE]);
        let (mut one, mut other) = headed_pair(&mut random, size);
        if random.chance(1, 2) {
            one = loosened(&mut random, &one);
            other = reheaded(&mut random, &one);
        }
        let bound = (0..=3).rev().find(|bound| searched_soon(&one, *bound));
        let files = [one.file(), other.file()];
        let [one, other] = files.each_ref().map(|file| read_diagram(file).unwrap());
        let shown = format!("seed {seed}: {:#?}", files.map(|file| hex(&file)));
        for (old, new) in [(&one, &other), (&other, &one)] {
            match compare_within(old, new, bound.unwrap_or(0), 400_000) {
                Ok(found) => {
                    assert_eq!(found, None, "{shown}");
                    compared += 1;
                }
                Err(_) => given_up += 1,
            }
        }
    }
    assert!(given_up * 20 <= compared, "{given_up} were given up");
}

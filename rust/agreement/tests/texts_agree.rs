//! Texts, whole and damaged: the product accepts and refuses as the independent reader does, and
//! holds the diagram that the text declares.

use agreement::text_pairs::compared_alike;
use agreement::texts::{edition_of, texts_agree, whole_texts, whole_texts_agree, Tally};
use agreement::texts::{texts_damaged_by_byte, texts_damaged_by_token};
use brute::{read_text, write_diagram};
use generators::limits::full;
use generators::text_damage::damaged_tokens;
use generators::text_layout::laid_out;
use generators::texts::text;
use generators::Random;

/// Every number from `wanted` must have come at least `least` times.
fn occurred(tally: &Tally, wanted: &[usize], least: usize) {
    println!("{tally:?}");
    for number in wanted {
        assert!(
            tally[*number] >= least,
            "reply {number} came too rarely: {tally:?}"
        );
    }
}

#[test]
fn whole_texts_are_accepted_and_judged_alike() {
    let mut tally = Tally::default();
    for seed in 0..400 {
        whole_texts_agree(seed, &mut tally);
    }
    occurred(&tally, &[0], 2_400);
}

#[test]
fn texts_damaged_by_token_agree() {
    let mut tally = Tally::default();
    for seed in 0..600 {
        texts_agree(seed, &texts_damaged_by_token(seed), &mut tally);
    }
    occurred(&tally, &[0, 4, 5, 8, 23, 24], 100);
}

#[test]
fn texts_damaged_by_byte_agree() {
    let mut tally = Tally::default();
    for seed in 0..600 {
        texts_agree(seed, &texts_damaged_by_byte(seed), &mut tally);
    }
    occurred(&tally, &[0, 5, 23, 24], 40);
}

#[test]
fn damage_of_the_largest_text_agrees() {
    let mut tally = Tally::default();
    let mut random = Random::new(1);
    let mut texts = Vec::new();
    for _ in 0..100 {
        let written = text(&mut random, &full(2));
        texts.push(laid_out(&mut random, &written.tokens));
        let tokens = damaged_tokens(&mut random, &written.tokens);
        texts.push(laid_out(&mut random, &tokens));
    }
    texts_agree(1, &texts, &mut tally);
    occurred(&tally, &[0], 100);
    occurred(&tally, &[4, 5, 23, 24], 3);
}

#[test]
fn pairs_are_compared_alike_by_texts_and_by_files() {
    let differences = (0..300).filter(|seed| compared_alike(*seed)).count();
    println!("{differences} differences");
    assert!(differences >= 60, "only {differences} pairs differ");
}

#[test]
fn the_independent_reader_declares_what_was_made_up() {
    for seed in 0..500 {
        for (text, plan) in whole_texts(seed) {
            let read = read_text(&text).map(|diagram| write_diagram(edition_of(&plan), &diagram));
            assert_eq!(
                read,
                Ok(plan.file()),
                "seed {seed}\n{}",
                text.escape_ascii()
            );
        }
    }
}

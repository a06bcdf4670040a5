//! The same checks on ever more seeds, and a solver's answers beside both comparers: `make soak`
//! runs them for SOAK_MINUTES minutes.

use agreement::{
    alike, comparing, converting, editions, families, files, heads, judging, rows, solving,
    text_pairs, texts,
};
use std::time::{Duration, Instant, SystemTime, UNIX_EPOCH};

/// A number from the environment, or this one.
fn setting(name: &str, otherwise: u64) -> u64 {
    let text = std::env::var(name).unwrap_or_default();
    text.parse().unwrap_or(otherwise)
}

/// A seed that differs from run to run.
fn seed_of_the_clock() -> u64 {
    let since = SystemTime::now().duration_since(UNIX_EPOCH);
    since.map_or(0, |time| time.as_nanos() as u64 % 1_000_000_000_000)
}

#[test]
#[ignore = "runs for minutes; 'make soak' starts it"]
fn every_check_on_many_seeds() {
    let minutes = setting("SOAK_MINUTES", 10);
    let first = setting("SOAK_SEED", seed_of_the_clock());
    let (start, mut shown) = (Instant::now(), Instant::now());
    println!("Seeds from {first} on, for {minutes} minutes.");
    let mut seed = first;
    let (mut diagrams, mut records) = (files::Tally::default(), files::Tally::default());
    let (mut judged, mut compared) = (judging::Tally::default(), comparing::Tally::default());
    let (mut called, mut read) = (rows::Tally::default(), texts::Tally::default());
    let (mut headed, mut in_both) = (alike::Tally::default(), alike::Tally::default());
    let mut converted = converting::Tally::default();
    let mut deep = families::Tally::default();
    let (mut solved, mut solving_time) = (solving::Tally::default(), Duration::ZERO);
    while seed == first || start.elapsed() < Duration::from_secs(60 * minutes) {
        files::diagrams_agree(seed, &files::diagram_files(seed), &mut diagrams);
        files::records_agree(seed, &files::record_files(seed), &mut records);
        texts::whole_texts_agree(seed, &mut read);
        families::families_agree(seed, &mut deep);
        families::families_without_a_parent_differ(seed, &mut deep);
        texts::texts_agree(seed, &texts::texts_damaged_by_token(seed), &mut read);
        texts::texts_agree(seed, &texts::texts_damaged_by_byte(seed), &mut read);
        judging::judging_agrees(seed, &mut judged);
        comparing::comparing_agrees(seed, &mut compared);
        comparing::four_objects_agree(seed, &mut compared);
        text_pairs::compared_alike(seed);
        heads::heads_do_not_matter(seed, &mut headed);
        editions::editions_do_not_matter(seed, &mut in_both);
        editions::compared_alike(seed);
        converting::conversions_agree(seed, &converting::files(seed), &mut converted);
        rows::rows_agree(seed, &mut called);
        // The solver takes far longer than the other checks: half of the time is its share.
        if solving_time * 2 <= start.elapsed() {
            let begun = Instant::now();
            solving::solver_agrees(seed, &mut solved);
            solving_time += begun.elapsed();
        }
        seed += 1;
        if shown.elapsed() > Duration::from_secs(60) {
            println!("{} seeds without a disagreement.", seed - first);
            shown = Instant::now();
        }
    }
    println!("{} seeds without a disagreement.", seed - first);
    println!("diagram files by reply: {diagrams:?}");
    println!("record files by reply: {records:?}");
    println!("texts by reply: {read:?}");
    println!("judging: {judged:?}");
    println!("comparing: {compared:?}");
    println!("heads: {headed:?}");
    println!("editions: {in_both:?}");
    println!("converting: {converted:?}");
    println!("families: {deep:?}");
    println!("solving: {solved:?}");
    println!("rows: {called:?}");
}

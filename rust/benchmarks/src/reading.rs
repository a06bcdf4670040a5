//! Reading diagram files.

use crate::inputs::{pairs, shelf_and_card};
use crate::{table, timing};
use boundary::{encode, replay, Call};
use std::hint::black_box;

/// Loads in one list, so that what comes once for a list is spread.
const CALLS: usize = 2_000;

/// Prints the times for a small file, for those of the examples and for the largest.
pub fn report() {
    table::heading("Reading a diagram file (load)");
    file("P", &shelf_and_card(4));
    for pair in pairs()
        .iter()
        .filter(|pair| pair.name.starts_with("examples/"))
    {
        file(&pair.name, &pair.old);
    }
    file(
        "as large as the format allows",
        &generators::limits::full(2).file(),
    );
}

/// Prints the times for one file.
fn file(name: &str, file: &[u8]) {
    let calls = vec![Call::Load { place: 0, file }; CALLS];
    let coded = encode(&calls);
    let mut replies = vec![0; CALLS];
    let product = timing::for_each_call(CALLS, || {
        replay(&coded, &mut replies);
    });
    let independent = timing::for_each_call(CALLS, || {
        for _ in 0..CALLS {
            black_box(brute::read_diagram(black_box(file))).ok();
        }
    });
    let what = format!("{name}, {} bytes", file.len());
    table::line(&what, product, Some(independent));
}

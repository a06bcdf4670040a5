//! Reading diagrams typed as text, beside the file of the same diagram.

use crate::inputs::example_texts;
use crate::{table, timing};
use boundary::{encode, replay, Call};
use generators::{limits, text_layout, texts, Random};
use std::hint::black_box;

/// Loads in one list, so that what comes once for a list is spread.
const CALLS: usize = 200;

/// Shelf and Card.
const SHELF_AND_CARD: &[u8] =
    b"classdiagram P { class Shelf; class Card; composition [1] Shelf (shelf) -> (cards) Card [0..4]; }";

/// Prints the times for a small text, for those of the examples and for one of a diagram as large
/// as the format allows.
pub fn report() {
    table::heading("Reading a diagram typed as text (load text)");
    text("P", SHELF_AND_CARD);
    for (name, example) in example_texts() {
        text(&name, &example);
    }
    let mut random = Random::new(1);
    let largest = texts::text(&mut random, &limits::full(2));
    let largest = text_layout::laid_out(&mut random, &largest.tokens);
    text("as large as the format allows", &largest);
}

/// Prints the times for one text, and for the file of the diagram that it declares.
fn text(name: &str, text: &[u8]) {
    let Ok(diagram) = brute::read_text(text) else {
        eprintln!("{name}: the text is refused.");
        return;
    };
    let file = brute::write_diagram(brute::Edition::Two, &diagram);
    let product = loads(&Call::LoadText { place: 0, text });
    let independent = timing::for_each_call(CALLS, || {
        for _ in 0..CALLS {
            black_box(brute::read_text(black_box(text))).ok();
        }
    });
    table::line(
        &format!("{name}, {} bytes", text.len()),
        product,
        Some(independent),
    );
    let product = loads(&Call::Load {
        place: 0,
        file: &file,
    });
    table::line(
        &format!("  the same as a file, {} bytes", file.len()),
        product,
        None,
    );
}

/// The product's time for one of many such loads.
fn loads(call: &Call) -> std::time::Duration {
    let calls = vec![*call; CALLS];
    let coded = encode(&calls);
    let mut replies = vec![0; CALLS];
    timing::for_each_call(CALLS, || {
        replay(&coded, &mut replies);
    })
}

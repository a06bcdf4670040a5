//! Are two diagrams compared alike by their texts and by their files?

use crate::alike;
use generators::diagrams::{diagram, TINY};
use generators::edits::edited;
use generators::fillings::searched_soon;
use generators::text_layout::laid_out;
use generators::texts::text;
use generators::{CallPlan, Random};

/// Two diagrams compared by their texts and by the files of the same diagrams: the bench is the
/// same, and so are the reply and the record handed out. Gives whether there was a difference.
pub fn compared_alike(seed: u64) -> bool {
    let mut random = Random::new(seed);
    let plan = diagram(&mut random, TINY);
    let other = edited(&mut random, &plan);
    let (old, new) = (text(&mut random, &plan), text(&mut random, &other));
    let bound = (0..=3).rev().find(|bound| searched_soon(&old.plan, *bound));
    let texts = [&old, &new].map(|written| laid_out(&mut random, &written.tokens));
    let files = [&old, &new].map(|written| written.plan.file());
    let load_text = |place: u8| CallPlan::LoadText {
        place,
        text: texts[usize::from(place)].clone(),
    };
    let load = |place: u8| CallPlan::Load {
        place,
        file: files[usize::from(place)].clone(),
    };
    let loads = [
        [load_text(0), load_text(1)],
        [load(0), load_text(1)],
        [load_text(0), load(1)],
        [load(0), load(1)],
    ];
    let [old, new] = texts.each_ref().map(|text| text.escape_ascii());
    let shown = format!("seed {seed}\nold: {old}\nnew: {new}");
    alike::compared_alike(&loads, bound.unwrap_or(0), &shown)
}

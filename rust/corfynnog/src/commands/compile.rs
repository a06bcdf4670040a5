//! `compile DIAGRAM`: the predicates that rules 6 to 9 become.

use std::path::Path;

use crate::diagram::Diagram;
use crate::disk::load;
use crate::json::Json;
use crate::names::{association_text, count_of};
use crate::outcome::{Outcome, FINE};
use crate::predicates::Predicate;
use crate::proved;
use crate::trouble::Trouble;

/// Compiles one diagram file.
pub fn run(diagram: &Path) -> Result<Outcome, Trouble> {
    let file = load(diagram)?;
    let predicates = proved::compile(&file)?;
    let diagram = proved::diagram_of(&file)?;
    let count = count_of(predicates.len(), "predicate", "predicates");
    let mut text = format!("{} has {count}.\n", file.name());
    let mut last = None;
    for (index, predicate) in predicates.iter().enumerate() {
        if last != Some(predicate.association) {
            text += &association_line(&diagram, predicate.association);
            last = Some(predicate.association);
        }
        text += &predicate_line(&diagram, index, predicate);
    }
    let members = vec![
        ("command", Json::text("compile")),
        ("diagram", file.json_name()),
        ("result", Json::text("compiled")),
        ("number", Json::Number(predicates.len())),
        (
            "predicates",
            Json::list(&predicates, |p| p.json(Some(&diagram))),
        ),
    ];
    Ok(Outcome::answer(FINE, text, members))
}

/// The association that the next predicates are about.
fn association_line(diagram: &Diagram, index: usize) -> String {
    let association = diagram.associations.get(index);
    let text = association.map(|a| association_text(diagram, a));
    format!("\n{index}: {}\n", text.unwrap_or_default())
}

/// Index, kind, side, limits, and what it says.
fn predicate_line(diagram: &Diagram, index: usize, predicate: &Predicate) -> String {
    let Predicate {
        kind,
        association,
        side,
        low,
        up,
    } = predicate;
    format!(
        "  {index:>2}  {:<11}  {kind} {association} {side} {low} {up}  {}\n",
        predicate.name(),
        predicate.in_words(diagram)
    )
}

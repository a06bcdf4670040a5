//! All reasons in words and for scripts.

use super::all::{All, Difference, End};
use super::report::{objects, sites_within, Compared};
use crate::diagram::Diagram;
use crate::edition::Edition;
use crate::file_json::record_json;
use crate::json::Json;
use crate::kinds::FileIs;
use crate::loosening::{sentences, LineChange};
use crate::object_diagram::object_diagram;
use crate::outcome::{Outcome, FOUND};
use crate::proved;
use crate::reasons::{Beside, Forbidden, TOLD};
use crate::trouble::Trouble;

/// The answer with all reasons; the first site is the smallest.
pub fn differences(compared: &Compared, all: &All) -> Result<Outcome, Trouble> {
    let report = Report {
        compared,
        old: proved::diagram_of(compared.old)?,
        old_name: compared.old.name(),
        new_name: compared.new.name(),
        new_edition: FileIs::of(&compared.new.bytes).edition(&compared.new.bytes),
    };
    let members = compared.members("difference", report.members(all));
    Ok(Outcome::answer(FOUND, report.text(all), members))
}

/// What to do where the time was up.
const LONGER: &str = "Give a longer --timeout, or a smaller --bound.";

/// What the report is about.
struct Report<'a> {
    compared: &'a Compared<'a>,
    old: Diagram,
    old_name: String,
    new_name: String,
    /// None of a text.
    new_edition: Option<Edition>,
}

impl Report<'_> {
    /// The whole answer in words.
    fn text(&self, all: &All) -> String {
        let (old, new) = (&self.old_name, &self.new_name);
        let sites = sites_within(self.compared.bound);
        let least = match all.end {
            End::Complete => "",
            _ => "at least ",
        };
        let head = match all.differences.len() {
            1 => format!("Difference: {least}1 reason"),
            count => format!("Differences: {least}{count} reasons"),
        };
        let mut text = format!("{head} why {new} forbids a site {sites} that {old} allows.\n");
        for (index, difference) in all.differences.iter().enumerate() {
            text += &self.difference_text(index + 1, difference);
        }
        text + &self.end_text(all)
    }

    /// One site, the reason and the change.
    fn difference_text(&self, number: usize, difference: &Difference) -> String {
        let left = match number {
            1 => "",
            _ => " that is left",
        };
        let change = self.change(difference);
        let change = change.unwrap_or_else(|| "This program knows none.".to_string());
        format!(
            "\n{number}. A smallest site{left}, of {}:\n\n{}\n{}\n{}Change: {change}\n",
            objects(difference.witness.objects),
            object_diagram("witness", &difference.record),
            self.heading(difference),
            difference.reason.text(&self.forbidden(difference), TOLD),
        )
    }

    /// The change for a site in words, if one is known.
    fn change(&self, difference: &Difference) -> Option<String> {
        let lines = difference.change.as_ref()?;
        Some(sentences(lines, self.new_edition))
    }

    /// The line above a reason: of which diagram it is told.
    fn heading(&self, difference: &Difference) -> String {
        let new = &self.new_name;
        match (difference.besides, difference.is_of_new) {
            (_, false) => format!("Why {new} still forbids it with the changes above:"),
            (None, true) => format!("Why {new} forbids it:"),
            (Some(rule), true) => {
                format!(
                    "Why {new} forbids it, besides rule {rule}, which the changes above settle:"
                )
            }
        }
    }

    /// What the reason is told of.
    fn forbidden<'b>(&'b self, difference: &'b Difference) -> Forbidden<'b> {
        Forbidden {
            diagram: &difference.diagram,
            record: &difference.record,
            beside: Some(Beside {
                old: &self.old,
                old_name: &self.old_name,
                new_name: &self.new_name,
            }),
        }
    }

    /// The list of changes, and whether it is complete.
    fn end_text(&self, all: &All) -> String {
        let mut text = format!("\n{}\n", self.end_sentence(all));
        if all.end != End::Complete && !all.changes.is_empty() {
            text += "The changes so far:\n";
        }
        for (index, change) in all.changes.iter().enumerate() {
            let sentence = change.sentence(self.new_edition);
            text += &format!("  {}. {sentence}\n", index + 1);
        }
        text
    }

    /// What the changes come to.
    fn end_sentence(&self, all: &All) -> String {
        let new = &self.new_name;
        let further = "there may be further reasons.";
        match all.end {
            End::Complete => format!("{}:", self.enough(all, self.compared.bound)),
            End::TimeUp(None) => format!("The time was up, so that {further} {LONGER}"),
            End::TimeUp(Some(settled)) => format!(
                "{}. The time was up before larger sites were settled, so that {further} {LONGER}",
                self.enough(all, settled)
            ),
            End::NoChangeKnown => format!("This program knows no further change; {further}"),
            End::TooLarge => format!(
                "By the changes that this program knows {new} would have more parts than a \
                 diagram may have; {further}"
            ),
            End::TooManyChanges => format!("This program makes no more changes; {further}"),
        }
    }

    /// That the changes are enough for the sites of so many objects.
    fn enough(&self, all: &All, settled: u8) -> String {
        let with = match all.changes.len() {
            1 => "this change".to_string(),
            count => format!("these {count} changes"),
        };
        let (old, new, sites) = (&self.old_name, &self.new_name, sites_within(settled));
        format!("With {with} {new} would allow every site {sites} that {old} allows")
    }

    /// The members of the answer for scripts that are not null.
    fn members(&self, all: &All) -> Vec<(&'static str, Json)> {
        let mut members = Vec::new();
        if let Some(first) = all.differences.first() {
            members.extend(self.difference_members(first));
        }
        let change = |change: &LineChange| Json::Text(change.sentence(self.new_edition));
        let difference = |difference: &Difference| {
            let change = self.change(difference);
            let besides = difference.besides.map(usize::from);
            let mut members = self.difference_members(difference);
            members.extend([
                ("besides", Json::or_null(besides, Json::Number)),
                ("with_changes", Json::Bool(!difference.is_of_new)),
                ("change", Json::or_null(change, Json::Text)),
            ]);
            Json::Object(members)
        };
        members.extend([
            ("differences", Json::list(&all.differences, difference)),
            ("changes", Json::list(&all.changes, change)),
            ("complete", Json::Bool(all.end == End::Complete)),
        ]);
        members
    }

    /// One site and its reason for scripts.
    fn difference_members(&self, difference: &Difference) -> Vec<(&'static str, Json)> {
        let reason = difference.reason.json(&self.forbidden(difference));
        vec![
            ("objects", Json::Number(difference.witness.objects.into())),
            ("witness", record_json(&difference.record)),
            ("reason", reason),
        ]
    }
}

#[cfg(test)]
mod tests {
    use super::*;
    use crate::commands::compare::Smallest;
    use crate::disk::Loaded;
    use crate::loosening::Line;

    /// What is told at the end of a list of such changes: lines that are added.
    fn told(end: End, added: &[&str]) -> String {
        let file = Loaded::site(b"");
        let compared = Compared {
            old: &file,
            new: &file,
            bound: 8,
            smallest: Smallest::Unknown,
        };
        let report = Report {
            compared: &compared,
            old: Diagram::default(),
            old_name: "old.cd".to_string(),
            new_name: "new.cd".to_string(),
            new_edition: None,
        };
        let change = |line: &&str| LineChange::added(Line::of(line.to_string()));
        let all = All {
            differences: Vec::new(),
            changes: added.iter().map(change).collect(),
            end,
        };
        report.end_text(&all)
    }

    #[test]
    fn changes_that_are_enough() {
        assert_eq!(
            told(End::Complete, &["class A"]),
            "\nWith this change new.cd would allow every site of at most 8 objects that old.cd \
             allows:\n  1. class A is added.\n"
        );
        assert_eq!(
            told(End::Complete, &["class A", "class B"]),
            "\nWith these 2 changes new.cd would allow every site of at most 8 objects that old.cd \
             allows:\n  1. class A is added.\n  2. class B is added.\n"
        );
    }

    #[test]
    fn changes_that_may_not_be_enough() {
        for (end, first) in [
            (End::TimeUp(None), "The time was up, so that there may be "),
            (
                End::TimeUp(Some(4)),
                "With this change new.cd would allow every site of at most 4 objects that old.cd \
                 allows. The time was up before larger sites were settled, so that there may be ",
            ),
            (End::NoChangeKnown, "This program knows no further change; "),
            (
                End::TooLarge,
                "By the changes that this program knows new.cd ",
            ),
            (End::TooManyChanges, "This program makes no more changes; "),
        ] {
            let text = told(end, &["class A"]);
            assert!(text.starts_with(&format!("\n{first}")), "{text}");
            assert!(text.contains("there may be further reasons."), "{text}");
            assert!(
                text.ends_with("\nThe changes so far:\n  1. class A is added.\n"),
                "{text}"
            );
            assert!(!told(end, &[]).contains("so far"), "{end:?}");
        }
    }
}

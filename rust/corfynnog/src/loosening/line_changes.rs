//! Changes of a diagram line by line, in words; and what a row of them comes to.

use crate::edition::Edition;
use crate::lists::listed;

/// A line of a diagram.
#[derive(Clone, Debug)]
pub struct Line {
    /// The same for the same part, whatever is written beside it.
    pub key: String,
    pub text: String,
    /// The largest limit in it; 0 where there is none.
    pub largest_limit: usize,
}

impl PartialEq for Line {
    fn eq(&self, other: &Line) -> bool {
        self.key == other.key
    }
}

impl Line {
    /// A line without limits that is known by its text.
    pub fn of(text: String) -> Line {
        Line {
            key: text.clone(),
            text,
            largest_limit: 0,
        }
    }
}

/// A line that becomes others: none where it is taken out. One that is added was none before.
#[derive(Clone, Debug, PartialEq)]
pub struct LineChange {
    pub before: Option<Line>,
    pub after: Vec<Line>,
}

impl LineChange {
    /// A line that is added.
    pub fn added(line: Line) -> LineChange {
        LineChange {
            before: None,
            after: vec![line],
        }
    }

    /// A line that becomes others.
    pub fn becomes(line: Line, after: Vec<Line>) -> LineChange {
        LineChange {
            before: Some(line),
            after,
        }
    }

    /// The change in words, of a diagram from a file of this edition, or from a text; and what the
    /// diagram needs to be where the edition lacks a limit.
    pub fn sentence(&self, edition: Option<Edition>) -> String {
        let after: Vec<&str> = self.after.iter().map(|line| line.text.as_str()).collect();
        let after = listed(&after);
        let needed = match edition.is_some_and(|edition| !self.has_limits_of(edition)) {
            true => ", which needs a text or a diagram file of edition 2",
            false => "",
        };
        match (&self.before, self.after.is_empty()) {
            (None, _) => format!("{after} is added{needed}."),
            (Some(before), true) => format!("{} is taken out.", before.text),
            (Some(before), false) => format!("{} becomes {after}{needed}.", before.text),
        }
    }

    /// A file of this edition can hold what the line becomes.
    fn has_limits_of(&self, edition: Edition) -> bool {
        let mut after = self.after.iter();
        after.all(|line| line.largest_limit <= edition.most)
    }
}

/// Changes that are made together, in words.
pub fn sentences(changes: &[LineChange], edition: Option<Edition>) -> String {
    let sentences = changes.iter().map(|change| change.sentence(edition));
    sentences.collect::<Vec<String>>().join(" ")
}

/// What changes come to that are made one after the other: each line that is not there at the end as
/// it was at the start, once.
pub fn net(changes: Vec<LineChange>) -> Vec<LineChange> {
    let mut result: Vec<LineChange> = Vec::new();
    for change in changes {
        if let Some(before) = &change.before {
            if let Some(earlier) = result.iter_mut().find(|c| c.after.contains(before)) {
                let at = earlier.after.iter().position(|line| line == before);
                at.map(|at| earlier.after.splice(at..=at, change.after).count());
                continue;
            }
        }
        let is_undone = |c: &LineChange| {
            let taken_out = c.after.is_empty() && c.before.is_some();
            taken_out && change.before.is_none() && c.before.as_ref() == change.after.first()
        };
        match result.iter().position(is_undone) {
            Some(at) => drop(result.remove(at)),
            None => result.push(change),
        }
    }
    result.retain(|c| c.before.iter().ne(c.after.iter()));
    result
}

#[cfg(test)]
mod tests {
    use super::*;
    use crate::edition::{EDITION_1, EDITION_2};

    /// A change of lines that are known by their text; `-` stands for none.
    fn change(before: &str, after: &[&str]) -> LineChange {
        let line = |text: &&str| Line::of(text.to_string());
        LineChange {
            before: Some(line(&before)).filter(|line| line.text != "-"),
            after: after.iter().map(line).collect(),
        }
    }

    /// The net changes in words.
    fn told(changes: &[LineChange]) -> String {
        sentences(&net(changes.to_vec()), None)
    }

    #[test]
    fn in_words() {
        let all = [
            change("-", &["a"]),
            change("b", &[]),
            change("c", &["d", "e"]),
        ];
        assert_eq!(
            sentences(&all, None),
            "a is added. b is taken out. c becomes d and e."
        );
    }

    #[test]
    fn a_limit_that_the_edition_lacks() {
        let told = |largest_limit: usize, edition: Option<Edition>| {
            let mut change = change("a", &["b"]);
            change.after[0].largest_limit = largest_limit;
            change.sentence(edition)
        };
        let needed = "a becomes b, which needs a text or a diagram file of edition 2.";
        assert_eq!(told(101, Some(EDITION_1)), needed);
        assert_eq!(told(100, Some(EDITION_1)), "a becomes b.");
        assert_eq!(told(4_000, Some(EDITION_2)), "a becomes b.");
        assert_eq!(told(4_000, None), "a becomes b.");
    }

    #[test]
    fn a_line_that_changes_twice_is_told_once() {
        let twice = [change("a", &["b"]), change("b", &["c"])];
        assert_eq!(told(&twice), "a becomes c.");
        let parted = [change("a", &["b", "c"]), change("b", &["d"])];
        assert_eq!(told(&parted), "a becomes d and c.");
        let added = [change("-", &["a"]), change("a", &["b"])];
        assert_eq!(told(&added), "b is added.");
    }

    #[test]
    fn what_is_undone_is_not_told() {
        for changes in [
            [change("a", &["b"]), change("b", &["a"])],
            [change("-", &["a"]), change("a", &[])],
            [change("a", &[]), change("-", &["a"])],
        ] {
            assert_eq!(told(&changes), "", "{changes:?}");
        }
    }
}

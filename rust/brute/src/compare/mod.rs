//! Comparing by enumeration: every record over the names of both diagrams and one foreign name,
//! fewest objects first, with the old diagram's rules as the filter.
//!
//! Nothing here assumes that names outside the old diagram cannot occur: they are tried, and
//! the old diagram's rules turn them away. Three things keep it short, each with its reason
//! beside it: the order of objects (`choose_types`), records in parts (`fill`), and rows that no
//! later choice can mend (`types_beyond_mending`, `beyond_mending`). The tests in `plain` do
//! without any of them.

mod groups;
mod links;
#[cfg(test)]
mod plain;
mod values;
mod vocabulary;

use crate::diagram::Diagram;
use crate::objects::Objects;
use crate::record::Record;
use crate::rules::judge;
use crate::rules::types::{rule_1, rule_2, singleton_counts};
use crate::Name;
use groups::role_groups;
use vocabulary::Vocabulary;

/// The budget ran out before the enumeration ended.
#[derive(Clone, Copy, Debug, PartialEq, Eq)]
pub struct TooLarge;

/// How many more steps an enumeration may take.
struct Budget(u64);

impl Budget {
    /// Takes one step off, if there is one left.
    fn spend(&mut self) -> Result<(), TooLarge> {
        self.0 = self.0.checked_sub(1).ok_or(TooLarge)?;
        Ok(())
    }
}

/// Finds a record of fewest objects, at most `bound`, that old allows and new forbids.
pub fn compare(old: &Diagram, new: &Diagram, bound: usize) -> Option<Record> {
    let found = compare_within(old, new, bound, u64::MAX);
    found.expect("no enumeration takes that many steps")
}

/// The same, given up after `budget` steps (a step is one choice tried).
pub fn compare_within(
    old: &Diagram,
    new: &Diagram,
    bound: usize,
    budget: u64,
) -> Result<Option<Record>, TooLarge> {
    let vocabulary = Vocabulary::of(old, new);
    let mut search = Search {
        old,
        new,
        vocabulary: &vocabulary,
        groups: role_groups(&vocabulary.roles, [old, new]),
        budget: Budget(budget),
    };
    // No record has more than 8 objects.
    for count in 0..=bound.min(8) {
        let found = search.choose_types(&mut Vec::new(), 0, count)?;
        if found.is_some() {
            return Ok(found);
        }
    }
    Ok(None)
}

/// A pair of diagrams and what the enumeration over it needs.
struct Search<'a> {
    old: &'a Diagram,
    new: &'a Diagram,
    vocabulary: &'a Vocabulary,
    groups: Vec<Vec<Name>>,
    budget: Budget,
}

impl<'a> Search<'a> {
    /// Adds `open` more objects, their types in the vocabulary's order from `first` on.
    ///
    /// Rows whose types stand in that order are enough: the rules speak of "each object" and of
    /// numbers of objects only, so that renumbering a record's objects changes no judgement.
    fn choose_types(
        &mut self,
        row: &mut Vec<&'a [u8]>,
        first: usize,
        open: usize,
    ) -> Result<Option<Record>, TooLarge> {
        self.budget.spend()?;
        if types_beyond_mending(&Objects::new(self.old, row)) {
            return Ok(None);
        }
        if open == 0 {
            return self.fill(row);
        }
        for index in first..self.vocabulary.types.len() {
            row.push(&self.vocabulary.types[index]);
            let found = self.choose_types(row, index, open - 1)?;
            row.pop();
            if found.is_some() {
                return Ok(found);
            }
        }
        Ok(None)
    }

    /// Looks for values and links over a row of types.
    ///
    /// A record falls into parts that no rule looks at together: each pair of object and
    /// attribute name, and each group of roles. It is legal exactly when its types and all its
    /// parts are. So it is enough to take in each part a filling that old allows and new
    /// forbids, or, where there is none, any that old allows.
    fn fill(&mut self, row: &[&'a [u8]]) -> Result<Option<Record>, TooLarge> {
        let old = Objects::new(self.old, row);
        let new = Objects::new(self.new, row);
        if !rule_2(&old) {
            return Ok(None);
        }
        let mut draft = Draft {
            forbidden: !(rule_1(&new) && rule_2(&new)),
            record: Record::default(),
        };
        let views = Views {
            old: &old,
            new: &new,
        };
        let allowed = values::choose(&views, self.vocabulary, &mut self.budget, &mut draft)?
            && links::choose(&views, &self.groups, &mut self.budget, &mut draft)?;
        if !(allowed && draft.forbidden) {
            return Ok(None);
        }
        let mut record = draft.record;
        record.objects = row.iter().map(|name| name.to_vec()).collect();
        record.values.sort();
        record.links.sort();
        assert!(judge(self.old, &record) == 0 && judge(self.new, &record) != 0);
        Ok(Some(record))
    }
}

/// What is chosen so far, and whether new forbids it already.
struct Draft {
    record: Record,
    forbidden: bool,
}

/// The objects of one record as the two diagrams see them.
struct Views<'v, 'a> {
    old: &'v Objects<'a>,
    new: &'v Objects<'a>,
}

/// Objects that break rule 1 or share a singleton class: whatever is added, they stay.
fn types_beyond_mending(old: &Objects) -> bool {
    !rule_1(old) || singleton_counts(old).any(|count| count > 1)
}

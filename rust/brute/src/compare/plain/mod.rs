//! The plainest comparison, to check the other one against: every record over the vocabulary,
//! objects in every order, nothing in parts and nothing cut. Good for very small diagrams only.

mod samples;

use super::compare;
use super::vocabulary::Vocabulary;
use crate::diagram::Diagram;
use crate::record::{Link, Record, Value};
use crate::rules::judge;
use crate::Name;
use samples::{some_diagram, some_types, Numbers};

/// What is open in a record: the type of the next object, a value, or a link.
#[derive(Clone, Copy)]
enum Spot<'v> {
    Type,
    Value(usize, &'v Name),
    Link(usize, &'v Name, usize),
}

/// All spots of a record with so many objects.
fn spots(vocabulary: &Vocabulary, count: usize) -> Vec<Spot<'_>> {
    let mut spots = vec![Spot::Type; count];
    for object in 0..count {
        let attributes = vocabulary.attributes.iter();
        spots.extend(attributes.map(|name| Spot::Value(object, name)));
    }
    for from in 0..count {
        for role in &vocabulary.roles {
            spots.extend((0..count).map(|to| Spot::Link(from, role, to)));
        }
    }
    spots
}

/// The pair of diagrams, and the record that is filled spot by spot.
struct Plain<'p> {
    old: &'p Diagram,
    new: &'p Diagram,
    vocabulary: &'p Vocabulary,
    record: Record,
}

impl Plain<'_> {
    /// Tells whether some filling of the open spots is allowed by old and forbidden by new.
    fn finds(&mut self, spots: &[Spot]) -> bool {
        let Some((spot, rest)) = spots.split_first() else {
            return judge(self.old, &self.record) == 0 && judge(self.new, &self.record) != 0;
        };
        match *spot {
            Spot::Type => self.finds_type(rest),
            Spot::Value(object, attribute) => {
                self.finds(rest) || self.finds_value(object, attribute, rest)
            }
            Spot::Link(from, role, to) => {
                let role = role.clone();
                self.finds(rest) || {
                    self.record.links.push(Link { from, role, to });
                    let found = self.finds(rest);
                    self.record.links.pop();
                    found
                }
            }
        }
    }

    fn finds_type(&mut self, rest: &[Spot]) -> bool {
        self.vocabulary.types.iter().any(|name| {
            self.record.objects.push(name.clone());
            let found = self.finds(rest);
            self.record.objects.pop();
            found
        })
    }

    fn finds_value(&mut self, object: usize, attribute: &Name, rest: &[Spot]) -> bool {
        let vocabulary = self.vocabulary;
        vocabulary.value_types.iter().any(|value_type| {
            vocabulary.constants.iter().any(|constant| {
                self.record.values.push(Value {
                    object,
                    attribute: attribute.clone(),
                    value_type: value_type.clone(),
                    constant: constant.clone(),
                });
                let found = self.finds(rest);
                self.record.values.pop();
                found
            })
        })
    }
}

/// The least number of objects of a record over the vocabulary that old allows and new forbids.
fn least_plainly(
    old: &Diagram,
    new: &Diagram,
    bound: usize,
    vocabulary: &Vocabulary,
) -> Option<usize> {
    let mut plain = Plain {
        old,
        new,
        vocabulary,
        record: Record::default(),
    };
    (0..=bound).find(|&count| plain.finds(&spots(vocabulary, count)))
}

/// How large the pairs of a test are.
struct Size {
    pairs: u64,
    bound: usize,
    associations: usize,
    attributes: usize,
    /// Whether the foreign name is tried too, which takes a hundred times as long.
    foreign: bool,
}

/// Compares pairs both plainly and not, and gives how many have a least record of 0, 1, 2 or 3
/// objects, and how many have none. Every other pair has the same types, so that links decide.
fn agreeing(size: Size) -> [usize; 5] {
    let mut found = [0; 5];
    for pair in 0..size.pairs {
        let mut numbers = Numbers(pair);
        let types = [some_types(&mut numbers), some_types(&mut numbers)];
        let [old, new] = [0, pair as usize % 2]
            .map(|i| some_diagram(&mut numbers, &types[i], size.associations, size.attributes));
        let mut vocabulary = Vocabulary::of(&old, &new);
        if !size.foreign {
            vocabulary.drop_foreign();
        }
        let least = least_plainly(&old, &new, size.bound, &vocabulary);
        let record = compare(&old, &new, size.bound);
        let count = record.map(|record| record.objects.len());
        assert_eq!(count, least, "{old:?} {new:?}");
        found[count.unwrap_or(4)] += 1;
    }
    found
}

/// Asserts that each of the first `bound` + 1 numbers of objects came, and no difference too.
fn assert_all_came(found: [usize; 5], bound: usize) {
    let came = |number: &usize| *number > 0;
    assert!(
        found[..=bound].iter().all(came) && came(&found[4]),
        "{found:?}"
    );
}

#[test]
fn values_agree_with_the_plainest_comparison() {
    let found = agreeing(Size {
        pairs: 300,
        bound: 1,
        associations: 0,
        attributes: 3,
        foreign: true,
    });
    assert_all_came(found, 1);
}

#[test]
fn links_agree_with_the_plainest_comparison() {
    let found = agreeing(Size {
        pairs: 2000,
        bound: 2,
        associations: 2,
        attributes: 0,
        foreign: false,
    });
    assert_all_came(found, 2);
}

#[test]
fn links_of_foreign_roles_agree_with_the_plainest_comparison() {
    let found = agreeing(Size {
        pairs: 20,
        bound: 2,
        associations: 2,
        attributes: 0,
        foreign: true,
    });
    assert_all_came(found, 1);
}

#[test]
fn three_objects_agree_with_the_plainest_comparison() {
    let found = agreeing(Size {
        pairs: 15,
        bound: 3,
        associations: 2,
        attributes: 0,
        foreign: false,
    });
    assert_all_came(found, 2);
}

#[test]
fn values_and_links_agree_with_the_plainest_comparison() {
    let found = agreeing(Size {
        pairs: 100,
        bound: 2,
        associations: 1,
        attributes: 1,
        foreign: false,
    });
    assert_all_came(found, 1);
}

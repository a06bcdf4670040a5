//! Made-up pairs of diagrams: every site is a difference, the changes that are told make new what it
//! becomes, and complete changes are complete.

use super::*;
use crate::commands::compare::Smallest;
use crate::loosening::keys;
use generators::diagrams::{diagram, loosened, Size, LARGE, LINKED, SMALL, TINY, WIDE};
use generators::edits::{edited, redrawn};
use generators::{DiagramPlan, Random};

/// So many pairs of each size and kind are tried.
const PAIRS: u64 = 10;

/// How the second diagram of a pair comes from the first.
#[derive(Clone, Copy, Debug)]
enum Other {
    Edited,
    Redrawn,
    Unrelated,
}

/// A pair of diagrams of a size, in either order; half of them hardly ask for anything.
fn pair(random: &mut Random, size: Size, other: Other) -> (DiagramPlan, DiagramPlan) {
    let mut one = diagram(random, size);
    if random.chance(1, 2) {
        one = loosened(random, &one);
    }
    let other = match other {
        Other::Edited => edited(random, &one),
        Other::Redrawn => redrawn(random, &one),
        Other::Unrelated => diagram(random, size),
    };
    match random.chance(1, 2) {
        true => (one, other),
        false => (other, one),
    }
}

/// The file of a plan.
fn file(plan: &DiagramPlan) -> Loaded {
    Loaded {
        path: "made up".into(),
        bytes: plan.file(),
    }
}

/// An answer of the library, which has one for every pair.
fn answer<T>(result: Result<T, Trouble>) -> T {
    result.unwrap_or_else(|_| panic!("the library answers"))
}

/// The keys of a diagram's lines after changes of lines.
fn after(mut keys: Vec<String>, changes: Vec<LineChange>) -> Vec<String> {
    for change in changes {
        if let Some(before) = change.before {
            let at = keys.iter().position(|key| *key == before.key);
            keys.remove(at.expect("a line that becomes others is there"));
        }
        keys.extend(change.after.into_iter().map(|line| line.key));
    }
    keys.sort();
    keys
}

/// Finds all reasons of a pair, if there is a difference, and tries them; why no further ones were
/// looked for.
fn tried(old: &DiagramPlan, new: &DiagramPlan, bound: u8) -> Option<End> {
    let (old, new) = (file(old), file(new));
    let first = answer(proved::compare(&old, &new, bound))?;
    let compared = Compared {
        old: &old,
        new: &new,
        bound,
        smallest: Smallest::Unknown,
    };
    let (old_diagram, new_diagram) = (
        answer(proved::diagram_of(&old)),
        answer(proved::diagram_of(&new)),
    );
    let mut rounds = Rounds {
        compared: &compared,
        new: &new_diagram,
        draft: Draft::of(&old_diagram, new_diagram.clone()),
        differences: Vec::new(),
        lines: Vec::new(),
    };
    let end = answer(rounds.run(&Watch::start(None), first));
    for difference in &rounds.differences {
        let site = Loaded::site(&difference.witness.file);
        assert_eq!(answer(rule_of(&old, &site)), 0);
        assert_ne!(answer(rule_of(&new, &site)), 0);
        assert!(!difference.reason.places.is_empty());
    }
    assert!(!rounds.differences.is_empty());
    let lines = after(keys(&new_diagram), net(rounds.lines.clone()));
    assert_eq!(lines, keys(rounds.draft.diagram()));
    if end == End::Complete {
        let changed = file_of(rounds.draft.diagram());
        assert_eq!(answer(proved::compare(&old, &changed, bound)), None);
        let mut differences = rounds.differences.iter();
        assert!(differences.all(|difference| difference.change.is_some()));
    }
    Some(end)
}

#[test]
fn sites_are_differences_and_complete_lists_are_complete() {
    for (size, bound) in [(TINY, 3), (SMALL, 3), (LINKED, 3), (WIDE, 3), (LARGE, 1)] {
        for other in [Other::Edited, Other::Redrawn, Other::Unrelated] {
            let mut ends = Vec::new();
            for seed in 0..PAIRS {
                let mut random = Random::new(seed);
                let (old, new) = pair(&mut random, size, other);
                ends.extend(tried(&old, &new, bound));
            }
            let is_fine = |end: &&End| matches!(end, End::Complete | End::TooLarge);
            let fine = ends.iter().filter(is_fine).count();
            assert!(fine * 20 >= ends.len() * 19, "{other:?}: {ends:?}");
        }
    }
}

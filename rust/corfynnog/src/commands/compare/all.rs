//! `compare --all`: every reason why new forbids sites that old allows. After each difference the
//! line of new that forbids it is loosened in a copy, which is compared with old again.

#[cfg(test)]
mod pairs;

use super::report::Compared;
use super::search::{Found, Watch};
use crate::breaches::Breach;
use crate::diagram::Diagram;
use crate::disk::Loaded;
use crate::loosening::{file_of, net, Draft, LineChange, Made, Stuck};
use crate::progress::Aim;
use crate::proved::{self, Witness};
use crate::reasons::Reason;
use crate::record::Record;
use crate::trouble::Trouble;

/// So many changes are made at most.
const MOST_CHANGES: usize = 200;

/// A site that old allows and new forbids, with a reason that the changes before do not do away with.
pub struct Difference {
    pub witness: Witness,
    pub record: Record,
    pub reason: Reason,
    /// The diagram that the reason is told of: new itself, or else new with the changes before.
    pub diagram: Diagram,
    pub is_of_new: bool,
    /// The lowest rule of new that the site breaks, where the changes before do away with that.
    pub besides: Option<u8>,
    /// A change of new for it, line by line; none where no change is known.
    pub change: Option<Vec<LineChange>>,
}

/// Why no further reason is looked for.
#[derive(Clone, Copy, Debug, PartialEq, Eq)]
pub enum End {
    /// There is none: the last comparison found no difference.
    Complete,
    /// The time was up; with the changes there is no difference up to this many objects.
    TimeUp(Option<u8>),
    NoChangeKnown,
    /// By the changes that are known new would have more parts than a diagram may have.
    TooLarge,
    TooManyChanges,
}

impl From<Stuck> for End {
    fn from(stuck: Stuck) -> End {
        match stuck {
            Stuck::NoChangeKnown => End::NoChangeKnown,
            Stuck::TooLarge => End::TooLarge,
        }
    }
}

/// All that was found.
pub struct All {
    pub differences: Vec<Difference>,
    /// What all changes come to, those too that were made because of other changes.
    pub changes: Vec<LineChange>,
    pub end: End,
}

/// All reasons, from the first difference on.
pub fn all(compared: &Compared, watch: &Watch, first: Witness) -> Result<All, Trouble> {
    let (old, new) = (
        proved::diagram_of(compared.old)?,
        proved::diagram_of(compared.new)?,
    );
    let mut rounds = Rounds {
        compared,
        new: &new,
        draft: Draft::of(&old, new.clone()),
        differences: Vec::new(),
        lines: Vec::new(),
    };
    let end = rounds.run(watch, first)?;
    Ok(All {
        differences: rounds.differences,
        changes: net(rounds.lines),
        end,
    })
}

/// What was found so far, and new as it is changed.
struct Rounds<'a> {
    compared: &'a Compared<'a>,
    new: &'a Diagram,
    draft: Draft<'a>,
    differences: Vec<Difference>,
    lines: Vec<LineChange>,
}

/// The verdict of the library on a site under a diagram: 0, or the lowest rule broken.
fn rule_of(diagram: &Loaded, site: &Loaded) -> Result<u8, Trouble> {
    proved::judge(diagram, site).map(|judged| judged.rule)
}

impl Rounds<'_> {
    /// A change for each difference, until there is none or no change is known.
    fn run(&mut self, watch: &Watch, first: Witness) -> Result<End, Trouble> {
        let (old, bound) = (self.compared.old, self.compared.bound);
        let mut witness = first;
        for _ in 0..MOST_CHANGES {
            if let Err(stuck) = self.add(witness)? {
                return Ok(stuck.into());
            }
            let changed = file_of(self.draft.diagram());
            witness = match watch.search(Aim::Difference, old, &changed, bound)? {
                Found::NoDifference => return Ok(End::Complete),
                Found::NotSettled(settled) => return Ok(End::TimeUp(settled)),
                Found::Difference(witness) => witness,
            };
        }
        Ok(End::TooManyChanges)
    }

    /// Adds a site that old allows and the copy forbids, with the change that is made for it, if any.
    /// Only a site that new itself forbids is a difference.
    fn add(&mut self, witness: Witness) -> Result<Result<(), Stuck>, Trouble> {
        let site = Loaded::site(&witness.file);
        let record = proved::record_of(&site)?;
        let copy = self.draft.diagram().clone();
        let by_copy = proved::judge(&file_of(&copy), &site)?;
        let lowest = rule_of(self.compared.new, &site)?;
        if rule_of(self.compared.old, &site)? != 0 || by_copy.rule == 0 {
            return Err(Trouble::Unexpected);
        }
        let of_copy = Reason::proved(&copy, &record, &by_copy);
        let made = self.draft.loosen(&record, &of_copy.places);
        let change = made.as_ref().ok().map(|made| made.lines.clone());
        if let Ok(made) = &made {
            self.lines.extend(made.lines.iter().cloned());
        }
        if lowest != 0 {
            let of_new = self.of_new(&site, &record, &of_copy, made.as_ref().ok())?;
            self.differences.push(Difference {
                witness,
                record,
                is_of_new: of_new.is_some(),
                diagram: of_new.as_ref().map_or(copy, |_| self.new.clone()),
                besides: Some(lowest).filter(|&lowest| lowest != of_copy.rule),
                reason: of_new.unwrap_or(of_copy),
                change,
            });
        }
        Ok(made.map(|_| ()))
    }

    /// The same reason under new itself: the places that are there under the copy too, first the one
    /// that a change was made for; none where new has no such place.
    fn of_new(
        &self,
        site: &Loaded,
        record: &Record,
        of_copy: &Reason,
        made: Option<&Made>,
    ) -> Result<Option<Reason>, Trouble> {
        let judged = proved::judge(self.compared.new, site)?;
        let of_new = Reason::of_rule(self.new, record, &judged, of_copy.rule);
        let first = of_copy.places.get(made.map_or(0, |made| made.place));
        let is_first = |place: &Breach| first.is_some_and(|first| first.is_alike(place));
        let is_there = |place: &Breach| of_copy.places.iter().any(|other| other.is_alike(place));
        let there = of_new.places.into_iter().filter(is_there);
        let (front, back): (Vec<_>, Vec<_>) = there.partition(is_first);
        let is_told = !front.is_empty();
        let places = [front, back].concat();
        Ok(is_told.then_some(Reason { places, ..of_new }))
    }
}

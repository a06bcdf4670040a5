//! A diagram that is loosened, change by change.

use super::change::Changed;
use super::line_changes::LineChange;
use super::loosened;
use crate::breaches::{breaches, Breach, RULES};
use crate::counterparts::Seen;
use crate::diagram::Diagram;
use crate::diagram_writer::write_diagram;
use crate::disk::Loaded;
use crate::proved;
use crate::record::Record;

/// The diagram as it stands, beside the one whose sites it shall allow.
pub struct Draft<'a> {
    old: &'a Diagram,
    diagram: Diagram,
    /// How it stood before each change; it never stands so again.
    earlier: Vec<Diagram>,
    /// Sites that old allows, each of which a change was made for.
    sites: Vec<Record>,
}

/// A change that was made: for which of the places, and the lines that changed.
pub struct Made {
    pub place: usize,
    pub lines: Vec<LineChange>,
}

/// Why no change is made.
#[derive(Clone, Copy, Debug, PartialEq, Eq)]
pub enum Stuck {
    NoChangeKnown,
    /// By those that are known the diagram would have more parts than a diagram may have.
    TooLarge,
}

impl<'a> Draft<'a> {
    /// Nothing is changed yet.
    pub fn of(old: &'a Diagram, new: Diagram) -> Draft<'a> {
        Draft {
            old,
            diagram: new,
            earlier: Vec::new(),
            sites: Vec::new(),
        }
    }

    /// The diagram as it stands.
    pub fn diagram(&self) -> &Diagram {
        &self.diagram
    }

    /// Makes a change that does away with one of the places where a site breaks a rule.
    pub fn loosen(&mut self, record: &Record, places: &[Breach]) -> Result<Made, Stuck> {
        let chosen = self.choose(record, places);
        self.sites.push(record.clone());
        let (place, Changed { diagram, lines }) = chosen?;
        let before = std::mem::replace(&mut self.diagram, diagram);
        self.earlier.push(before);
        Ok(Made { place, lines })
    }

    /// The first change by which the sites before stay legal, or else the first.
    fn choose(&self, record: &Record, places: &[Breach]) -> Result<(usize, Changed), Stuck> {
        let mut first = Err(Stuck::NoChangeKnown);
        for (place, breach) in places.iter().enumerate() {
            for changed in self.candidates(record, breach) {
                if proved::check_diagram(&file_of(&changed.diagram)).is_err() {
                    first = first.or(Err(Stuck::TooLarge));
                } else if self.keeps_sites(&changed.diagram) {
                    return Ok((place, changed));
                } else {
                    first = first.or(Ok((place, changed)));
                }
            }
        }
        first
    }

    /// The diagrams that do away with a breach.
    fn candidates<'b>(
        &'b self,
        record: &'b Record,
        breach: &'b Breach,
    ) -> impl Iterator<Item = Changed> + 'b {
        let seen = Seen {
            old: self.old,
            new: &self.diagram,
            record,
            breach,
        };
        let times = |diagram: &Diagram| {
            let all = breaches(diagram, record, breach.rule);
            all.iter().filter(|other| breach.is_alike(other)).count()
        };
        let present = times(&self.diagram);
        loosened(&seen).into_iter().filter(move |changed| {
            !self.earlier.contains(&changed.diagram) && times(&changed.diagram) < present
        })
    }

    /// All sites before that are legal are so under the other diagram too.
    fn keeps_sites(&self, other: &Diagram) -> bool {
        let mut legal = self
            .sites
            .iter()
            .filter(|site| is_legal(&self.diagram, site));
        legal.all(|site| is_legal(other, site))
    }
}

/// A diagram file that stands in memory alone.
pub fn file_of(diagram: &Diagram) -> Loaded {
    Loaded {
        path: "the changed diagram".into(),
        bytes: write_diagram(diagram),
    }
}

/// No rule is broken, by this program's own reading.
fn is_legal(diagram: &Diagram, record: &Record) -> bool {
    RULES
        .into_iter()
        .all(|rule| breaches(diagram, record, rule).is_empty())
}

//! What a comparison came to, in words and for scripts.

use super::Smallest;
use crate::disk::Loaded;
use crate::file_json::record_json;
use crate::json::Json;
use crate::names::count_of;
use crate::object_diagram::object_diagram;
use crate::outcome::{Outcome, FINE, FOUND};
use crate::proved::{self, Witness};
use crate::reasons::{Beside, Forbidden, Reason, TOLD};
use crate::trouble::Trouble;

/// The two diagrams that were compared, up to which bound, and what is known of old's sites.
pub struct Compared<'a> {
    pub old: &'a Loaded,
    pub new: &'a Loaded,
    pub bound: u8,
    pub smallest: Smallest,
}

impl Compared<'_> {
    /// The answer for scripts: the members that stand in every answer, null but for these.
    pub fn members(
        &self,
        result: &'static str,
        own: Vec<(&'static str, Json)>,
    ) -> Vec<(&'static str, Json)> {
        let smallest = match self.smallest {
            Smallest::Objects(objects) => Json::Number(objects.into()),
            Smallest::NoSite | Smallest::Unknown => Json::Null,
        };
        let mut members = vec![
            ("command", Json::text("compare")),
            ("old", self.old.json_name()),
            ("new", self.new.json_name()),
            ("bound", Json::Number(self.bound.into())),
            ("result", Json::text(result)),
            ("settled_bound", Json::Number(self.bound.into())),
            ("old_smallest_site", smallest),
            ("objects", Json::Null),
            ("witness", Json::Null),
            ("reason", Json::Null),
            ("written", Json::Null),
            ("differences", Json::Null),
            ("changes", Json::Null),
            ("complete", Json::Null),
        ];
        for (name, value) in own {
            match members.iter_mut().find(|(member, _)| *member == name) {
                Some(member) => member.1 = value,
                None => members.push((name, value)),
            }
        }
        members
    }

    /// No record within the bound is legal for old and illegal for new.
    pub fn no_difference(&self) -> Outcome {
        let (old, new) = (self.old.name(), self.new.name());
        let (sites, bound) = (sites_within(self.bound), self.bound);
        let more = format!("Sites of more than {} were not looked at.", objects(bound));
        let text = match self.smallest {
            Smallest::Objects(least) => format!(
                "No difference: every site {sites} that {old} allows is allowed by {new} too.\n\
                 The smallest site that {old} allows has {}. {more}\n",
                objects(least)
            ),
            Smallest::NoSite => format!(
                "Nothing was compared: {old} allows no site {sites}.\n\
                 So there is no difference to find, whatever {new} forbids. {more}\n"
            ),
            Smallest::Unknown => return self.not_settled(Some(bound)),
        };
        Outcome::answer(FINE, text, self.members("no difference", Vec::new()))
    }

    /// The time was up: what is known so far.
    pub fn not_settled(&self, settled: Option<u8>) -> Outcome {
        let (old, new) = (self.old.name(), self.new.name());
        let known = |level: u8, open: &str| {
            let sites = sites_within(level);
            format!("Every site {sites} that {old} allows is allowed by {new} too; {open}")
        };
        let standing = match settled {
            None => "No bound is settled yet".to_string(),
            Some(level) if level == self.bound => {
                known(level, &format!("whether {old} allows any is not settled"))
            }
            Some(level) => known(level, "larger sites are not settled"),
        };
        let complaint = format!(
            "corfynnog: Not settled: the time was up before an answer.\n  \
             {standing}.\n  to do: give a longer --timeout, or a smaller --bound\n"
        );
        let settled = Json::or_null(settled, |level| Json::Number(level.into()));
        let members = self.members("not settled", vec![("settled_bound", settled)]);
        Outcome::trouble(complaint, members)
    }

    /// The witness, and why new forbids it.
    pub fn difference(&self, witness: &Witness) -> Result<Outcome, Trouble> {
        let (old, new) = (self.old.name(), self.new.name());
        let (old_diagram, diagram) = (proved::diagram_of(self.old)?, proved::diagram_of(self.new)?);
        let site = Loaded::site(&witness.file);
        let record = proved::record_of(&site)?;
        let judged = proved::judge(self.new, &site)?;
        let reason = Reason::proved(&diagram, &record, &judged);
        let forbidden = Forbidden {
            diagram: &diagram,
            record: &record,
            beside: Some(Beside {
                old: &old_diagram,
                old_name: &old,
                new_name: &new,
            }),
        };
        let text = format!(
            "Difference: {old} allows this site of {}, and {new} forbids it. No smaller site does.\n\n{}\nWhy {new} forbids it:\n{}",
            objects(witness.objects),
            object_diagram("witness", &record),
            reason.text(&forbidden, TOLD)
        );
        let members = self.members(
            "difference",
            vec![
                ("objects", Json::Number(witness.objects.into())),
                ("witness", record_json(&record)),
                ("reason", reason.json(&forbidden)),
            ],
        );
        Ok(Outcome::answer(FOUND, text, members))
    }
}

/// A number of objects.
pub fn objects(count: u8) -> String {
    count_of(count.into(), "object", "objects")
}

/// The sites that a bound covers.
pub fn sites_within(bound: u8) -> String {
    match bound {
        0 => "without objects".to_string(),
        _ => format!("of at most {}", objects(bound)),
    }
}

//! Why a diagram forbids a record: the rule, then the places where it is broken, each with what the
//! diagram declares there, in a comparison with old's declarations beside it.

use crate::breaches::{breaches, Breach, RULES};
use crate::counterparts::Seen;
use crate::diagram::Diagram;
use crate::json::Json;
use crate::names::association_text;
use crate::parts::Part;
use crate::proved::Judged;
use crate::record::Record;
use crate::words::rule_in_words;

/// So many places are told; of more only the number.
pub const TOLD: usize = 4;

/// What reasons are told of: a record and the diagram that forbids it.
pub struct Forbidden<'a> {
    pub diagram: &'a Diagram,
    pub record: &'a Record,
    pub beside: Option<Beside<'a>>,
}

/// In a comparison, the diagram that allows the record, and what the two files are called.
#[derive(Clone, Copy)]
pub struct Beside<'a> {
    pub old: &'a Diagram,
    pub old_name: &'a str,
    pub new_name: &'a str,
}

/// A broken rule and where it is broken.
#[derive(Clone, Debug, PartialEq, Eq)]
pub struct Reason {
    pub rule: u8,
    /// The index of the first false predicate, where it is of this rule.
    pub predicate: Option<usize>,
    pub places: Vec<Breach>,
}

impl Reason {
    /// The rule that the library names.
    pub fn proved(diagram: &Diagram, record: &Record, judged: &Judged) -> Reason {
        Reason::of_rule(diagram, record, judged, judged.rule)
    }

    /// A rule; first the places that the first false predicate is about.
    pub fn of_rule(diagram: &Diagram, record: &Record, judged: &Judged, rule: u8) -> Reason {
        let all = breaches(diagram, record, rule);
        let stated = judged.false_predicate().filter(|p| p.rule() == rule);
        let first = stated.map_or(Vec::new(), |p| p.breaches(diagram, record));
        let (mut places, rest): (Vec<_>, Vec<_>) = all.into_iter().partition(|b| first.contains(b));
        places.extend(rest);
        Reason {
            rule,
            predicate: stated.map(|_| judged.first_false),
            places,
        }
    }

    /// The other rules that are broken, by this program's own reading.
    pub fn others(diagram: &Diagram, record: &Record, judged: &Judged) -> Vec<Reason> {
        let others = RULES.filter(|&rule| rule != judged.rule);
        let reason = |rule: u8| Reason {
            rule,
            predicate: None,
            places: breaches(diagram, record, rule),
        };
        let broken = |reason: &Reason| !reason.places.is_empty();
        others.map(reason).filter(broken).collect()
    }

    /// The reason as lines, with so many places at most.
    pub fn text(&self, forbidden: &Forbidden, most: usize) -> String {
        let rule = format!("  Rule {}: {}\n", self.rule, rule_in_words(self.rule));
        rule + &forbidden.places_text(&self.places, most)
    }

    /// The rule with its first place, or with its words where none is found, on one line.
    pub fn line(&self) -> String {
        let place = self.places.first().map(|place| place.sentence.as_str());
        let rule = self.rule;
        format!("Rule {rule}: {}", place.unwrap_or(rule_in_words(rule)))
    }

    /// The reason for scripts.
    pub fn json(&self, forbidden: &Forbidden) -> Json {
        Json::Object(vec![
            ("rule", Json::Number(self.rule.into())),
            ("rule_text", Json::text(rule_in_words(self.rule))),
            ("predicate", Json::or_null(self.predicate, Json::Number)),
            ("places", forbidden.places_json(&self.places)),
        ])
    }
}

impl<'a> Forbidden<'a> {
    /// A record under one diagram alone.
    pub fn by(diagram: &'a Diagram, record: &'a Record) -> Forbidden<'a> {
        Forbidden {
            diagram,
            record,
            beside: None,
        }
    }

    /// The places as lines, each with what is declared there.
    pub fn places_text(&self, places: &[Breach], most: usize) -> String {
        if places.is_empty() {
            return "  This program could not find the place; the verdict stands all the same.\n"
                .into();
        }
        let mut text = String::new();
        for place in places.iter().take(most) {
            text += &format!("  {}\n", place.sentence);
            for line in self.declarations(place) {
                text += &format!("    {line}\n");
            }
        }
        if places.len() > most {
            text += &format!("  ... and {} more places.\n", places.len() - most);
        }
        text
    }

    /// The declarations at a place, one a line; in a comparison with the name of the file in front.
    fn declarations(&self, place: &Breach) -> Vec<String> {
        let (own, old) = self.lines(place);
        let (Some(beside), Some(old)) = (&self.beside, old) else {
            return own.all();
        };
        let widest = beside.old_name.chars().count();
        let widest = widest.max(beside.new_name.chars().count());
        let named = |name: &str, lines: Lines| {
            let front = format!("{name}:");
            let with_name = |line: String| format!("{front:<0$} {line}", widest + 1);
            let lines = lines.or_nothing(place).all();
            lines.into_iter().map(with_name).collect::<Vec<_>>()
        };
        [named(beside.new_name, own), named(beside.old_name, old)].concat()
    }

    /// What the diagram declares at a place, and what old does where there is one.
    fn lines(&self, place: &Breach) -> (Lines, Option<Lines>) {
        let Some(beside) = &self.beside else {
            return (Lines::of(self.diagram, &place.declared, &[]), None);
        };
        let seen = Seen {
            old: beside.old,
            new: self.diagram,
            record: self.record,
            breach: place,
        };
        let (new_types, old_types) = seen.deciding_types();
        let own = Lines::of(self.diagram, &place.declared, &new_types);
        let old = Lines::of(beside.old, &seen.counterparts(), &old_types);
        (own, Some(old))
    }

    /// The places for scripts, all of them.
    pub fn places_json(&self, places: &[Breach]) -> Json {
        Json::list(places, |place| self.place_json(place))
    }

    /// One place for scripts.
    fn place_json(&self, place: &Breach) -> Json {
        let associations = &self.diagram.associations;
        let association = place.association.and_then(|i| associations.get(i));
        let text = association.map(|a| association_text(self.diagram, a));
        let name = |&object: &usize| Json::Text(self.record.object_name(object));
        let text_of = |text: &Option<String>| Json::or_null(text.clone(), Json::Text);
        let list = |lines: Lines| Json::list(lines.all(), Json::Text);
        let (own, old) = self.lines(place);
        Json::Object(vec![
            ("text", Json::text(place.sentence.as_str())),
            ("objects", Json::list(&place.objects, name)),
            ("type", text_of(&place.type_name)),
            ("attribute", text_of(&place.attribute)),
            ("role", text_of(&place.role)),
            (
                "association",
                Json::or_null(place.association, Json::Number),
            ),
            ("association_text", Json::or_null(text, Json::Text)),
            ("new_text", list(own)),
            ("old_text", Json::or_null(old, list)),
        ])
    }
}

/// What a diagram declares at a place, and the types that decide what the objects there count as.
struct Lines {
    declared: Vec<String>,
    types: Vec<String>,
}

impl Lines {
    /// The lines of these parts.
    fn of(diagram: &Diagram, declared: &[Part], types: &[Part]) -> Lines {
        let lines = |parts: &[Part]| parts.iter().map(|part| part.line(diagram)).collect();
        Lines {
            declared: lines(declared),
            types: lines(types),
        }
    }

    /// Where nothing is declared, a line that says so.
    fn or_nothing(mut self, place: &Breach) -> Lines {
        if self.declared.is_empty() {
            self.declared.push(place.nothing_there());
        }
        self
    }

    /// All of them, the declarations first.
    fn all(self) -> Vec<String> {
        [self.declared, self.types].concat()
    }
}

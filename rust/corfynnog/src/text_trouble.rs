//! The refusal of a text in words: where, what was read and expected there, and what to do.

use std::path::PathBuf;

use crate::disk::Loaded;
use crate::json::Json;
use crate::kinds::FileIs;
use crate::shown::shown;
use crate::text::{excerpt, place_of, read_text, Place, TextFault};
use crate::trouble::refusal_members;
use crate::words::{site_rule_in_words, text_refusal_in_words};

/// A text that is refused.
pub struct RefusedText {
    path: PathBuf,
    /// The kind of text that it was read as.
    is: FileIs,
    /// The library's number; none where the text is no record that the library could be asked of.
    refusal: Option<u8>,
    fault: Option<FoundFault>,
    rule: &'static str,
    to_do: String,
}

/// The first fault by this program's own reading, with its place and its line.
struct FoundFault {
    what: String,
    byte: usize,
    place: Place,
    excerpt: [String; 2],
}

impl FoundFault {
    /// The fault with its place in that text.
    fn of(text: &Loaded, at: usize, what: String) -> FoundFault {
        FoundFault {
            what,
            byte: at,
            place: place_of(&text.bytes, at),
            excerpt: excerpt(&text.bytes, at),
        }
    }
}

impl RefusedText {
    /// A diagram text that the library refused. The fault is told where this program's own reading
    /// comes to the library's number.
    pub fn diagram(text: &Loaded, refusal: u8) -> RefusedText {
        let found = read_text(&text.bytes).err();
        let same = found.filter(|fault| fault.rule.refusal() == refusal);
        let words = text_refusal_in_words(refusal);
        let known = same.as_ref().and_then(|fault| fault.to_do.clone());
        RefusedText {
            path: text.path.clone(),
            is: FileIs::DiagramText,
            refusal: Some(refusal),
            fault: same.map(|fault| FoundFault::of(text, fault.at, fault.what)),
            rule: words.rule,
            to_do: known.unwrap_or_else(|| words.to_do.to_string()),
        }
    }

    /// A site text that no record file can be made of.
    pub fn site(text: &Loaded, fault: TextFault) -> RefusedText {
        let words = site_rule_in_words(fault.rule);
        RefusedText {
            path: text.path.clone(),
            is: FileIs::SiteText,
            refusal: None,
            fault: Some(FoundFault::of(text, fault.at, fault.what)),
            rule: words.rule,
            to_do: fault.to_do.unwrap_or_else(|| words.to_do.to_string()),
        }
    }

    /// Which text is refused, and its refusal where it has a number.
    fn verdict(&self) -> String {
        let (name, is) = (shown(&self.path), self.is.words());
        let number = self.refusal.map(|refusal| format!(" (refusal {refusal})"));
        format!(
            "{name} is not an acceptable {is}{}",
            number.unwrap_or_default()
        )
    }

    /// Which text, where, and what is wrong there.
    pub fn line(&self) -> String {
        let verdict = self.verdict();
        match &self.fault {
            Some(FoundFault {
                what,
                place: Place { line, column },
                ..
            }) => format!("{verdict}, line {line}, column {column}: {what}."),
            None => format!("{verdict}: {NOT_FOUND}."),
        }
    }

    /// Which text, which line and column, the line itself, the rule of a refusal, and what to do.
    pub fn words(&self) -> String {
        let path = shown(&self.path);
        let place = match &self.fault {
            Some(FoundFault {
                what,
                place: Place { line, column },
                excerpt: [shown, sign],
                ..
            }) => format!("{path}:{line}:{column}: {what}\n    {shown}\n    {sign}"),
            None => format!("  fault: {NOT_FOUND}"),
        };
        let rule = match self.refusal {
            Some(_) => format!("  rule:  {}\n", self.rule),
            None => String::new(),
        };
        let (verdict, to_do) = (self.verdict(), &self.to_do);
        format!("{verdict}.\n{place}\n{rule}  to do: {to_do}")
    }

    /// The refusal for scripts.
    pub fn members(&self) -> Vec<(&'static str, Json)> {
        let fault = self.fault.as_ref();
        let number = |of: fn(&FoundFault) -> usize| Json::or_null(fault.map(of), Json::Number);
        refusal_members(vec![
            (
                "refusal",
                Json::or_null(self.refusal, |refusal| Json::Number(refusal.into())),
            ),
            ("file", Json::name(&self.path)),
            ("kind", Json::text(self.is.holds().name)),
            ("form", Json::text(self.is.form())),
            ("line", number(|fault| fault.place.line)),
            ("column", number(|fault| fault.place.column)),
            ("byte", number(|fault| fault.byte)),
            (
                "text",
                Json::text(fault.map_or(NOT_FOUND, |fault| &fault.what)),
            ),
            ("rule", Json::text(self.rule)),
            ("to_do", Json::text(self.to_do.as_str())),
        ])
    }
}

/// Instead of a fault.
const NOT_FOUND: &str = "this program could not find the place; the refusal stands all the same";

#[cfg(test)]
mod tests {
    use super::*;

    fn refused(text: &str, refusal: u8) -> RefusedText {
        let bytes = text.as_bytes().to_vec();
        let path = "old.cd".into();
        RefusedText::diagram(&Loaded { path, bytes }, refusal)
    }

    #[test]
    fn a_fault_that_is_found() {
        let text = "classdiagram old {\n  class Card;\n\tclass extends Card;\n}\n";
        let words = refused(text, 23).words();
        assert!(words.starts_with(
            "old.cd is not an acceptable diagram text (refusal 23).\n\
             old.cd:3:8: read \"extends\", expected a name for the class\n\
            \x20    class extends Card;\n\
            \x20          ^\n\
            \x20 rule:  "
        ));
    }

    #[test]
    fn where_this_reading_finds_another_fault_or_none_the_number_stands() {
        for text in [
            "classdiagram d {class A; class A;}",
            "classdiagram d {}",
            "",
        ] {
            for refusal in [4, 8, 10, 23, 24, 99] {
                let text = refused(text, refusal);
                if text.fault.is_some() {
                    continue;
                }
                let words = text.words();
                assert!(words.contains(&format!("(refusal {refusal})")), "{words}");
                assert!(words.contains(NOT_FOUND), "{words}");
                assert!(words.contains("\n  rule:  ") && words.contains("\n  to do: "));
            }
        }
        assert!(refused("classdiagram d {}", 24).fault.is_none());
        assert!(refused("", 24).fault.is_none());
    }
}

//! The refusal of a diagram file or a record file in words: which field, which byte, what is wrong
//! there, and what to do.

use std::path::PathBuf;

use crate::disk::Loaded;
use crate::fault::Fault;
use crate::fields::{tag_name, FileKind};
use crate::json::Json;
use crate::shown::shown;
use crate::trouble::refusal_members;
use crate::words::{refusal_in_words, NOT_IN_EDITION_1};

/// A file that the library refused.
pub struct RefusedFile {
    path: PathBuf,
    kind: &'static FileKind,
    refusal: u8,
    fault: Option<Fault>,
}

impl RefusedFile {
    /// A fault that is not of the library's number is left out.
    pub fn of(
        file: &Loaded,
        kind: &'static FileKind,
        refusal: u8,
        fault: Option<Fault>,
    ) -> RefusedFile {
        RefusedFile {
            path: file.path.clone(),
            kind,
            refusal,
            fault: fault.filter(|fault| fault.refusal == refusal),
        }
    }

    /// Which file is refused, and its refusal. One that cannot be converted is acceptable.
    fn verdict(&self) -> String {
        let (name, refusal) = (shown(&self.path), self.refusal);
        let words = match refusal {
            NOT_IN_EDITION_1 => "cannot be written in edition 1".to_string(),
            _ => format!("is not an acceptable {} file", self.kind.name),
        };
        format!("{name} {words} (refusal {refusal})")
    }

    /// Which file, where, and what is wrong there.
    pub fn line(&self) -> String {
        let place = match &self.fault {
            Some(Fault {
                field: Some(field),
                byte,
                ..
            }) => format!(", field {}, byte {byte}", field.number),
            Some(Fault { byte, .. }) => format!(", byte {byte}"),
            None => String::new(),
        };
        format!("{}{place}: {}.", self.verdict(), self.what())
    }

    /// Which file, which field at which byte, the rule, and what to do.
    pub fn words(&self) -> String {
        let words = refusal_in_words(self.refusal);
        format!(
            "{}.\n  where: {}\n  fault: {}\n  rule:  {}\n  to do: {}",
            self.verdict(),
            self.place(),
            self.what(),
            words.rule,
            self.to_do()
        )
    }

    /// Where the fault lies.
    fn place(&self) -> String {
        let Some(fault) = &self.fault else {
            return "this program could not find the place; the refusal stands all the same".into();
        };
        let Some(field) = fault.field else {
            return format!("byte {} (counted from 0), the end of the file", fault.byte);
        };
        let name = match self.kind.rule_of(field.tag) {
            Some(rule) => rule.name,
            None => "not of this kind of file",
        };
        let end = match fault.refusal {
            1 => ", where the file ends",
            _ => "",
        };
        format!(
            "field {} ({name}, tag 0x{:02X}), which starts at byte {}; the fault is at byte {}{end} (fields counted from 1, bytes from 0)",
            field.number, field.tag, field.start, fault.byte
        )
    }

    /// What is wrong there.
    fn what(&self) -> &str {
        let found = self.fault.as_ref().map(|fault| fault.what.as_str());
        found.unwrap_or("not known more closely")
    }

    /// What to do about it.
    fn to_do(&self) -> String {
        match &self.fault {
            Some(fault) => fault.to_do.clone(),
            None => refusal_in_words(self.refusal).to_do.to_string(),
        }
    }

    /// The refusal for scripts.
    pub fn members(&self) -> Vec<(&'static str, Json)> {
        let field = self.fault.as_ref().and_then(|fault| fault.field);
        let byte = self.fault.as_ref().map(|fault| fault.byte);
        refusal_members(vec![
            ("refusal", Json::Number(self.refusal.into())),
            ("file", Json::name(&self.path)),
            ("kind", Json::text(self.kind.name)),
            ("form", Json::text("file")),
            ("field", Json::or_null(field, |f| Json::Number(f.number))),
            ("tag", Json::or_null(field, |f| Json::Number(f.tag.into()))),
            (
                "field_name",
                Json::or_null(field.and_then(|f| tag_name(f.tag)), Json::text),
            ),
            (
                "field_start",
                Json::or_null(field, |f| Json::Number(f.start)),
            ),
            ("byte", Json::or_null(byte, Json::Number)),
            ("text", Json::text(self.what())),
            ("rule", Json::text(refusal_in_words(self.refusal).rule)),
            ("to_do", Json::Text(self.to_do())),
        ])
    }
}

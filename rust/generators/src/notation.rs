//! Diagrams written as text, as `corfynnog show` prints them:
//!
//! ```text
//! enum State {spare, working;}
//! interface Powered;
//! abstract class Card implements Powered { State state; }
//! <<singleton>> class Exchange;
//! composition [1] Exchange (exchange) -> (cards) Card [0..4];
//! ```
//!
//! A text that is not written like this ends in a panic: it stands in the program's own code.

use crate::editions::{in_edition, NO_UPPER_LIMIT};
use crate::plan::{Association, Attribute, DiagramPlan, End, Type, ValueType};

/// The diagram of a text, in edition 1 if that has its limits, else in edition 2.
pub fn diagram(text: &str) -> DiagramPlan {
    let words = words(text);
    let mut reader = Reader {
        words: words.iter(),
        plan: DiagramPlan {
            edition: 2,
            ..DiagramPlan::default()
        },
    };
    while let Some(word) = reader.words.next() {
        match word.as_str() {
            "enum" => reader.value_type(),
            "class" => reader.of_kind(0),
            "abstract" => reader.of_kind(1),
            "interface" => reader.of_kind(2),
            "<<singleton>>" => reader.of_kind(3),
            "association" => reader.association(0),
            "composition" => reader.association(1),
            other => panic!("'{other}' starts no part of a diagram"),
        }
    }
    in_edition(1, &reader.plan).unwrap_or(reader.plan)
}

/// The words of a text; brackets, commas and semicolons are words of their own.
fn words(text: &str) -> Vec<String> {
    let mut spaced = String::new();
    for letter in text.chars() {
        if "{}()[],;".contains(letter) {
            spaced.extend([' ', letter, ' ']);
        } else {
            spaced.push(letter);
        }
    }
    spaced.split_whitespace().map(str::to_string).collect()
}

/// The words that are left, and the diagram so far.
struct Reader<'t> {
    words: std::slice::Iter<'t, String>,
    plan: DiagramPlan,
}

impl<'t> Reader<'t> {
    /// The next word.
    fn word(&mut self) -> &'t str {
        self.words.next().expect("the text goes on")
    }

    /// The next word as a name.
    fn name(&mut self) -> Vec<u8> {
        self.word().as_bytes().to_vec()
    }

    /// Passes a word that must come.
    fn pass(&mut self, expected: &str) {
        let word = self.word();
        assert_eq!(word, expected, "'{word}' in the place of '{expected}'");
    }

    /// The words up to an end, without those that only hold them together.
    fn up_to(&mut self, ends: &[&str]) -> (Vec<&'t str>, &'t str) {
        let mut found = Vec::new();
        loop {
            let word = self.word();
            if ends.contains(&word) {
                return (found, word);
            }
            if ![",", ";", "extends", "implements"].contains(&word) {
                found.push(word);
            }
        }
    }

    /// `State {spare, working;}` or `Serial;`
    fn value_type(&mut self) {
        let (name, end) = self.up_to(&["{", ";"]);
        let constants = match end {
            "{" => self.up_to(&["}"]).0,
            _ => Vec::new(),
        };
        self.plan.value_types.push(ValueType {
            name: name[0].as_bytes().to_vec(),
            constants: constants.iter().map(|c| c.as_bytes().to_vec()).collect(),
        });
    }

    /// `Card extends Unit implements Powered;` or with attributes in braces. Of kinds that two
    /// words name, the second is still to be passed.
    fn of_kind(&mut self, kind: u8) {
        if kind == 1 || kind == 3 {
            self.pass("class");
        }
        let name = self.name();
        let (parents, end) = self.up_to(&["{", ";"]);
        let mut parents: Vec<u8> = parents.iter().map(|p| self.type_named(p)).collect();
        parents.sort();
        self.plan.types.push(Type {
            kind,
            name,
            parents,
        });
        if end == "{" {
            self.attributes();
        }
    }

    /// `State state; Serial serial; }`, of the last type.
    fn attributes(&mut self) {
        let owner = (self.plan.types.len() - 1) as u8;
        let (attributes, _) = self.up_to(&["}"]);
        for attribute in attributes.chunks(2) {
            let known = self.plan.value_types.iter();
            let mut names = known.map(|v| v.name.as_slice());
            let value_type = names.position(|name| name == attribute[0].as_bytes());
            let value_type = value_type.expect("an attribute's value type stands before it");
            self.plan.attributes.push(Attribute {
                owner,
                name: attribute[1].as_bytes().to_vec(),
                value_type: value_type as u8,
            });
        }
    }

    /// `[1] Shelf (shelf) -> (cards) Card [0..4];`
    fn association(&mut self, form: u8) {
        let (low, up) = self.limits();
        let of = self.end_type();
        let role = self.role();
        let left = End { of, low, up, role };
        let arrow = match self.word() {
            "->" => 1,
            "<-" => 2,
            "<->" => 3,
            "--" => 4,
            other => panic!("'{other}' is no arrow"),
        };
        let role = self.role();
        let of = self.end_type();
        let (low, up) = self.limits();
        let right = End { of, low, up, role };
        self.pass(";");
        self.plan.associations.push(Association {
            form,
            arrow,
            left,
            right,
        });
    }

    /// `[2]`, `[0..4]`, `[1..*]` or `[*]`
    fn limits(&mut self) -> (u16, u16) {
        self.pass("[");
        let word = self.word();
        self.pass("]");
        let number = |text: &str| text.parse().expect("a limit is a number");
        match word.split_once("..") {
            None if word == "*" => (0, NO_UPPER_LIMIT),
            None => (number(word), number(word)),
            Some((low, "*")) => (number(low), NO_UPPER_LIMIT),
            Some((low, up)) => (number(low), number(up)),
        }
    }

    /// `(cards)`
    fn role(&mut self) -> Vec<u8> {
        self.pass("(");
        let role = self.name();
        self.pass(")");
        role
    }

    /// A type by its name.
    fn end_type(&mut self) -> u8 {
        let name = self.word();
        self.type_named(name)
    }

    /// The index of a type that stands before.
    fn type_named(&self, name: &str) -> u8 {
        let mut names = self.plan.types.iter().map(|t| t.name.as_slice());
        let at = names.position(|known| known == name.as_bytes());
        at.unwrap_or_else(|| panic!("no type {name} stands before")) as u8
    }
}

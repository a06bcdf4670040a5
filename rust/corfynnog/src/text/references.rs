//! Refusal 24: an association's end that is no declared type, or a parent that is not declared
//! before its child as the kind that its keyword calls for.

use std::collections::{HashMap, HashSet};

use crate::diagram::Kind;

use super::checks::earliest;
use super::declarations::{Declarations, Name, Type};
use super::fault::{TextFault, TextRule};
use super::place::place_of;
use super::similar::{advice, similar};
use super::spelling::quoted;

/// The first end or parent that names nothing that it may name.
pub fn unknown(text: &[u8], all: &Declarations) -> Option<TextFault> {
    let known = Known::of(text, all);
    let mut ends = all
        .associations
        .iter()
        .flat_map(|a| [&a.left.of, &a.right.of]);
    let mut types = all.types.iter().enumerate();
    let end = ends.find_map(|end| known.try_end(end));
    let parent = types.find_map(|(index, child)| known.try_parents(index, child));
    earliest([end, parent])
}

/// What a text declares, by name.
struct Known<'t, 'a> {
    text: &'t [u8],
    types: &'t [Type<'a>],
    /// The index of the first class of a name.
    classes: HashMap<&'a str, usize>,
    /// The index of the first interface of a name.
    interfaces: HashMap<&'a str, usize>,
    enumerations: HashSet<&'a str>,
}

impl<'t, 'a> Known<'t, 'a> {
    fn of(text: &'t [u8], all: &'t Declarations<'a>) -> Known<'t, 'a> {
        let (mut classes, mut interfaces) = (HashMap::new(), HashMap::new());
        for (index, declared) in all.types.iter().enumerate() {
            let of_kind = match declared.kind {
                Kind::Interface => &mut interfaces,
                _ => &mut classes,
            };
            of_kind.entry(declared.name.text).or_insert(index);
        }
        Known {
            text,
            types: &all.types,
            classes,
            interfaces,
            enumerations: all.enumerations.iter().map(|e| e.name.text).collect(),
        }
    }

    /// An end is a class or interface, declared anywhere.
    fn try_end(&self, end: &Name) -> Option<TextFault> {
        if self.classes.contains_key(end.text) || self.interfaces.contains_key(end.text) {
            return None;
        }
        let name = quoted(end.text);
        if self.enumerations.contains(end.text) {
            let what = format!("{name} is an enumeration, but an end is a class or interface");
            let to_do = format!(
                "declare a class {}, or make it an attribute's type",
                end.text
            );
            return Some(TextFault::of(TextRule::Declared, end.at, what).with(to_do));
        }
        let what = format!("{name} is no class or interface of this text");
        let meant = similar(end.text, self.types.iter().map(|t| t.name.text));
        Some(TextFault::of(TextRule::Declared, end.at, what).with(advice(end.text, meant)))
    }

    /// All parents of a type.
    fn try_parents(&self, index: usize, child: &Type) -> Option<TextFault> {
        let mut superclasses = child.superclasses.iter();
        let mut interfaces = child.interfaces.iter();
        superclasses
            .find_map(|name| self.try_parent(index, name, false))
            .or_else(|| interfaces.find_map(|name| self.try_parent(index, name, true)))
    }

    /// A parent stands before its child, and is an interface exactly where one is called for.
    fn try_parent(&self, child: usize, name: &Name, interface: bool) -> Option<TextFault> {
        let declared = self.of_kind(interface).get(name.text).copied();
        if declared.is_some_and(|parent| parent < child) {
            return None;
        }
        let (what, to_do) = match declared {
            Some(parent) if parent == child => own_parent(name),
            Some(parent) => self.declared_later(name, parent),
            None => self.not_of_kind(child, name, interface),
        };
        Some(TextFault::of(TextRule::Declared, name.at, what).with(to_do))
    }

    /// The first interface, or the first class, of each name.
    fn of_kind(&self, interface: bool) -> &HashMap<&'a str, usize> {
        match interface {
            true => &self.interfaces,
            false => &self.classes,
        }
    }

    /// What and what to do: the parent stands behind its child.
    fn declared_later(&self, name: &Name, parent: usize) -> (String, String) {
        let shown = quoted(name.text);
        let line = place_of(self.text, self.types[parent].name.at).line;
        (
            format!(
                "{shown} is declared only at line {line}, but a parent stands before its child"
            ),
            format!("move the declaration of {} up", name.text),
        )
    }

    /// What and what to do: no parent of the kind that is called for has this name.
    fn not_of_kind(&self, child: usize, name: &Name, interface: bool) -> (String, String) {
        let (shown, wanted) = (quoted(name.text), kind_words(interface));
        if self.of_kind(!interface).contains_key(name.text) {
            let kind = kind_words(!interface);
            let to_do = keyword_advice(self.types[child].kind, interface).to_string();
            return (
                format!("{shown} is {kind}, but {wanted} is needed here"),
                to_do,
            );
        }
        if self.enumerations.contains(name.text) {
            let to_do = format!("name {wanted}, or take it out");
            let what = format!("{shown} is an enumeration, but {wanted} is needed here");
            return (what, to_do);
        }
        let before = self.types[..child].iter();
        let candidates = before.filter(|t| (t.kind == Kind::Interface) == interface);
        let meant = similar(name.text, candidates.map(|t| t.name.text));
        let kind = wanted.trim_start_matches("an ").trim_start_matches("a ");
        (
            format!("{shown} is no {kind} of this text"),
            advice(name.text, meant),
        )
    }
}

/// What and what to do: a type below itself.
fn own_parent(name: &Name) -> (String, String) {
    (
        format!("{} is named as its own parent", quoted(name.text)),
        "name another type, or take it out".to_string(),
    )
}

fn kind_words(interface: bool) -> &'static str {
    match interface {
        true => "an interface",
        false => "a class",
    }
}

/// The keyword that fits the parent's kind.
fn keyword_advice(child: Kind, interface: bool) -> &'static str {
    match (child, interface) {
        (Kind::Interface, _) => "an interface extends interfaces alone: take the class out",
        (_, true) => "write it behind extends",
        (_, false) => "write it behind implements",
    }
}

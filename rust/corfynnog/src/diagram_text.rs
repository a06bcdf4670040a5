//! A diagram as text that is read back as the same diagram, where the grammar allows that (see
//! `unwritable`): enumerations, then types with their attributes, then associations.
//!
//! A value type without constants is written as an enumeration without a body. An interface with
//! attributes gets a body like a class, which no text may have: it is better refused than read back
//! without them.

use crate::diagram::{Attribute, Diagram, Kind, Type, ValueType};
use crate::names::association_text;

/// The whole diagram.
pub fn diagram_text(name: &str, diagram: &Diagram) -> String {
    let mut lines = vec![format!("classdiagram {name} {{")];
    for value_type in &diagram.value_types {
        let end = match value_type.constants.is_empty() {
            true => ";",
            false => "",
        };
        lines.push(format!("  {}{end}", value_type_text(value_type)));
    }
    for index in 0..diagram.types.len() {
        lines.extend(type_lines(diagram, index));
    }
    for association in &diagram.associations {
        lines.push(format!("  {};", association_text(diagram, association)));
    }
    lines.push("}\n".to_string());
    lines.join("\n")
}

/// `enum Colour {red, green;}` or `enum Date`, without a semicolon behind it.
pub fn value_type_text(value_type: &ValueType) -> String {
    let name = &value_type.name;
    match value_type.constants.is_empty() {
        true => format!("enum {name}"),
        false => format!("enum {name} {{{};}}", value_type.constants.join(", ")),
    }
}

/// `Colour paint;`
pub fn attribute_text(diagram: &Diagram, attribute: &Attribute) -> String {
    let value_type = &diagram.value_types[attribute.value_type];
    format!("{} {};", value_type.name, attribute.name)
}

/// A type's head, and its attributes in a body where it has any.
fn type_lines(diagram: &Diagram, index: usize) -> Vec<String> {
    let head = type_head(diagram, &diagram.types[index]);
    let own = diagram.attributes.iter().filter(|a| a.owner == index);
    let attributes: Vec<String> = own
        .map(|a| format!("    {}", attribute_text(diagram, a)))
        .collect();
    if attributes.is_empty() {
        return vec![format!("  {head};")];
    }
    let mut lines = vec![format!("  {head} {{")];
    lines.extend(attributes);
    lines.push("  }".to_string());
    lines
}

/// `abstract class Card extends Part implements Wired`
pub fn type_head(diagram: &Diagram, of: &Type) -> String {
    let keyword = match of.kind {
        Kind::Class => "class",
        Kind::AbstractClass => "abstract class",
        Kind::Interface => "interface",
        Kind::Singleton => "<<singleton>> class",
    };
    let parents = |interfaces: bool| {
        let all = of.parents.iter().map(|&parent| &diagram.types[parent]);
        let some = all.filter(|parent| (parent.kind == Kind::Interface) == interfaces);
        some.map(|parent| parent.name.as_str())
            .collect::<Vec<_>>()
            .join(", ")
    };
    let (others, interfaces) = (parents(false), parents(true));
    let mut head = format!("{keyword} {}", of.name);
    if !others.is_empty() {
        head += &format!(" extends {others}");
    }
    if !interfaces.is_empty() {
        let word = match of.kind {
            Kind::Interface => "extends",
            _ => "implements",
        };
        head += &format!(" {word} {interfaces}");
    }
    head
}

#[cfg(test)]
mod tests {
    use super::*;
    use crate::diagram_file::read_diagram;
    use crate::text::read_text;
    use crate::unwritable::unwritable;

    /// The diagram of a file, its remarks, and what its text is read as.
    fn told(file: &[u8]) -> (Diagram, Vec<String>, Result<Diagram, u8>) {
        let diagram = read_diagram(file).expect("a diagram file");
        let text = diagram_text("d", &diagram);
        let read = read_text(text.as_bytes());
        let read = read
            .map(|r| r.diagram)
            .map_err(|fault| fault.rule.refusal());
        let remarks = unwritable(&diagram);
        (diagram, remarks, read)
    }

    /// Value types plain first, every kind, parents, arrows and limits, attributes class by class.
    const WRITABLE: &[u8] = b"\x10\0\x01\x01\
        \x20\0\x06\x04Date\0\x20\0\x10\x06Colour\x02\x03red\x03tan\
        \x30\0\x08\x02\x05Wired\0\x30\0\x0A\x02\x06Socket\x01\0\x30\0\x07\x01\x04Part\0\
        \x30\0\x0A\0\x04Card\x03\0\x01\x02\x30\0\x0C\x03\x08Exchange\x01\x02\
        \x30\0\x08\0\x05Class\0\
        \x40\0\x08\x03\x05paint\x01\x40\0\x08\x03\x05sales\0\x40\0\x08\x04\x05sales\0\
        \x50\0\x0C\0\x01\x02\0\xFF\x01a\x03\x02\xFF\x01b\
        \x50\0\x0C\0\x02\x02\0\0\x01c\x03\x01\x01\x01d\
        \x50\0\x0C\x01\x03\x04\x01\x01\x01e\x03\0\x64\x01f\
        \x50\0\x10\0\x04\x05\x03\x04\x05class\0\0\x01\x01g";

    #[test]
    fn a_diagram_that_text_can_hold_is_read_back() {
        let (diagram, remarks, read) = told(WRITABLE);
        assert_eq!(remarks, Vec::<String>::new());
        assert_eq!(read, Ok(diagram));
    }

    #[test]
    fn a_role_that_is_a_quoted_word_is_left_out_where_it_is_meant() {
        let (diagram, _, _) = told(WRITABLE);
        let text = diagram_text("d", &diagram);
        assert!(
            text.contains("  association [3..4] Class -- (g) Wired [0..1];\n"),
            "{text}"
        );
    }

    /// As text the diagram is refused with 23, and one remark, with this end, says why.
    fn expect_remark(file: &[u8], end: &str) {
        let (_, remarks, read) = told(file);
        assert_eq!(read, Err(23));
        assert_eq!(remarks.len(), 1);
        assert!(remarks[0].ends_with(end), "{remarks:?}");
    }

    #[test]
    fn attributes_of_an_interface_are_refused_as_text() {
        let file = b"\x10\0\x01\x01\x20\0\x03\x01V\0\x30\0\x04\x02\x01I\0\x40\0\x04\0\x01a\0";
        expect_remark(file, "interfaces have no attributes: I.a.");
    }

    #[test]
    fn quoted_words_as_names_are_refused_as_text() {
        let file = b"\x10\0\x01\x01\x20\0\x08\x01V\x01\x04enum\x30\0\x08\0\x05class\0\
            \x50\0\x18\0\x01\0\0\xFF\x07extends\0\0\xFF\x07class_A";
        expect_remark(file, "grammar: class, enum, extends.");
    }

    #[test]
    fn attributes_in_another_order_are_read_back_class_by_class() {
        let file = b"\x10\0\x01\x01\x20\0\x03\x01V\0\x30\0\x04\0\x01A\0\x30\0\x04\0\x01B\0\
            \x40\0\x04\x01\x01b\0\x40\0\x04\0\x01a\0";
        let (mut diagram, remarks, read) = told(file);
        assert_eq!(remarks.len(), 1);
        assert!(remarks[0].contains("in another order"), "{remarks:?}");
        assert_ne!(read, Ok(diagram.clone()));
        diagram.attributes.reverse();
        assert_eq!(read, Ok(diagram));
    }
}

//! A diagram as a diagram file of edition 2, which has room for the limits of both.

use crate::diagram::{Association, Attribute, Diagram, End, Type, ValueType};
use crate::edition::EDITION_2;
use crate::field_writer::{byte, field, name, two_bytes};

/// The diagram's file. One with more parts than a file may have is written too, and refused by every
/// reader.
pub fn write_diagram(diagram: &Diagram) -> Vec<u8> {
    let mut file = field(0x10, &[byte(EDITION_2.number)]);
    let parts = diagram.value_types.iter().map(value_type);
    let parts = parts
        .chain(diagram.types.iter().map(type_of))
        .chain(diagram.attributes.iter().map(attribute))
        .chain(diagram.associations.iter().map(association));
    file.extend(parts.flatten());
    file
}

/// 0x20: a name and its constants.
fn value_type(of: &ValueType) -> Vec<u8> {
    let mut content = name(&of.name);
    content.push(byte(of.constants.len()));
    content.extend(of.constants.iter().flat_map(|constant| name(constant)));
    field(0x20, &content)
}

/// 0x30: kind, name and parents.
fn type_of(of: &Type) -> Vec<u8> {
    let mut content = vec![of.kind.number()];
    content.extend(name(&of.name));
    content.push(byte(of.parents.len()));
    content.extend(of.parents.iter().map(|&parent| byte(parent)));
    field(0x30, &content)
}

/// 0x40: owner, name and value type.
fn attribute(of: &Attribute) -> Vec<u8> {
    let (owner, value_type) = (byte(of.owner), byte(of.value_type));
    field(
        0x40,
        &[vec![owner], name(&of.name), vec![value_type]].concat(),
    )
}

/// 0x50: form, arrow and the two ends.
fn association(of: &Association) -> Vec<u8> {
    let start = vec![u8::from(of.composition), of.arrow.number()];
    field(0x50, &[start, end(&of.left), end(&of.right)].concat())
}

/// An end: type, low, up and role.
fn end(of: &End) -> Vec<u8> {
    let up = of.limits.up.unwrap_or(EDITION_2.none);
    let limits = [of.limits.low, up].map(two_bytes);
    [&[byte(of.of)], limits.as_flattened(), &name(&of.role)].concat()
}

#[cfg(test)]
mod tests {
    use super::*;
    use crate::diagram_file::read_diagram;
    use crate::edition::Edition;
    use generators::diagrams::{diagram, LARGE, SMALL, TINY};
    use generators::Random;

    /// What is written of a file's diagram is read as that diagram; of an edition 2 file it is the
    /// file itself.
    fn expect_again(file: &[u8]) {
        let read = read_diagram(file).expect("a diagram");
        let written = write_diagram(&read);
        assert_eq!(read_diagram(&written), Ok(read));
        if Edition::of_file(file) == Some(EDITION_2) {
            assert_eq!(written, file);
        }
    }

    #[test]
    fn what_is_read_is_written_again() {
        let mut random = Random::new(1);
        for size in [TINY, SMALL, LARGE] {
            for _ in 0..50 {
                expect_again(&diagram(&mut random, size).file());
            }
        }
    }

    #[test]
    fn the_examples_are_written_again() {
        for file in [
            &include_bytes!("../../../examples/line_cards/old.diagram")[..],
            include_bytes!("../../../examples/card_states/new.diagram"),
            include_bytes!("../../../examples/new_families/new.diagram"),
            include_bytes!("../../../examples/line_groups/new.diagram"),
        ] {
            expect_again(file);
        }
    }
}

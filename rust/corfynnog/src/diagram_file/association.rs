//! 0x50: an association, its limits as the edition of the file has them.

use super::try_index;
use crate::content::{Content, Number};
use crate::diagram::{Arrow, Association, Diagram, End, Limits};
use crate::edition::{Edition, EDITION_2};
use crate::fault::Fault;
use crate::fields::Field;

/// What to do about numbers out of their range.
const FORMS: &str = "write 0 for an association, 1 for a composition";
const ARROWS: &str = "write 1 for ->, 2 for <-, 3 for <->, 4 for --";

/// Bytes of a content in front of the arrow.
const ARROW_AT: usize = 1;

/// Bytes of a content in front of the limits of the left end.
const LIMITS_AT: usize = 3;

/// An association whose types' indices are not yet known to name anything.
pub struct Found {
    composition: bool,
    arrow: Arrow,
    pub left: FoundEnd,
    pub right: FoundEnd,
}

/// An end, likewise; its limits are the numbers that the file has for them.
pub struct FoundEnd {
    of: Number,
    pub low: Number,
    pub up: Number,
    role: String,
}

/// The association of a field, tried for its layout (3), its types (6) and its whole (8).
pub fn association(
    field: Field,
    edition: Edition,
    diagram: &Diagram,
) -> Result<Association, Fault> {
    let found = found_in(field, edition)
        .map_err(|fault| limits_of_other_edition(field, edition).unwrap_or(fault))?;
    for end in [&found.left, &found.right] {
        try_index(field, end.of, "type", diagram.types.len())?;
    }
    if found.composition && found.arrow == Arrow::Left {
        let byte = field.content_start() + ARROW_AT;
        let what = "a composition points from its whole, the left end, to its part";
        let to_do = "exchange the two ends, and write arrow 1 (->)";
        return Err(Fault::within(&field, 8, byte, what, to_do));
    }
    let known = |end: FoundEnd| End {
        of: end.of.value,
        limits: Limits {
            low: end.low.value,
            up: Some(end.up.value).filter(|&up| up != edition.none),
        },
        role: end.role,
    };
    Ok(Association {
        composition: found.composition,
        arrow: found.arrow,
        left: known(found.left),
        right: known(found.right),
    })
}

/// A content: form, arrow and the two ends.
pub fn found_in(field: Field, edition: Edition) -> Result<Found, Fault> {
    let mut content = Content::of(field);
    let form = content.number_in("form", 0..=1, FORMS)?;
    let arrow = content.number_in("arrow", 1..=4, ARROWS)?;
    let left = found_end(&mut content, edition, "left")?;
    let right = found_end(&mut content, edition, "right")?;
    content.end()?;
    Ok(Found {
        composition: form == 1,
        arrow: Arrow::of(arrow),
        left,
        right,
    })
}

/// The fault of a content whose limits are written as the other edition has them. No content has the
/// layout of both.
fn limits_of_other_edition(field: Field, edition: Edition) -> Option<Fault> {
    let other = edition.other();
    found_in(field, other).ok()?;
    let what = format!(
        "the limits are written as in edition {}, in {} each, but the file is of edition {}",
        other.number,
        other.limit_bytes(),
        edition.number
    );
    let order = match edition.is_wide {
        true => ", high byte first",
        false => "",
    };
    let to_do = format!(
        "write {} as the edition (byte 3), if all limits of the file are written like these; or write each in {}{order} (0 to {}, or {} for no upper limit), and correct the field's length",
        other.number,
        edition.limit_bytes(),
        edition.most,
        edition.none
    );
    let byte = field.content_start() + LIMITS_AT;
    Some(Fault::within(&field, 3, byte, what, to_do))
}

/// An end: type, low, up and role.
fn found_end(content: &mut Content, edition: Edition, side: &str) -> Result<FoundEnd, Fault> {
    let of = content.number(&format!("{side} type's index"))?;
    let low = lower_limit(content, edition, side)?;
    let up = upper_limit(content, edition, side, low.value)?;
    let role = content.name(&format!("{side} role name"))?.text;
    Ok(FoundEnd { of, low, up, role })
}

/// A lower limit.
fn lower_limit(content: &mut Content, edition: Edition, side: &str) -> Result<Number, Fault> {
    let Edition { number, most, .. } = edition;
    let low = limit(content, edition, &format!("{side} lower limit"))?;
    if low.value <= most {
        return Ok(low);
    }
    let what = format!(
        "the {side} lower limit is {}, but only 0 to {most} are allowed in edition {number}",
        low.value
    );
    let to_do = format!("write 0 to {most}{}", in_edition_2(edition, low.value));
    Err(content.fault(3, low.byte, what, to_do))
}

/// An upper limit, or the number for none.
fn upper_limit(
    content: &mut Content,
    edition: Edition,
    side: &str,
    low: usize,
) -> Result<Number, Fault> {
    let Edition {
        number, most, none, ..
    } = edition;
    let up = limit(content, edition, &format!("{side} upper limit"))?;
    if up.value == none || (low..=most).contains(&up.value) {
        return Ok(up);
    }
    let (is_within, within) = match low == most {
        true => (most.to_string(), most.to_string()),
        false => (
            format!("lies between the lower limit, {low}, and {most}"),
            format!("{low} to {most}"),
        ),
    };
    let what = format!(
        "the {side} upper limit is {}, but in edition {number} it is {none} (none) or {is_within}",
        up.value
    );
    let to_do = format!(
        "write {within}, or {none} for no upper limit{}",
        in_edition_2(edition, up.value)
    );
    Err(content.fault(3, up.byte, what, to_do))
}

/// The number of a limit.
fn limit(content: &mut Content, edition: Edition, what: &str) -> Result<Number, Fault> {
    match edition.is_wide {
        true => content.two_byte_number(what),
        false => content.number(what),
    }
}

/// What else to do about a limit that edition 2 has, and the file's own does not.
fn in_edition_2(edition: Edition, wanted: usize) -> String {
    let Edition { number, most, .. } = EDITION_2;
    match (edition.most + 1..=most).contains(&wanted) {
        true => format!("; a file of edition {number} has limits up to {most}"),
        false => String::new(),
    }
}

#[cfg(test)]
mod tests {
    use super::super::read_diagram;
    use super::*;
    use generators::hex::bytes;

    /// A diagram file of that edition with class A and this field.
    fn read(edition: &str, field: &str) -> Result<Diagram, Fault> {
        let digits = format!("10 00 01 {edition} 30 00 04 00 01 41 00 {field}");
        read_diagram(&bytes(&digits))
    }

    /// Edition, the limits of the left end, and what they are.
    const LIMITS: [(&str, &str, usize, Option<usize>); 9] = [
        ("01", "00 FF", 0, None),
        ("01", "64 FF", 100, None),
        ("01", "00 64", 0, Some(100)),
        ("02", "00 00 FF FF", 0, None),
        ("02", "00 00 00 FF", 0, Some(255)),
        ("02", "00 00 01 00", 0, Some(256)),
        ("02", "00 01 01 00", 1, Some(256)),
        ("02", "0F A0 0F A0", 4000, Some(4000)),
        ("02", "0F A0 FF FF", 4000, None),
    ];

    #[test]
    fn limits_of_both_editions() {
        for (edition, digits, low, up) in LIMITS {
            let (length, right) = match edition {
                "01" => ("0C", "00 FF"),
                _ => ("10", "00 00 FF FF"),
            };
            let field = format!("50 00 {length} 00 01 00 {digits} 01 6C 00 {right} 01 72");
            let diagram = read(edition, &field).expect(&field);
            let association = &diagram.associations[0];
            assert_eq!(association.left.limits, Limits { low, up }, "{field}");
            let none = Limits { low: 0, up: None };
            assert_eq!(association.right.limits, none, "{field}");
        }
    }

    /// Edition, and the content of a field that is refused with 3.
    const REFUSED: &str = "\
        01 | 00 01 00 00 65 01 6C 00 00 00 01 72\n\
        01 | 00 01 00 65 FF 01 6C 00 00 00 01 72\n\
        02 | 00 01 00 0F A1 FF FF 01 6C 00 00 00 00 00 01 72\n\
        02 | 00 01 00 00 00 0F A1 01 6C 00 00 00 00 00 01 72\n\
        02 | 00 01 00 00 00 FF FE 01 6C 00 00 00 00 00 01 72\n\
        02 | 00 01 00 FF FF FF FF 01 6C 00 00 00 00 00 01 72\n\
        02 | 00 01 00 00 FF 00 FE 01 6C 00 00 00 00 00 01 72\n\
        02 | 00 01 00 01 00 00 01 01 6C 00 00 00 00 00 01 72\n\
        02 | 00 01 00 00 00 00 00 01 6C 00 00 02 00 01 01 72\n\
        02 | 00 01 00 00 00 00 00 01 6C 00 00 00 0F A1 01 72\n\
        02 | 00 01 00 00 00 00 00 01 6C 00 00 00 00 00 01 72 00\n\
        02 | 00 01 00 00 00 00 00 01 6C 00 00 00 00 00 01\n\
        02 | 00 01 07 00 00 0F A1 01 6C 00 00 00 00 00 01 72";

    #[test]
    fn limits_out_of_the_range_of_their_edition() {
        for row in REFUSED.lines() {
            let (edition, content) = row.split_once(" | ").expect(row);
            let field = format!("50 00 {:02X} {content}", bytes(content).len());
            let fault = read(edition, &field).expect_err(row);
            assert_eq!(fault.refusal, 3, "{row}");
            assert!(!fault.what.contains("written as in"), "{row}");
        }
    }

    /// Edition, and a content that the other edition has.
    const OF_THE_OTHER: [(&str, &str); 3] = [
        ("02", "00 01 00 00 FF 01 6C 00 00 FF 01 72"),
        ("01", "00 01 00 00 00 00 00 01 6C 00 00 00 FF FF 01 72"),
        ("01", "00 01 07 00 00 01 00 01 6C 00 00 00 FF FF 01 72"),
    ];

    #[test]
    fn limits_of_the_other_edition_are_told_as_such() {
        for (edition, content) in OF_THE_OTHER {
            let field = format!("50 00 {:02X} {content}", bytes(content).len());
            let fault = read(edition, &field).expect_err(content);
            assert_eq!((fault.refusal, fault.byte), (3, 17), "{content}");
            assert!(fault.what.contains("written as in"), "{content}");
        }
    }

    #[test]
    fn both_editions_have_the_same_diagrams() {
        let narrow = read("01", "50 00 0C 00 01 00 02 FF 01 6C 00 00 64 01 72");
        let wide = read(
            "02",
            "50 00 10 00 01 00 00 02 FF FF 01 6C 00 00 00 00 64 01 72",
        );
        assert!(narrow.is_ok());
        assert_eq!(narrow, wide);
    }
}

//! The limits in a file that edition 1 does not have.

use super::association::found_in;
use crate::content::Number;
use crate::diagram::Diagram;
use crate::edition::{Edition, EDITION_1, EDITION_2};
use crate::fault::Fault;
use crate::fields::{Field, Fields, DIAGRAM};
use crate::names::association_text;
use crate::words::NOT_IN_EDITION_1;

/// A limit of the association of that index.
struct Limit<'a> {
    field: Field<'a>,
    association: usize,
    side: &'static str,
    is_upper: bool,
    number: Number,
}

/// The first limit of an accepted file that edition 1 does not have, as a fault that tells how many
/// more there are; none where there is none. The diagram is the one in the file.
pub fn first_large_limit(file: &[u8], diagram: &Diagram) -> Option<Fault> {
    let edition = Edition::of_file(file)?;
    let large: Vec<Limit> = associations(file)
        .enumerate()
        .flat_map(|(association, field)| limits(association, field, edition))
        .filter(|limit| is_large(limit, edition))
        .collect();
    let (first, more) = large.split_first()?;
    let text = association_text(diagram, diagram.associations.get(first.association)?);
    let what = format!(
        "the {} limit of {text} is {}, but edition 1 has limits up to {}{}",
        first.words(),
        first.number.value,
        EDITION_1.most,
        further(more.len())
    );
    Some(Fault::within(
        &first.field,
        NOT_IN_EDITION_1,
        first.number.byte,
        what,
        to_do(&large),
    ))
}

/// The fields of a file's associations.
fn associations(file: &[u8]) -> impl Iterator<Item = Field<'_>> {
    let mut fields = Fields::of(file, &DIAGRAM);
    let all = std::iter::from_fn(move || fields.next().ok().flatten());
    all.filter(|field| field.tag == 0x50)
}

/// The four limits of an association, as they stand in its field.
fn limits(association: usize, field: Field<'_>, edition: Edition) -> Vec<Limit<'_>> {
    let Ok(found) = found_in(field, edition) else {
        return Vec::new();
    };
    let limit = |side, is_upper, number| Limit {
        field,
        association,
        side,
        is_upper,
        number,
    };
    vec![
        limit("left", false, found.left.low),
        limit("left", true, found.left.up),
        limit("right", false, found.right.low),
        limit("right", true, found.right.up),
    ]
}

/// Above all limits of edition 1, and not the number for no upper limit.
fn is_large(limit: &Limit, edition: Edition) -> bool {
    let is_none = limit.is_upper && limit.number.value == edition.none;
    limit.number.value > EDITION_1.most && !is_none
}

impl Limit<'_> {
    /// Which of the four it is.
    fn words(&self) -> String {
        let which = match self.is_upper {
            true => "upper",
            false => "lower",
        };
        format!("{} {which}", self.side)
    }
}

/// How many more limits are too large.
fn further(more: usize) -> String {
    let most = EDITION_1.most;
    match more {
        0 => String::new(),
        1 => format!("; 1 further limit is above {most}"),
        _ => format!("; {more} further limits are above {most}"),
    }
}

/// What to do about the limits that are too large. A site has at most 8 objects, so that a lower
/// limit of 100 is never reached and an upper one never passed. Only an upper one can be left out.
fn to_do(large: &[Limit]) -> String {
    let (most, none) = (EDITION_1.most, EDITION_2.none);
    let place = match large.len() {
        1 => "there",
        _ => "in the place of each",
    };
    let has = |is_upper| large.iter().any(|limit| limit.is_upper == is_upper);
    let same = "which allows the same sites of at most 8 objects";
    let advice = match (has(false), has(true)) {
        (true, true) => {
            format!("{same}; in the place of an upper one {none}, for no upper limit, will do too")
        }
        (true, false) => same.to_string(),
        (false, _) => format!("or {none} for no upper limit, {same}"),
    };
    format!("keep the file of edition 2; or write {most} {place}, {advice}")
}

#[cfg(test)]
mod tests {
    use super::super::read_diagram;
    use super::*;
    use generators::diagrams::{diagram, SMALL};
    use generators::editions::in_edition;
    use generators::hex::bytes;
    use generators::Random;

    /// The fault of a file of edition 2 with class A and these fields.
    fn fault(fields: &str) -> Option<Fault> {
        let file = bytes(&format!("10 00 01 02 30 00 04 00 01 41 00 {fields}"));
        let diagram = read_diagram(&file).expect(fields);
        first_large_limit(&file, &diagram)
    }

    /// An association between A and A with limits in these bytes.
    fn field(left: &str, right: &str) -> String {
        format!("50 00 10 00 01 00 {left} 01 6C 00 {right} 01 72 ")
    }

    /// Limits of both ends; the byte and the words of the first that is too large, the number of
    /// the others.
    const LARGE: [(&str, &str, usize, &str, usize); 8] = [
        ("00 65 FF FF", "00 00 00 00", 17, "left lower limit", 0),
        ("00 00 00 65", "00 00 00 00", 19, "left upper limit", 0),
        ("00 64 FF FF", "00 65 FF FF", 24, "right lower limit", 0),
        ("00 00 FF FF", "00 00 00 FF", 26, "right upper limit", 0),
        ("00 00 00 64", "00 00 01 00", 26, "right upper limit", 0),
        ("00 00 00 64", "0F A0 0F A0", 24, "right lower limit", 1),
        ("00 00 00 65", "00 00 00 65", 19, "left upper limit", 1),
        ("00 65 00 65", "00 FF 0F A0", 17, "left lower limit", 3),
    ];

    #[test]
    fn the_first_limit_above_100_and_how_many_more() {
        for (left, right, byte, words, more) in LARGE {
            let fault = fault(&field(left, right)).expect(words);
            assert_eq!((fault.refusal, fault.byte), (25, byte), "{left} {right}");
            let what = format!("the {words} of association ");
            assert!(fault.what.starts_with(&what), "{}", fault.what);
            let end = format!("edition 1 has limits up to 100{}", further(more));
            assert!(fault.what.ends_with(&end), "{}", fault.what);
            let place = fault.field.expect("a field");
            assert_eq!((place.number, place.tag, place.start), (3, 0x50, 11));
        }
    }

    #[test]
    fn limits_of_later_associations() {
        let (small, large) = ("00 00 FF FF", "00 00 01 00");
        let fields = field(small, small) + &field(small, large) + &field(large, large);
        let fault = fault(&fields).expect("a fault");
        assert_eq!(fault.byte, 45);
        assert_eq!(fault.field.map(|field| field.number), Some(4));
        assert_eq!(
            fault.what,
            "the right upper limit of association [*] A (l) -> (r) A [0..256] is 256, but edition 1 has limits up to 100; 2 further limits are above 100"
        );
    }

    #[test]
    fn limits_that_both_editions_have() {
        for limit in ["00 00 00 00", "00 64 00 64", "00 64 FF FF", "00 00 FF FF"] {
            assert_eq!(fault(&field(limit, limit)), None, "{limit}");
        }
        assert_eq!(fault(""), None);
        let narrow =
            bytes("10 00 01 01 30 00 04 00 01 41 00 50 00 0C 00 01 00 64 FF 01 6C 00 00 FF 01 72");
        let diagram = read_diagram(&narrow).expect("a diagram");
        assert_eq!(first_large_limit(&narrow, &diagram), None);
    }

    #[test]
    fn made_up_files_have_large_limits_where_edition_1_lacks_their_diagram() {
        let mut random = Random::new(25);
        let mut counts = [0, 0];
        for _ in 0..2000 {
            let plan = diagram(&mut random, SMALL);
            let file = plan.file();
            let read = read_diagram(&file).expect("a diagram");
            let fault = first_large_limit(&file, &read);
            assert_eq!(fault.is_none(), in_edition(1, &plan).is_some(), "{plan:?}");
            counts[usize::from(fault.is_some())] += 1;
        }
        assert!(counts.iter().all(|&count| count >= 200), "{counts:?}");
    }

    #[test]
    fn what_to_do_fits_the_limits() {
        let (small, lower, upper) = ("00 00 00 00", "00 65 FF FF", "00 00 00 65");
        let alone = "there, or 65535 for no upper limit";
        let each = "in the place of each";
        let uppers = "in the place of each, or 65535 for no upper limit";
        let too = "; in the place of an upper one 65535, for no upper limit, will do too";
        for (left, right, place, end) in [
            (lower, small, "there", ""),
            (small, upper, alone, ""),
            (lower, lower, each, ""),
            (upper, upper, uppers, ""),
            (lower, upper, each, too),
            (upper, lower, each, too),
            ("00 65 00 65", small, each, too),
        ] {
            let fault = fault(&field(left, right)).expect(left);
            let to_do = format!(
                "keep the file of edition 2; or write 100 {place}, \
                 which allows the same sites of at most 8 objects{end}"
            );
            assert_eq!(fault.to_do, to_do, "{left} {right}");
        }
    }
}

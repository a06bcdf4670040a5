//! Answers, as the table spells them.

use std::fmt;

use super::files::Record;
use super::question::number;

/// An answer to a question.
#[derive(Clone, Debug, PartialEq, Eq)]
pub enum Answer {
    Accepted,
    Refused(u8),
    /// 0, or the lowest rule broken.
    Rule(u8),
    NoDifference,
    /// The object count of the site, and the record of the folder that it is, if it is one.
    Difference {
        objects: u8,
        record: Option<&'static str>,
    },
}

impl Answer {
    /// The answer as the table spells it.
    pub fn read(text: &str) -> Result<Answer, String> {
        let words = text.split([' ', ',']).filter(|word| !word.is_empty());
        let words: Vec<&str> = words.collect();
        match words[..] {
            ["accepted"] => Ok(Answer::Accepted),
            ["refused", refusal] => Ok(Answer::Refused(number(refusal)?)),
            ["no", "difference"] => Ok(Answer::NoDifference),
            ["difference", objects, "object" | "objects"] => difference(objects, None),
            ["difference", objects, "object" | "objects", "record", record] => {
                difference(objects, Some(Record::named(record)?.name))
            }
            [rule] => Ok(Answer::Rule(number(rule)?)),
            _ => Err("no answer that this program knows is expected here".to_string()),
        }
    }

    /// What came is what was expected; of a site the record only where one is expected.
    pub fn fits(&self, expected: &Answer) -> bool {
        use Answer::Difference;
        match (self, expected) {
            (
                Difference { objects: came, .. },
                Difference {
                    objects,
                    record: None,
                },
            ) => came == objects,
            _ => self == expected,
        }
    }
}

/// A difference of so many objects.
fn difference(objects: &str, record: Option<&'static str>) -> Result<Answer, String> {
    let objects = number(objects)?;
    Ok(Answer::Difference { objects, record })
}

impl fmt::Display for Answer {
    fn fmt(&self, out: &mut fmt::Formatter) -> fmt::Result {
        match self {
            Answer::Accepted => out.write_str("accepted"),
            Answer::Refused(refusal) => write!(out, "refused {refusal}"),
            Answer::Rule(rule) => write!(out, "{rule}"),
            Answer::NoDifference => out.write_str("no difference"),
            Answer::Difference { objects, record } => {
                let noun = if *objects == 1 { "object" } else { "objects" };
                write!(out, "difference, {objects} {noun}")?;
                record.map_or(Ok(()), |name| write!(out, ", record {name}"))
            }
        }
    }
}

#[cfg(test)]
mod tests {
    use super::*;

    #[test]
    fn answers_are_told_as_they_are_read() {
        for text in [
            "accepted",
            "refused 23",
            "0",
            "6",
            "no difference",
            "difference, 0 objects",
            "difference, 1 object, record card",
        ] {
            assert_eq!(Answer::read(text).map(|a| a.to_string()), Ok(text.into()));
        }
        for text in [
            "",
            "refused",
            "refused 256",
            "difference",
            "difference, 1 object, record q",
        ] {
            assert!(Answer::read(text).is_err(), "{text}");
        }
    }

    #[test]
    fn a_record_counts_where_one_is_expected() {
        let read = |text| Answer::read(text).expect(text);
        let card = read("difference, 1 object, record card");
        let one = read("difference, 1 object");
        assert!(card.fits(&one) && card.fits(&card));
        assert!(!one.fits(&card) && !one.fits(&read("difference, 2 objects")));
        assert!(!read("difference, 1 object, record main").fits(&card));
        assert!(!read("refused 1").fits(&read("1")));
    }
}

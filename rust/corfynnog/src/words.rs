//! The nine rules and the refusals in words.

use crate::text::TextRule;

/// What a rule asks of a record.
pub fn rule_in_words(rule: u8) -> &'static str {
    match rule {
        1 => "The type of every object is a class or a singleton class of the diagram.",
        2 => "Every singleton class is the type of exactly one object.",
        3 => "An object has a value for exactly those attributes that its type or an ancestor declares.",
        4 => "A value belongs to the value type of every declaration of its attribute.",
        5 => "Every link is carried by an association with that role, in that direction and between such objects.",
        6 => "An object at the start of an association has only targets of the other end's type, as many as the limits there allow.",
        7 => "An object at the end of a one-way association is the target of as many objects as the limits at the start allow.",
        8 => "Links of a two-way association, <-> or --, come in pairs, one each way.",
        9 => "An object is part of at most one whole, over all compositions.",
        _ => "This program knows no rule of that number.",
    }
}

/// The refusal of a diagram file that is accepted, but has limits that edition 1 does not.
pub const NOT_IN_EDITION_1: u8 = 25;

/// What a refusal means, and what to do about it.
pub struct RefusalWords {
    pub rule: &'static str,
    pub to_do: &'static str,
}

/// The words of a refusal of a text; the numbers that texts share with files have words of their own.
pub fn text_refusal_in_words(number: u8) -> RefusalWords {
    let (rule, to_do) = match number {
        4 => (
            "a text has at most 12 value types, 24 types, 32 attributes and 16 associations, an enumeration 8 constants, a type 4 parents",
            "take some out, or split the diagram",
        ),
        5 => (
            "classes and interfaces have different names, so do enumerations and the constants of one; a type names a parent once",
            "rename one of the two, or take the second one out",
        ),
        8 => (
            "the left end of a composition is the whole, so that its arrow is not <-",
            "exchange the two ends and write ->",
        ),
        _ => return refusal_in_words(number),
    };
    RefusalWords { rule, to_do }
}

/// The words of a rule that a site text breaks.
pub fn site_rule_in_words(rule: TextRule) -> RefusalWords {
    let (rule, to_do) = match rule {
        TextRule::Declared => (
            "a link joins two objects of the text",
            "declare the object, or correct the name",
        ),
        TextRule::Count => (
            "a site has at most 8 objects, 256 values and 2,048 links",
            "take some out",
        ),
        TextRule::Different => (
            "objects have different names, an object has one value for an attribute, and a link stands once",
            "rename one of the two, or take the second one out",
        ),
        TextRule::Grammar | TextRule::WholeOnTheLeft => (
            "a site text follows the grammar, and names of types, attributes, constants and roles have at most 16 bytes",
            "correct the text; 'corfynnog show --help' shows how it is written",
        ),
    };
    RefusalWords { rule, to_do }
}

/// The words of a refusal of a file, or of one that only texts have.
pub fn refusal_in_words(number: u8) -> RefusalWords {
    let (rule, to_do) = match number {
        1 => (
            "every field, with its three leading bytes, ends within the file",
            "the file was probably cut off: fetch or write it again, or correct the field's length",
        ),
        2 => (
            "a file has only the tags of its kind, the first one once and in front, and tags never fall",
            "check that this is the right kind of file, then put the fields in order",
        ),
        3 => (
            "a field's content has exactly its layout: no byte missing or left over, names of 1 to 16 letters, digits and underscores, numbers within their range",
            "correct the content of this field",
        ),
        4 => (
            "a file has at most so many fields of a tag, and exactly as many objects as its object count says",
            "remove fields, or correct the object count",
        ),
        5 => (
            "type names differ, value type names differ, constants of one value type differ; parents, values and links are strictly rising",
            "rename one of the two, or sort the entries and drop doubles",
        ),
        6 => (
            "an index names something that the file declares, an object number is below the object count, a parent stands before its child",
            "correct the index or number, or declare what it should name",
        ),
        7 => (
            "an interface has only interfaces as parents",
            "make the parent an interface, or the child a class",
        ),
        8 => (
            "the left end of a composition is the whole, so that its arrow is not 2 (<-)",
            "exchange the two ends and use arrow 1 (->)",
        ),
        9 => (
            "the bound is 0 to 8, since a record has at most 8 objects",
            "give one digit from 0 to 8",
        ),
        23 => (
            "a text follows the grammar, its names have at most 16 bytes, its limits are 0 to 4,000 with the lower one first",
            "correct the text; 'corfynnog check --help' shows how it is written",
        ),
        24 => (
            "an association joins declared classes and interfaces; a parent is declared before its child, a class behind a class's extends, else an interface",
            "declare what is missing, move the parent up, or correct the name",
        ),
        NOT_IN_EDITION_1 => (
            "a file of edition 1 has limits of at most 100, or no upper limit",
            "keep the file of edition 2, or give at most 100 or no upper limit; since a site has at most 8 objects, 100 in the place of a larger limit, or no upper limit in the place of an upper one, allows the same sites",
        ),
        _ => (
            "this program has no words for a refusal of that number",
            "please report the file and the number",
        ),
    };
    RefusalWords { rule, to_do }
}

#[cfg(test)]
mod tests {
    use super::*;

    #[test]
    fn every_refusal_of_a_text_has_words_of_its_own() {
        let unknown = refusal_in_words(99);
        for number in [23, 24, 4, 5, 8] {
            let words = text_refusal_in_words(number);
            assert_ne!(words.rule, unknown.rule, "{number}");
            assert_ne!(words.to_do, unknown.to_do, "{number}");
        }
        for number in [4, 5, 8] {
            let (text, file) = (text_refusal_in_words(number), refusal_in_words(number));
            assert_ne!(text.rule, file.rule, "{number}");
        }
    }
}

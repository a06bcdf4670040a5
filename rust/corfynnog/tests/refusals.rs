//! Each refusal that the command line can meet, with its place and words.

mod common;

use common::json::read;
use common::{sites, Folder};
use generators::hex::bytes;

/// In the tables below: a diagram file with one class, A.
const CLASS_A: &str = "10 00 01 01 30 00 04 00 01 41 00";

/// The same as a file of edition 2.
const WIDE_CLASS: &str = "10 00 01 02 30 00 04 00 01 41 00";

/// In the tables below: a record file with one object, of type A.
const OBJECT_A: &str = "60 00 01 01 61 00 02 01 41";

/// Refusal, field (0: the file as a whole), byte of the fault, file, some words, what to do.
const DIAGRAMS: &str = "\
1 | 1 | 2 | 10 00 | ends after 2 of the field's three leading bytes | CUT_OFF
1 | 1 | 3 | 10 00 01 | announces 1 byte of content, but the file has only 0 more | CUT_OFF
1 | 1 | 4 | 10 01 01 01 | announces 257 bytes | CUT_OFF
1 | 3 | 12 | CLASS_A 0A | a line end stands behind the last field (1 byte) | LINE_END
1 | 3 | 13 | CLASS_A 0D 0A | a line end stands behind the last field (2 bytes) | LINE_END
1 | 3 | 14 | CLASS_A 0A 0A 0A | a line end stands behind the last field (3 bytes) | LINE_END
1 | 3 | 15 | CLASS_A 44 65 61 72 | announces 25953 bytes | correct the length of field 2, or take out what stands behind it
2 | 2 | 4 | 10 00 01 01 10 00 01 01 | which comes once | take this field out
2 | 2 | 4 | 10 00 01 02 10 00 01 01 | which comes once | take this field out
2 | 3 | 11 | CLASS_A 20 00 03 01 56 00 | tags never fall | put this field in front of the first one with tag 0x30
2 | 3 | 11 | CLASS_A 51 00 00 | no fields with tag 0x51 | correct the length of field 2, or take out what stands behind it
3 | 1 | 3 | 10 00 01 00 | the edition is 0, but there are only edition 1 and edition 2 | EDITIONS
3 | 1 | 3 | 10 00 01 03 | the edition is 3, but there are only edition 1 and edition 2 | EDITIONS
3 | 1 | 3 | 10 00 02 00 02 | the edition is 0, but there are only edition 1 and edition 2 | EDITIONS
3 | 1 | 3 | 10 00 00 | the content ends before the edition | MISSING
3 | 1 | 4 | 10 00 02 01 01 | one byte too many | take it out, and correct the field's length
3 | 1 | 4 | 10 00 02 02 02 | one byte too many | take it out, and correct the field's length
3 | 1 | 4 | 10 00 03 01 01 01 | 2 bytes too many | take them out, and correct the field's length
3 | 2 | 8 | 10 00 01 01 30 00 14 00 11 NAME_OF_17 00 | the type's name has 17 bytes | shorten the name, and correct its length and the field's
3 | 2 | 8 | 10 00 01 01 30 00 03 00 00 00 | the type's name has 0 bytes | put in a name, and correct its length and the field's
3 | 2 | 10 | 10 00 01 01 30 00 06 00 03 41 20 42 00 | holds the byte 0x20 | put one of these in the place of the byte
3 | 2 | 9 | 10 00 01 01 30 00 04 00 05 41 42 | the content ends before them | correct the length of the name, or of the field
3 | 2 | 8 | 10 00 01 01 30 00 01 00 | the content ends before the length of the type's name | MISSING
3 | 2 | 7 | 10 00 01 01 30 00 04 04 01 41 00 | the kind is 4 | write 0 for a class, 1 for an abstract class, 2 for an interface, 3 for a singleton class
3 | 2 | 9 | 10 00 01 01 20 00 03 01 56 09 | the number of constants is 9 | take constants out until 8 are left, and correct their number and the field's length
3 | 2 | 10 | 10 00 01 01 30 00 09 00 01 41 05 00 01 02 03 04 | the number of parents is 5 | take parents out until 4 are left, and correct their number and the field's length
3 | 3 | 14 | CLASS_A 50 00 0C 02 01 00 00 01 01 6C 00 00 00 01 72 | the form is 2 | write 0 for an association, 1 for a composition
3 | 3 | 15 | CLASS_A 50 00 0C 00 00 00 00 01 01 6C 00 00 00 01 72 | the arrow is 0 | write 1 for ->, 2 for <-, 3 for <->, 4 for --
3 | 3 | 18 | CLASS_A 50 00 0C 00 01 00 02 01 01 6C 00 00 00 01 72 | the left upper limit is 1, but in edition 1 it is 255 (none) or lies between the lower limit, 2, and 100 | write 2 to 100, or 255 for no upper limit
3 | 3 | 23 | CLASS_A 50 00 0C 00 01 00 02 02 01 6C 00 00 65 01 72 | the right upper limit is 101, but in edition 1 it is 255 (none) | write 0 to 100, or 255 for no upper limit; a file of edition 2 has limits up to 4000
3 | 3 | 18 | CLASS_A 50 00 0C 00 01 00 64 65 01 6C 00 00 00 01 72 | the left upper limit is 101, but in edition 1 it is 255 (none) or 100 | write 100, or 255 for no upper limit; a file of edition 2 has limits up to 4000
3 | 3 | 22 | CLASS_A 50 00 0C 00 01 00 00 FF 01 6C 00 65 FF 01 72 | the right lower limit is 101, but only 0 to 100 are allowed in edition 1 | write 0 to 100; a file of edition 2 has limits up to 4000
3 | 3 | 17 | CLASS_A 50 00 10 00 01 00 00 00 01 00 01 6C 00 00 00 FF FF 01 72 | the limits are written as in edition 2, in two bytes each, but the file is of edition 1 | AS_EDITION_1
3 | 3 | 17 | WIDE_CLASS 50 00 0C 00 01 00 00 FF 01 6C 00 00 FF 01 72 | the limits are written as in edition 1, in one byte each, but the file is of edition 2 | AS_EDITION_2
3 | 3 | 17 | WIDE_CLASS 50 00 10 00 01 00 0F A1 FF FF 01 6C 00 00 00 00 00 01 72 | the left lower limit is 4001, but only 0 to 4000 are allowed in edition 2 | write 0 to 4000
3 | 3 | 17 | WIDE_CLASS 50 00 10 00 01 00 FF FF FF FF 01 6C 00 00 00 00 00 01 72 | the left lower limit is 65535, but only 0 to 4000 are allowed in edition 2 | write 0 to 4000
3 | 3 | 19 | WIDE_CLASS 50 00 10 00 01 00 01 00 00 FF 01 6C 00 00 00 00 00 01 72 | the left upper limit is 255, but in edition 2 it is 65535 (none) or lies between the lower limit, 256, and 4000 | write 256 to 4000, or 65535 for no upper limit
3 | 3 | 26 | WIDE_CLASS 50 00 10 00 01 00 00 00 00 00 01 6C 00 00 00 0F A1 01 72 | the right upper limit is 4001 | write 0 to 4000, or 65535 for no upper limit
3 | 3 | 26 | WIDE_CLASS 50 00 10 00 01 00 00 00 00 00 01 6C 00 0F A0 FF FE 01 72 | the right upper limit is 65534, but in edition 2 it is 65535 (none) or 4000 | write 4000, or 65535 for no upper limit
3 | 3 | 18 | WIDE_CLASS 50 00 04 00 01 00 00 | the content ends before the low byte of the left lower limit | MISSING
3 | 3 | 29 | WIDE_CLASS 50 00 0F 00 01 00 00 00 00 00 01 6C 00 00 00 00 00 01 | the right role name announces 1 byte, but the content ends | correct the length of the name, or of the field
3 | 3 | 30 | WIDE_CLASS 50 00 11 00 01 00 00 00 00 00 01 6C 00 00 00 00 00 01 72 00 | one byte too many | take it out, and correct the field's length
4 | 14 | 76 | 10 00 01 01 VALUE_TYPES_13 | the 13th value type, but at most 12 are allowed | take value types out until 12 are left
4 | 26 | 172 | 10 00 01 01 TYPES_25 | the 25th type, but at most 24 are allowed | take types out until 24 are left
4 | 36 | 241 | 10 00 01 01 20 00 03 01 56 00 30 00 04 00 01 41 00 ATTRIBUTES_33 | the 33rd attribute, but at most 32 are allowed | take attributes out until 32 are left
4 | 19 | 251 | CLASS_A ASSOCIATIONS_17 | the 17th association, but at most 16 are allowed | take associations out until 16 are left
4 | 19 | 315 | WIDE_CLASS WIDE_17 | the 17th association, but at most 16 are allowed | take associations out until 16 are left
5 | 3 | 13 | 10 00 01 01 20 00 03 01 56 00 20 00 03 01 56 00 | a second value type with the name V | rename one of the two value types
5 | 3 | 15 | CLASS_A 30 00 04 02 01 41 00 | a second type with the name A | rename one of the two types
5 | 2 | 12 | 10 00 01 01 20 00 07 01 56 02 01 61 01 61 | the constant a stands twice in V | rename the second one, or take it out and correct the number of constants and the field's length
5 | 3 | 19 | CLASS_A 30 00 06 00 01 42 02 09 03 | 3 comes after 9 | sort the parents by their indices
5 | 3 | 19 | CLASS_A 30 00 06 00 01 42 02 00 00 | the parent 0 stands twice among the parents of B | take the second one out, and correct the number of parents and the field's length
6 | 2 | 11 | 10 00 01 01 30 00 05 00 01 41 01 00 | A is type 0 and has parent 0 | take the parent out: no type stands before this one
6 | 3 | 18 | CLASS_A 30 00 05 00 01 42 01 01 | B is type 1 and has parent 1 | write 0, or put the parent's field in front of this one
6 | 4 | 25 | CLASS_A 30 00 04 00 01 42 00 30 00 05 00 01 43 01 07 | C is type 2 and has parent 7 | write 0 to 1, or put the parent's field in front of this one
6 | 3 | 13 | 10 00 01 01 20 00 03 01 56 00 40 00 04 00 01 61 00 | there is no type 0 | declare the type in front of this field
6 | 3 | 17 | CLASS_A 40 00 04 00 01 61 00 | there is no value type 0 | declare the value type in front of this field
6 | 3 | 21 | CLASS_A 50 00 0C 01 02 00 00 00 01 6C 01 00 00 01 72 | there is no type 1 | write 0, or declare the missing type
6 | 4 | 23 | CLASS_A 30 00 04 00 01 42 00 50 00 0C 00 01 02 00 00 01 6C 00 00 00 01 72 | there is no type 2 | write 0 to 1, or declare the missing type
6 | 3 | 16 | WIDE_CLASS 50 00 10 00 01 07 00 00 0F A0 01 6C 00 00 00 00 00 01 72 | there is no type 7 | write 0, or declare the missing type
7 | 3 | 18 | CLASS_A 30 00 05 02 01 49 01 00 | the parent A, which is of kind class | make A an interface, or I a class
8 | 3 | 15 | CLASS_A 50 00 0C 01 02 00 00 00 01 6C 00 00 00 01 72 | points from its whole | exchange the two ends, and write arrow 1 (->)
8 | 3 | 15 | WIDE_CLASS 50 00 10 01 02 00 00 00 00 00 01 6C 00 00 00 00 00 01 72 | points from its whole | exchange the two ends, and write arrow 1 (->)
";

/// As above.
const RECORDS: &str = "\
1 | 2 | 7 | 60 00 01 01 61 00 05 | announces 5 bytes | CUT_OFF
1 | 3 | 10 | OBJECT_A 0A | a line end stands behind the last field (1 byte) | LINE_END
1 | 3 | 11 | OBJECT_A 0D 0A | a line end stands behind the last field (2 bytes) | LINE_END
2 | 2 | 4 | 60 00 01 00 60 00 01 00 | which comes once | take this field out
2 | 3 | 9 | OBJECT_A 20 00 03 01 56 00 | no fields with tag 0x20 | correct the length of field 2, or take out what stands behind it
2 | 4 | 16 | OBJECT_A 63 00 04 00 01 62 00 62 00 06 00 01 61 01 56 00 | tags never fall | put this field in front of the first one with tag 0x63
3 | 1 | 3 | 60 00 01 09 | the object count is 9 | take objects out until 8 are left, and correct the object count
3 | 2 | 9 | 60 00 01 01 61 00 04 01 41 01 42 | 2 bytes too many | take them out, and correct the field's length
3 | 3 | 13 | OBJECT_A 62 00 05 00 00 01 56 00 | the attribute's name has 0 bytes | put in a name, and correct its length and the field's
3 | 3 | 17 | OBJECT_A 62 00 17 00 01 61 01 56 11 NAME_OF_17 | the constant's name has 17 bytes, but a name has 0 to 16 | shorten the name, and correct its length and the field's
3 | 3 | 15 | OBJECT_A 63 00 03 00 01 62 | the content ends before the number of the link's second object | MISSING
4 | 3 | 9 | OBJECT_A 61 00 01 00 | this is the second object (object 1), but the object count is 1 | take it out, or correct the object count
4 | 2 | 4 | 60 00 01 00 61 00 02 01 41 | this is the first object (object 0), but the object count is 0 | take it out, or correct the object count
4 | 10 | 44 | 60 00 01 08 OBJECTS_9 | this is the ninth object (object 8), but the object count is 8 | take it out: a record has at most 8 objects
4 | 259 | 3081 | OBJECT_A VALUES_257 | the 257th value, but at most 256 are allowed | take values out until 256 are left
4 | 2051 | 20489 | OBJECT_A LINKS_2049 | the 2049th link, but at most 2048 are allowed | take links out until 2048 are left
4 | 0 | 9 | 60 00 01 02 61 00 02 01 41 | the object count is 2, but only 1 object follows | 1 object is missing: add it, or correct the object count to 1
4 | 0 | 14 | 60 00 01 05 61 00 02 01 41 61 00 02 01 41 | but only 2 objects follow | 3 objects are missing: add them, or correct the object count to 2
4 | 0 | 4 | 60 00 01 02 | but no object follows | 2 objects are missing: add them, or correct the object count to 0
5 | 4 | 21 | OBJECT_A 62 00 06 00 01 62 01 56 00 62 00 07 00 02 61 62 01 56 00 | the values are not strictly rising | sort the values by object, then by the bytes of the attribute's name
5 | 4 | 21 | OBJECT_A 62 00 06 00 01 62 01 56 00 62 00 06 00 01 62 01 57 00 | a second value of object 0 for b | take the second one out
5 | 4 | 19 | OBJECT_A 63 00 04 00 01 62 00 63 00 04 00 01 62 00 | a second link of role b from object 0 to object 0 | take the second one out
5 | 4 | 19 | OBJECT_A 63 00 04 00 01 62 00 63 00 04 00 01 61 00 | the links are not strictly rising | sort the links by object, then by the bytes of the role, then by target
6 | 3 | 15 | OBJECT_A 63 00 04 00 01 62 09 | there is no object 9 | write 0, or add objects and correct the object count
6 | 3 | 12 | OBJECT_A 62 00 06 02 01 61 01 56 00 | there is no object 2 | write 0, or add objects and correct the object count
6 | 4 | 17 | 60 00 01 02 61 00 02 01 41 61 00 02 01 41 63 00 04 02 01 62 00 | there is no object 2 | write 0 to 1, or add objects and correct the object count
6 | 2 | 7 | 60 00 01 00 63 00 04 00 01 62 00 | there is no object 0 | take this field out, or add objects and correct the object count
";

/// What to do, where many faults share it.
const SHARED: [(&str, &str); 6] = [
    (
        "AS_EDITION_1",
        "write 2 as the edition (byte 3), if all limits of the file are written like these; or write each in one byte (0 to 100, or 255 for no upper limit), and correct the field's length",
    ),
    (
        "AS_EDITION_2",
        "write 1 as the edition (byte 3), if all limits of the file are written like these; or write each in two bytes, high byte first (0 to 4000, or 65535 for no upper limit), and correct the field's length",
    ),
    (
        "CUT_OFF",
        "the file was probably cut off: fetch or write it again, or correct the field's length",
    ),
    (
        "EDITIONS",
        "write 1 where each limit has one byte, 2 where each has two",
    ),
    ("LINE_END", "take away the line end at the end of the file"),
    (
        "MISSING",
        "put in what is missing, and correct the field's length",
    ),
];

/// A name of four digits, in bytes.
fn name_of(number: u32) -> String {
    let digits = format!("{number:04}");
    digits.bytes().map(|byte| format!("{byte:02X}")).collect()
}

/// The bytes of a table's file.
fn file_of(digits: &str) -> Vec<u8> {
    let many = |count: u32, one: fn(u32) -> String| (0..count).map(one).collect::<String>();
    let value_types = many(13, |i| format!("20 00 03 01 {:02X} 00", 0x41 + i));
    let types = many(25, |i| format!("30 00 04 00 01 {:02X} 00", 0x41 + i));
    let values = many(257, |i| format!("62 00 09 00 04 {} 01 56 00", name_of(i)));
    let links = many(2049, |i| format!("63 00 07 00 04 {} 00", name_of(i)));
    let association = "50 00 0C 00 01 00 00 FF 01 6C 00 00 FF 01 72";
    let wide = "50 00 10 00 01 00 00 00 FF FF 01 6C 00 00 00 FF FF 01 72";
    let digits = digits
        .replace("CLASS_A", CLASS_A)
        .replace("WIDE_CLASS", WIDE_CLASS)
        .replace("OBJECT_A", OBJECT_A)
        .replace("NAME_OF_17", &"41".repeat(17))
        .replace("VALUE_TYPES_13", &value_types)
        .replace("TYPES_25", &types)
        .replace("ATTRIBUTES_33", &"40 00 04 00 01 61 00".repeat(33))
        .replace("OBJECTS_9", &"61 00 02 01 41".repeat(9))
        .replace("VALUES_257", &values)
        .replace("LINKS_2049", &links)
        .replace("WIDE_17", &wide.repeat(17))
        .replace("ASSOCIATIONS_17", &association.repeat(17));
    bytes(&digits)
}

/// Every file is refused with its number, at its place, in its words, and with what to do.
fn expect_refusals(test: &str, kind: &str, table: &str) {
    let folder = Folder::of(test);
    for row in table.lines() {
        let cells: Vec<&str> = row.split(" | ").collect();
        let [refusal, field, byte, digits, words, to_do] = cells[..] else {
            panic!("six cells: {row}");
        };
        let shared = SHARED.iter().find(|(name, _)| *name == to_do);
        let to_do = shared.map_or(to_do, |(_, words)| words);
        folder.put("file", &file_of(digits));
        let ran = folder.line("check file");
        let err = ran.err.as_str();
        assert_eq!((ran.status, ran.out.as_str()), (2, ""), "{row}");
        let first =
            format!("corfynnog: file is not an acceptable {kind} file (refusal {refusal}).\n");
        let (place, at) = match field {
            "0" => ("  where: ".to_string(), format!(" byte {byte} ")),
            _ => (
                format!("  where: field {field} ("),
                format!(
                    "the fault is at byte {byte}{}",
                    if refusal == "1" { "," } else { " " }
                ),
            ),
        };
        assert!(err.starts_with(&first), "{row}: {err}");
        assert!(err.contains(&place), "{row}: {err}");
        assert!(err.contains(&at), "{row}: {err}");
        assert!(err.contains(words), "{row}: {err}");
        assert!(err.contains("\n  rule:  "), "{row}: {err}");
        assert!(
            err.ends_with(&format!("\n  to do: {to_do}\n")),
            "{row}: {err}"
        );
    }
}

#[test]
fn refusals_of_diagram_files() {
    expect_refusals("refused_diagrams", "diagram", DIAGRAMS);
}

#[test]
fn refusals_of_record_files() {
    expect_refusals("refused_records", "record", RECORDS);
}

#[test]
fn files_at_the_limits_are_accepted() {
    let folder = Folder::of("at_the_limits");
    let many =
        |count: usize, digits: fn(usize) -> String| (0..count).map(digits).collect::<String>();
    let value_types = many(12, |i| format!("20 00 03 01 {:02X} 00", 0x41 + i));
    let types = many(24, |i| format!("30 00 04 00 01 {:02X} 00", 0x41 + i));
    let attributes = "40 00 04 00 01 61 0B".repeat(32);
    let associations = "50 00 0C 00 01 17 64 64 01 6C 00 64 FF 01 72".repeat(16);
    let wide = "50 00 10 00 01 17 0F A0 0F A0 01 6C 00 0F A0 FF FF 01 72".repeat(16);
    let constants = many(8, |i| format!("01 {:02X}", 0x61 + i));
    let name_of_16 = "41".repeat(16);
    let values = "62 00 06 07 01 61 01 56 00";
    for (digits, words) in [
        (
            format!("10 00 01 01 {value_types} {types} {attributes} {associations}"),
            "of edition 1 with 12 value types, 24 types, 32 attributes, 16 associations",
        ),
        (
            format!("10 00 01 02 {value_types} {types} {attributes} {wide}"),
            "of edition 2 with 12 value types, 24 types, 32 attributes, 16 associations",
        ),
        (
            format!("10 00 01 01 20 00 13 01 56 08 {constants}"),
            "1 value type, ",
        ),
        (
            format!("10 00 01 01 30 00 13 00 10 {name_of_16} 00"),
            "1 type, ",
        ),
        (
            format!("60 00 01 08 {} {values}", "61 00 02 01 41".repeat(8)),
            "8 objects, 1 value, no links",
        ),
    ] {
        folder.put("file", &bytes(&digits));
        let ran = folder.line("check file");
        assert_eq!((ran.status, ran.err.as_str()), (0, ""), "{digits}");
        assert!(ran.out.contains(words), "{}", ran.out);
    }
}

#[test]
fn the_right_file_is_named() {
    let folder = Folder::of("refused_which");
    folder.put("good.diagram", &sites::p());
    folder.put("bad.diagram", &bytes("10 00 01 03"));
    folder.put("bad.record", &bytes("60 00 01 09"));
    for (line, file) in [
        ("compare bad.diagram good.diagram", "bad.diagram"),
        ("compare good.diagram bad.diagram", "bad.diagram"),
        ("judge bad.diagram bad.record", "bad.diagram"),
        ("judge good.diagram bad.record", "bad.record"),
        ("evaluate good.diagram bad.record", "bad.record"),
        ("compile bad.diagram", "bad.diagram"),
    ] {
        let told = folder.complaint(line);
        let first = format!("corfynnog: {file} is not an acceptable ");
        assert!(told.starts_with(&first), "{line}: {told}");
        assert!(told.contains("(refusal 3)"), "{line}");
    }
}

#[test]
fn a_record_that_starts_otherwise() {
    let folder = Folder::of("refused_start");
    folder.put("p.diagram", &sites::p());
    for (bytes, words, to_do) in [
        (
            &b"\x61\x00\x02\x01A"[..],
            "a record file starts with tag 0x60, this one with 0x61",
            "put the object count (0x60) in front",
        ),
        (b"", "the file is empty", "check the file's name"),
        (b"Dear all", "this one with 0x44", "check the file's name"),
        (b"cards", "this one with 0x63", "check the file's name"),
    ] {
        folder.put("r.record", bytes);
        let told = folder.complaint("judge p.diagram r.record");
        assert!(told.contains(words), "{told}");
        assert!(told.ends_with(&format!("\n  to do: {to_do}\n")), "{told}");
    }
}

#[test]
fn a_file_of_no_kind_is_refused_as_text() {
    let folder = Folder::of("refused_neither");
    folder.put("letter.txt", b"Dear all");
    folder.put("nothing", b"");
    folder.put("picture", b"\x89PNG\r\n\x1A\n");
    for (line, place) in [
        (
            "check letter.txt",
            "letter.txt:1:1: read \"Dear\", expected \"classdiagram\"",
        ),
        (
            "show nothing",
            "nothing:1:1: the text ends, expected \"classdiagram\"",
        ),
        (
            "compile picture",
            "picture:1:1: read the byte 0x89, expected \"classdiagram\"",
        ),
    ] {
        let told = folder.complaint(line);
        assert!(told.contains("(refusal 23)"), "{line}: {told}");
        assert!(told.lines().any(|row| row == place), "{line}: {told}");
    }
    let told = folder.complaint("check letter.txt");
    let to_do = "a diagram file with the byte 0x10, a record file with the byte 0x60";
    assert!(told.contains(to_do), "{told}");
}

#[test]
fn every_other_bound_is_refusal_9() {
    let folder = Folder::of("refused_bound");
    folder.put("e.diagram", &sites::e());
    for bound in [
        "9", "255", "256", "1000", "+3", "08", "00", "-1", "x", "", " 3", "3.0", "\u{663}",
    ] {
        let words = ["compare", "e.diagram", "e.diagram", "--bound", bound];
        let ran = folder.run(&words);
        assert_eq!((ran.status, ran.out.as_str()), (2, ""), "{bound}");
        assert_eq!(
            ran.err,
            format!(
                "corfynnog: The bound '{bound}' is refused (refusal 9).\n  \
                 rule:  the bound is 0 to 8, since a record has at most 8 objects\n  \
                 to do: give one digit from 0 to 8\n"
            )
        );
        let ran = folder.run(&[&words[..], &["--json"]].concat());
        let object = read(&ran.out);
        assert_eq!(object.get("result").text(), "refused");
        assert_eq!(object.get("refusal").number(), 9);
        assert_eq!(object.get("bound").text(), bound);
        let same = folder.run(&[&words[..3], &[&format!("--bound={bound}")]].concat());
        assert_eq!(same.err, folder.run(&words).err);
    }
    for bound in 0..=8 {
        folder.answer(0, &format!("compare e.diagram e.diagram --bound {bound}"));
    }
}

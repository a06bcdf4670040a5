//! Worked conversions of a diagram file to the other edition, each with the file that is written or
//! the number of the refusal.

/// What the case is about, the file, the room that is lent, and the file written or the refusal.
pub type Conversion = (&'static str, &'static [u8], u32, Result<&'static [u8], u8>);

const NO_TYPES: &[u8] = b"\x10\x00\x01\x01";

const NO_TYPES_2: &[u8] = b"\x10\x00\x01\x02";

const SHELF_AND_CARD: &[u8] =
    b"\x10\x00\x01\x01\x30\x00\x08\x00\x05Shelf\x00\x30\x00\x07\x00\x04Card\x00\
      \x50\x00\x14\x01\x01\x00\x01\x01\x05shelf\x01\x00\x04\x05cards";

const SHELF_AND_CARD_2: &[u8] =
    b"\x10\x00\x01\x02\x30\x00\x08\x00\x05Shelf\x00\x30\x00\x07\x00\x04Card\x00\
      \x50\x00\x18\x01\x01\x00\x00\x01\x00\x01\x05shelf\x01\x00\x00\x00\x04\x05cards";

const SINGLETON: &[u8] = b"\x10\x00\x01\x01\x30\x00\x07\x03\x04Main\x00";

const SINGLETON_2: &[u8] = b"\x10\x00\x01\x02\x30\x00\x07\x03\x04Main\x00";

const NO_UPPER_LIMITS: &[u8] = b"\x10\x00\x01\x01\x30\x00\x04\x00\x01A\x00\
      \x50\x00\x0C\x00\x01\x00\x00\xFF\x01l\x00\x64\xFF\x01r";

const NO_UPPER_LIMITS_2: &[u8] = b"\x10\x00\x01\x02\x30\x00\x04\x00\x01A\x00\
      \x50\x00\x10\x00\x01\x00\x00\x00\xFF\xFF\x01l\x00\x00\x64\xFF\xFF\x01r";

/// An association with an upper limit of 101, one above the range of edition 1.
pub const UP_101: &[u8] = b"\x10\x00\x01\x02\x30\x00\x04\x00\x01A\x00\
      \x50\x00\x10\x00\x01\x00\x00\x00\x00\x65\x01l\x00\x00\x00\x00\x00\x01r";

const LOW_101: &[u8] = b"\x10\x00\x01\x02\x30\x00\x04\x00\x01A\x00\
      \x50\x00\x10\x00\x01\x00\x00\x65\xFF\xFF\x01l\x00\x00\x00\x00\x00\x01r";

const UP_255_AT_THE_RIGHT: &[u8] = b"\x10\x00\x01\x02\x30\x00\x04\x00\x01A\x00\
      \x50\x00\x10\x00\x01\x00\x00\x00\x00\x00\x01l\x00\x00\x00\x00\xFF\x01r";

const UP_100: &[u8] = b"\x10\x00\x01\x01\x30\x00\x04\x00\x01A\x00\
      \x50\x00\x0C\x00\x01\x00\x64\x64\x01l\x00\x00\xFF\x01r";

const UP_100_2: &[u8] = b"\x10\x00\x01\x02\x30\x00\x04\x00\x01A\x00\
      \x50\x00\x10\x00\x01\x00\x00\x64\x00\x64\x01l\x00\x00\x00\xFF\xFF\x01r";

const UP_256: &[u8] = b"\x10\x00\x01\x02\x30\x00\x04\x00\x01A\x00\
      \x50\x00\x10\x00\x01\x00\x00\x00\x01\x00\x01l\x00\x00\x00\x00\x00\x01r";

const UP_101_CUT_OFF: &[u8] = b"\x10\x00\x01\x02\x30\x00\x04\x00\x01A\x00\
      \x50\x00\x10\x00\x01\x00\x00\x00\x00\x65\x01l\x00\x00\x00\x00\x00\x01r\
      \x50";

const ARROW_4: &[u8] = b"\x10\x00\x01\x01\x30\x00\x04\x00\x01A\x00\
      \x50\x00\x0C\x00\x04\x00\x00\xFF\x01l\x00\x00\xFF\x01r";

const ARROW_4_2: &[u8] = b"\x10\x00\x01\x02\x30\x00\x04\x00\x01A\x00\
      \x50\x00\x10\x00\x04\x00\x00\x00\xFF\xFF\x01l\x00\x00\x00\xFF\xFF\x01r";

const COMPOSITION_ARROW_2: &[u8] = b"\x10\x00\x01\x01\x30\x00\x04\x00\x01A\x00\
      \x50\x00\x0C\x01\x02\x00\x00\xFF\x01l\x00\x00\xFF\x01r";

/// All of them; the number of a refusal is the first in the order of the checks.
pub fn conversions() -> [Conversion; 23] {
    [
        ("no types", NO_TYPES, 4_096, Ok(NO_TYPES_2)),
        ("no types, edition 2", NO_TYPES_2, 4_096, Ok(NO_TYPES)),
        (
            "Shelf and Card",
            SHELF_AND_CARD,
            4_096,
            Ok(SHELF_AND_CARD_2),
        ),
        (
            "Shelf and Card, edition 2",
            SHELF_AND_CARD_2,
            4_096,
            Ok(SHELF_AND_CARD),
        ),
        ("a singleton class", SINGLETON, 4_096, Ok(SINGLETON_2)),
        (
            "no upper limits, low up to 100",
            NO_UPPER_LIMITS,
            4_096,
            Ok(NO_UPPER_LIMITS_2),
        ),
        (
            "no upper limits, low up to 100, edition 2",
            NO_UPPER_LIMITS_2,
            4_096,
            Ok(NO_UPPER_LIMITS),
        ),
        ("up 101", UP_101, 4_096, Err(25)),
        ("low 101 without an upper limit", LOW_101, 4_096, Err(25)),
        ("up 255 at the right", UP_255_AT_THE_RIGHT, 4_096, Err(25)),
        (
            "low 100, up 100 and no upper limit",
            UP_100_2,
            4_096,
            Ok(UP_100),
        ),
        ("up 256, whose second byte is 0", UP_256, 4_096, Err(25)),
        ("25 before 20", UP_101, 10, Err(25)),
        ("one byte too few for any file", NO_TYPES, 4_095, Err(20)),
        ("no room", NO_TYPES, 0, Err(20)),
        ("the file before 20", b"\x10\x00\x01", 0, Err(1)),
        ("the file before 25", UP_101_CUT_OFF, 4_096, Err(1)),
        ("edition 3", b"\x10\x00\x01\x03", 4_096, Err(3)),
        ("no bytes", b"", 4_096, Err(2)),
        ("a record file", b"\x60\x00\x01\x00", 4_096, Err(2)),
        ("arrow 4", ARROW_4, 4_096, Ok(ARROW_4_2)),
        (
            "a composition with arrow 2",
            COMPOSITION_ARROW_2,
            4_096,
            Err(8),
        ),
        (
            "room for more than any file",
            NO_TYPES,
            5_000,
            Ok(NO_TYPES_2),
        ),
    ]
}

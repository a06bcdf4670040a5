//! Worked texts with limits that edition 1 does not have, each with the edition 2 file of the diagram
//! that it declares, and with limits that no edition has.

use super::accepted::Accepted;
use super::refused::Unnumbered;

/// Limits of 101 to 4,000.
pub const ACCEPTED: [Accepted; 11] = [
    (
        "[101]",
        b"classdiagram D { class A; association [101] A -> A; }",
        b"\x10\x00\x01\x02\x30\x00\x04\x00\x01A\x00\
          \x50\x00\x10\x00\x01\x00\x00\x65\x00\x65\x01a\x00\x00\x00\xFF\xFF\x01a",
    ),
    (
        "[255]",
        b"classdiagram D { class A; association [255] A -> A; }",
        b"\x10\x00\x01\x02\x30\x00\x04\x00\x01A\x00\
          \x50\x00\x10\x00\x01\x00\x00\xFF\x00\xFF\x01a\x00\x00\x00\xFF\xFF\x01a",
    ),
    (
        "[256]",
        b"classdiagram D { class A; association [256] A -> A; }",
        b"\x10\x00\x01\x02\x30\x00\x04\x00\x01A\x00\
          \x50\x00\x10\x00\x01\x00\x01\x00\x01\x00\x01a\x00\x00\x00\xFF\xFF\x01a",
    ),
    (
        "[4000]",
        b"classdiagram D { class A; association [4000] A -> A; }",
        b"\x10\x00\x01\x02\x30\x00\x04\x00\x01A\x00\
          \x50\x00\x10\x00\x01\x00\x0F\xA0\x0F\xA0\x01a\x00\x00\x00\xFF\xFF\x01a",
    ),
    (
        "[0..101]",
        b"classdiagram D { class A; association [0..101] A -> A; }",
        b"\x10\x00\x01\x02\x30\x00\x04\x00\x01A\x00\
          \x50\x00\x10\x00\x01\x00\x00\x00\x00\x65\x01a\x00\x00\x00\xFF\xFF\x01a",
    ),
    (
        "[0..255]",
        b"classdiagram D { class A; association [0..255] A -> A; }",
        b"\x10\x00\x01\x02\x30\x00\x04\x00\x01A\x00\
          \x50\x00\x10\x00\x01\x00\x00\x00\x00\xFF\x01a\x00\x00\x00\xFF\xFF\x01a",
    ),
    (
        "[0..256]",
        b"classdiagram D { class A; association [0..256] A -> A; }",
        b"\x10\x00\x01\x02\x30\x00\x04\x00\x01A\x00\
          \x50\x00\x10\x00\x01\x00\x00\x00\x01\x00\x01a\x00\x00\x00\xFF\xFF\x01a",
    ),
    (
        "[0..4000]",
        b"classdiagram D { class A; association [0..4000] A -> A; }",
        b"\x10\x00\x01\x02\x30\x00\x04\x00\x01A\x00\
          \x50\x00\x10\x00\x01\x00\x00\x00\x0F\xA0\x01a\x00\x00\x00\xFF\xFF\x01a",
    ),
    (
        "[101..*]",
        b"classdiagram D { class A; association [101..*] A -> A; }",
        b"\x10\x00\x01\x02\x30\x00\x04\x00\x01A\x00\
          \x50\x00\x10\x00\x01\x00\x00\x65\xFF\xFF\x01a\x00\x00\x00\xFF\xFF\x01a",
    ),
    (
        "[4000..*]",
        b"classdiagram D { class A; association [4000..*] A -> A; }",
        b"\x10\x00\x01\x02\x30\x00\x04\x00\x01A\x00\
          \x50\x00\x10\x00\x01\x00\x0F\xA0\xFF\xFF\x01a\x00\x00\x00\xFF\xFF\x01a",
    ),
    (
        "[0004000]",
        b"classdiagram D { class A; association [0004000] A -> A; }",
        b"\x10\x00\x01\x02\x30\x00\x04\x00\x01A\x00\
          \x50\x00\x10\x00\x01\x00\x0F\xA0\x0F\xA0\x01a\x00\x00\x00\xFF\xFF\x01a",
    ),
];

/// 23: larger limits, whatever they would be in fewer bytes, and limits in the wrong order.
pub const REFUSED: [Unnumbered; 10] = [
    (
        "[4001]",
        b"classdiagram D { class A; association [4001] A -> A; }",
    ),
    (
        "[0..4001]",
        b"classdiagram D { class A; association [0..4001] A -> A; }",
    ),
    (
        "[4001..*]",
        b"classdiagram D { class A; association [4001..*] A -> A; }",
    ),
    (
        "[0..65535]",
        b"classdiagram D { class A; association [0..65535] A -> A; }",
    ),
    (
        "[65535..*]",
        b"classdiagram D { class A; association [65535..*] A -> A; }",
    ),
    (
        "[256..255]",
        b"classdiagram D { class A; association [256..255] A -> A; }",
    ),
    (
        "[65536], 0 in two bytes",
        b"classdiagram D { class A; association [65536] A -> A; }",
    ),
    (
        "[65537], 1 in two bytes",
        b"classdiagram D { class A; association [65537] A -> A; }",
    ),
    (
        "[4294967297], 1 in four bytes",
        b"classdiagram D { class A; association [4294967297] A -> A; }",
    ),
    (
        "20 nines",
        b"classdiagram D { class A; association [99999999999999999999] A -> A; }",
    ),
];

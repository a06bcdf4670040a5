//! Worked texts that are accepted, each with the file of the diagram that it declares: of edition 1,
//! where that has its limits.

use super::wide_limits;

/// What the case is about, the text, and the file.
pub type Accepted = (&'static str, &'static [u8], &'static [u8]);

/// All of them.
pub fn accepted() -> Vec<Accepted> {
    let groups: [&[Accepted]; 6] = [
        &WORDS_AND_CLASSES,
        &VALUE_TYPES,
        &PARENTS,
        &ASSOCIATIONS,
        &wide_limits::ACCEPTED,
        &[EVERY_PART],
    ];
    groups.concat()
}

/// The wrapper, words, classes.
const WORDS_AND_CLASSES: [Accepted; 12] = [
    (
        "the empty diagram",
        b"classdiagram d {}",
        b"\x10\x00\x01\x01",
    ),
    (
        "no blanks where a mark parts",
        b"classdiagram d{}",
        b"\x10\x00\x01\x01",
    ),
    (
        "tabs, line ends, blanks before and behind",
        b"\r\n\tclassdiagram\td\n{\r}\n ",
        b"\x10\x00\x01\x01",
    ),
    (
        "P of 01",
        b"classdiagram P { class Shelf; class Card; \
          composition [1] Shelf (shelf) -> (cards) Card [0..4]; }",
        b"\x10\x00\x01\x01\x30\x00\x08\x00\x05Shelf\x00\x30\x00\x07\x00\x04Card\x00\
          \x50\x00\x14\x01\x01\x00\x01\x01\x05shelf\x01\x00\x04\x05cards",
    ),
    (
        "P without blanks, left role left out",
        b"classdiagram P{class Shelf;class Card;composition[1]Shelf->(cards)Card[0..4];}",
        b"\x10\x00\x01\x01\x30\x00\x08\x00\x05Shelf\x00\x30\x00\x07\x00\x04Card\x00\
          \x50\x00\x14\x01\x01\x00\x01\x01\x05shelf\x01\x00\x04\x05cards",
    ),
    (
        "Z of 01",
        b"classdiagram Z { <<singleton>> class Main; }",
        b"\x10\x00\x01\x01\x30\x00\x07\x03\x04Main\x00",
    ),
    (
        "Z, blanks in the stereotype, a body",
        b"classdiagram Z { << singleton\n>>class Main {} }",
        b"\x10\x00\x01\x01\x30\x00\x07\x03\x04Main\x00",
    ),
    (
        "singleton is a name too",
        b"classdiagram singleton { <<singleton>> class singleton; }",
        b"\x10\x00\x01\x01\x30\x00\x0C\x03\x09singleton\x00",
    ),
    (
        "keywords are exact",
        b"classdiagram d {class Class; class ENUM; class Abstract;}",
        b"\x10\x00\x01\x01\x30\x00\x08\x00\x05Class\x00\x30\x00\x07\x00\x04ENUM\x00\
          \x30\x00\x0B\x00\x08Abstract\x00",
    ),
    (
        "names of digits",
        b"classdiagram 1 { class 2 { 3 4; } association [5] 2 (6) -> (7) 2 [8..9]; }",
        b"\x10\x00\x01\x01\x20\x00\x03\x013\x00\x30\x00\x04\x00\x012\x00\
          \x40\x00\x04\x00\x014\x00\x50\x00\x0C\x00\x01\x00\x05\x05\x016\x00\x08\x09\x017",
    ),
    (
        "a name of 16 bytes",
        b"classdiagram d {class A234567890123456;}",
        b"\x10\x00\x01\x01\x30\x00\x13\x00\x10A234567890123456\x00",
    ),
    (
        "abstract class, class with an empty body",
        b"classdiagram d {abstract class A; class B {}}",
        b"\x10\x00\x01\x01\x30\x00\x04\x01\x01A\x00\x30\x00\x04\x00\x01B\x00",
    ),
];

/// Enumerations and plain types.
const VALUE_TYPES: [Accepted; 6] = [
    (
        "enumeration declared after its use",
        b"classdiagram d {class A { P p; Col c; } enum Col {r, g;}}",
        b"\x10\x00\x01\x01\x20\x00\x09\x03Col\x02\x01r\x01g\x20\x00\x03\x01P\x00\
          \x30\x00\x04\x00\x01A\x00\x40\x00\x04\x00\x01p\x01\x40\x00\x04\x00\x01c\x00",
    ),
    (
        "enumerations first, then plain types by first use",
        b"classdiagram d {class A { P x; E y; Q z; P w; } enum E; enum F {u;}}",
        b"\x10\x00\x01\x01\x20\x00\x03\x01E\x00\x20\x00\x05\x01F\x01\x01u\x20\x00\x03\x01P\x00\
          \x20\x00\x03\x01Q\x00\x30\x00\x04\x00\x01A\x00\x40\x00\x04\x00\x01x\x02\
          \x40\x00\x04\x00\x01y\x00\x40\x00\x04\x00\x01z\x03\x40\x00\x04\x00\x01w\x02",
    ),
    (
        "an enumeration without constants that nobody uses",
        b"classdiagram d {enum E; class A { P x; }}",
        b"\x10\x00\x01\x01\x20\x00\x03\x01E\x00\x20\x00\x03\x01P\x00\x30\x00\x04\x00\x01A\x00\
          \x40\x00\x04\x00\x01x\x01",
    ),
    (
        "an attribute type that is a class",
        b"classdiagram d {class A { B b; } class B;}",
        b"\x10\x00\x01\x01\x20\x00\x03\x01B\x00\x30\x00\x04\x00\x01A\x00\
          \x30\x00\x04\x00\x01B\x00\x40\x00\x04\x00\x01b\x00",
    ),
    (
        "enumeration and class of one name",
        b"classdiagram d {class Col { Col c; } enum Col {Col;}}",
        b"\x10\x00\x01\x01\x20\x00\x09\x03Col\x01\x03Col\x30\x00\x06\x00\x03Col\x00\
          \x40\x00\x04\x00\x01c\x00",
    ),
    (
        "attribute twice on one class",
        b"classdiagram d {class A { V x; W x; }}",
        b"\x10\x00\x01\x01\x20\x00\x03\x01V\x00\x20\x00\x03\x01W\x00\x30\x00\x04\x00\x01A\x00\
          \x40\x00\x04\x00\x01x\x00\x40\x00\x04\x00\x01x\x01",
    ),
];

/// Parents.
const PARENTS: [Accepted; 4] = [
    (
        "order of parents on a line",
        b"classdiagram d {class A; class B; class C extends B, A;}",
        b"\x10\x00\x01\x01\x30\x00\x04\x00\x01A\x00\x30\x00\x04\x00\x01B\x00\
          \x30\x00\x06\x00\x01C\x02\x00\x01",
    ),
    (
        "extends and implements",
        b"classdiagram d {interface I; class A; interface J extends I; \
          class C extends A implements J, I;}",
        b"\x10\x00\x01\x01\x30\x00\x04\x02\x01I\x00\x30\x00\x04\x00\x01A\x00\
          \x30\x00\x05\x02\x01J\x01\x00\x30\x00\x07\x00\x01C\x03\x00\x01\x02",
    ),
    (
        "abstract and singleton class as parents",
        b"classdiagram d {abstract class A; <<singleton>> class S; class C extends S, A;}",
        b"\x10\x00\x01\x01\x30\x00\x04\x01\x01A\x00\x30\x00\x04\x03\x01S\x00\
          \x30\x00\x06\x00\x01C\x02\x00\x01",
    ),
    (
        "a parent that an ancestor has already",
        b"classdiagram d {class A; class B extends A; class C extends A, B;}",
        b"\x10\x00\x01\x01\x30\x00\x04\x00\x01A\x00\x30\x00\x05\x00\x01B\x01\x00\
          \x30\x00\x06\x00\x01C\x02\x00\x01",
    ),
];

/// Associations.
const ASSOCIATIONS: [Accepted; 13] = [
    (
        "ends declared later, an interface among them",
        b"classdiagram d {association A -> I; interface I; class A;}",
        b"\x10\x00\x01\x01\x30\x00\x04\x02\x01I\x00\x30\x00\x04\x00\x01A\x00\
          \x50\x00\x0C\x00\x01\x01\x00\xFF\x01a\x00\x00\xFF\x01i",
    ),
    (
        "all left out",
        b"classdiagram d {class A; association A -- A;}",
        b"\x10\x00\x01\x01\x30\x00\x04\x00\x01A\x00\
          \x50\x00\x0C\x00\x04\x00\x00\xFF\x01a\x00\x00\xFF\x01a",
    ),
    (
        "role left out: capital, small, underscore, digit",
        b"classdiagram d {class CARD; class x; class _X; class 7X; association CARD -> x; \
          association _X <-> 7X;}",
        b"\x10\x00\x01\x01\x30\x00\x07\x00\x04CARD\x00\x30\x00\x04\x00\x01x\x00\
          \x30\x00\x05\x00\x02_X\x00\x30\x00\x05\x00\x027X\x00\
          \x50\x00\x0F\x00\x01\x00\x00\xFF\x04cARD\x01\x00\xFF\x01x\
          \x50\x00\x0E\x00\x03\x02\x00\xFF\x02_X\x03\x00\xFF\x027X",
    ),
    (
        "a role left out may be a keyword",
        b"classdiagram d {class Class; association Class -> Class;}",
        b"\x10\x00\x01\x01\x30\x00\x08\x00\x05Class\x00\
          \x50\x00\x14\x00\x01\x00\x00\xFF\x05class\x00\x00\xFF\x05class",
    ),
    (
        "[*], [n]",
        b"classdiagram d {class A; association [*] A (l) -> (r) A [3];}",
        b"\x10\x00\x01\x01\x30\x00\x04\x00\x01A\x00\
          \x50\x00\x0C\x00\x01\x00\x00\xFF\x01l\x00\x03\x03\x01r",
    ),
    (
        "[0..*], [n..n]",
        b"classdiagram d {class A; association [0..*] A (l) -> (r) A [3..3];}",
        b"\x10\x00\x01\x01\x30\x00\x04\x00\x01A\x00\
          \x50\x00\x0C\x00\x01\x00\x00\xFF\x01l\x00\x03\x03\x01r",
    ),
    (
        "[n..m], [n..*]",
        b"classdiagram d {class A; association [2..5] A (l) <- (r) A [2..*];}",
        b"\x10\x00\x01\x01\x30\x00\x04\x00\x01A\x00\
          \x50\x00\x0C\x00\x02\x00\x02\x05\x01l\x00\x02\xFF\x01r",
    ),
    (
        "[0], [0..0]",
        b"classdiagram d {class A; association [0] A (l) <-> (r) A [0..0];}",
        b"\x10\x00\x01\x01\x30\x00\x04\x00\x01A\x00\
          \x50\x00\x0C\x00\x03\x00\x00\x00\x01l\x00\x00\x00\x01r",
    ),
    (
        "leading zeros, blanks between",
        b"classdiagram d {class A; \
          association [007] A (l) -- (r) A [ 00 .. 00000000000000000000100 ];}",
        b"\x10\x00\x01\x01\x30\x00\x04\x00\x01A\x00\
          \x50\x00\x0C\x00\x04\x00\x07\x07\x01l\x00\x00\x64\x01r",
    ),
    (
        "the largest limits of edition 1",
        b"classdiagram d {class A; association [100..100] A (l) -> (r) A [100..*];}",
        b"\x10\x00\x01\x01\x30\x00\x04\x00\x01A\x00\
          \x50\x00\x0C\x00\x01\x00\x64\x64\x01l\x00\x64\xFF\x01r",
    ),
    (
        "compositions with the three arrows allowed",
        b"classdiagram d {class A; composition A (l) -> (r) A; \
          composition A (l) <-> (r) A; composition A (l) -- (r) A;}",
        b"\x10\x00\x01\x01\x30\x00\x04\x00\x01A\x00\
          \x50\x00\x0C\x01\x01\x00\x00\xFF\x01l\x00\x00\xFF\x01r\
          \x50\x00\x0C\x01\x03\x00\x00\xFF\x01l\x00\x00\xFF\x01r\
          \x50\x00\x0C\x01\x04\x00\x00\xFF\x01l\x00\x00\xFF\x01r",
    ),
    (
        "one role name at both ends, two equal associations",
        b"classdiagram d {class A; association A (r) -> (r) A; association A (r) -> (r) A;}",
        b"\x10\x00\x01\x01\x30\x00\x04\x00\x01A\x00\
          \x50\x00\x0C\x00\x01\x00\x00\xFF\x01r\x00\x00\xFF\x01r\
          \x50\x00\x0C\x00\x01\x00\x00\xFF\x01r\x00\x00\xFF\x01r",
    ),
    (
        "association to the left is none",
        b"classdiagram d {class A; association A (l) <- (r) A;}",
        b"\x10\x00\x01\x01\x30\x00\x04\x00\x01A\x00\
          \x50\x00\x0C\x00\x02\x00\x00\xFF\x01l\x00\x00\xFF\x01r",
    ),
];

/// Every kind of part in one text, over several lines.
const EVERY_PART: Accepted = (
    "every kind of part",
    b"classdiagram cd1 {
  enum InsuranceKind {transport, international;}
  enum DrivingExp {expert, beginner;}
  class Employee;
  class Driver extends Employee {
    DrivingExp exp;
  }
  interface Driveable;
  abstract class Vehicle implements Driveable {
    Date regDate;
    String licensePlate;
  }
  class Car extends Vehicle;
  class Truck extends Vehicle;
  class Company {}
  class License {}
  class Insurance {
    InsuranceKind kind;
  }
  association [1] Driver (drivenBy) <-> (drives) Car [0..*];
  association [0..1] Company (of) -> (cars) Car [*];
  association [*] Employee (emps) <- (of) Company [*];
  composition [1] Employee (of) -> (ins) Insurance [1];
  association [1] Driver (owner) -- (license) License [0..3];
}
",
    b"\x10\x00\x01\x01\x20\x00\x27\x0DInsuranceKind\x02\x09transport\x0Dinternational\
      \x20\x00\x1C\x0ADrivingExp\x02\x06expert\x08beginner\x20\x00\x06\x04Date\x00\
      \x20\x00\x08\x06String\x00\x30\x00\x0B\x00\x08Employee\x00\
      \x30\x00\x0A\x00\x06Driver\x01\x00\x30\x00\x0C\x02\x09Driveable\x00\
      \x30\x00\x0B\x01\x07Vehicle\x01\x02\x30\x00\x07\x00\x03Car\x01\x03\
      \x30\x00\x09\x00\x05Truck\x01\x03\x30\x00\x0A\x00\x07Company\x00\
      \x30\x00\x0A\x00\x07License\x00\x30\x00\x0C\x00\x09Insurance\x00\
      \x40\x00\x06\x01\x03exp\x01\x40\x00\x0A\x03\x07regDate\x02\
      \x40\x00\x0F\x03\x0ClicensePlate\x03\x40\x00\x07\x08\x04kind\x00\
      \x50\x00\x18\x00\x03\x01\x01\x01\x08drivenBy\x04\x00\xFF\x06drives\
      \x50\x00\x10\x00\x01\x06\x00\x01\x02of\x04\x00\xFF\x04cars\
      \x50\x00\x10\x00\x02\x00\x00\xFF\x04emps\x06\x00\xFF\x02of\
      \x50\x00\x0F\x01\x01\x00\x01\x01\x02of\x08\x01\x01\x03ins\
      \x50\x00\x16\x00\x04\x01\x01\x01\x05owner\x07\x00\x03\x07license",
);

//! Worked texts that are refused, each with the number.

use super::wide_limits;

/// What the case is about, the text, and the number.
pub type Refused = (&'static str, &'static [u8], u8);

/// The same without the number, which the cases of a group share.
pub type Unnumbered = (&'static str, &'static [u8]);

/// All of them.
pub fn refused() -> Vec<Refused> {
    let groups: [(u8, &[Unnumbered]); 7] = [
        (23, &BAD_WORDS),
        (23, &BAD_DECLARATIONS),
        (23, &BAD_ASSOCIATIONS),
        (23, &wide_limits::REFUSED),
        (24, &NOT_DECLARED),
        (5, &TWICE),
        (8, &BACKWARDS),
    ];
    let mut all = Vec::new();
    for (number, cases) in groups {
        all.extend(cases.iter().map(|(name, text)| (*name, *text, number)));
    }
    all.extend(ORDER);
    all
}

/// 23: words and marks.
const BAD_WORDS: [Unnumbered; 21] = [
    ("no bytes", b""),
    ("blanks alone", b" \t\r\n"),
    ("no wrapper", b"class A;"),
    ("no name", b"classdiagram {}"),
    ("cut off", b"classdiagram d {class A;"),
    ("one brace too many", b"classdiagram d {}}"),
    ("something behind", b"classdiagram d {} ;"),
    ("keyword in other letters", b"Classdiagram d {}"),
    ("keyword as the diagram's name", b"classdiagram enum {}"),
    ("keyword as a name", b"classdiagram d {class interface;}"),
    (
        "keyword as a role",
        b"classdiagram d {class A; association A (class) -> A;}",
    ),
    (
        "keyword as an attribute type",
        b"classdiagram d {class A { abstract x; }}",
    ),
    (
        "17 bytes: the diagram's own name",
        b"classdiagram A2345678901234567 {}",
    ),
    (
        "17 bytes: a role",
        b"classdiagram d {class A; association A (A2345678901234567) -> A;}",
    ),
    (
        "17 bytes: an end (not 24)",
        b"classdiagram d {class A; association A -> A2345678901234567;}",
    ),
    ("byte order mark", b"\xEF\xBB\xBFclassdiagram d {}"),
    ("NUL behind", b"classdiagram d {}\x00"),
    ("vertical tab", b"classdiagram\x0Bd {}"),
    (
        "a letter above 0x7F",
        b"classdiagram d {class M\xC3\xBCller;}",
    ),
    (
        "guillemets",
        b"classdiagram d {\xC2\xABsingleton\xC2\xBB class A;}",
    ),
    ("a comment", b"classdiagram d {// no\n}"),
];

/// 23: declarations.
const BAD_DECLARATIONS: [Unnumbered; 28] = [
    ("semicolon behind a body", b"classdiagram d {class A {};}"),
    ("no semicolon", b"classdiagram d {class A}"),
    ("interface with a body", b"classdiagram d {interface I {}}"),
    (
        "enumeration with an empty body",
        b"classdiagram d {enum E {}}",
    ),
    ("enumeration, no constant", b"classdiagram d {enum E {;}}"),
    ("enumeration, no semicolon", b"classdiagram d {enum E {a}}"),
    ("enumeration, comma last", b"classdiagram d {enum E {a,;}}"),
    (
        "semicolon behind an enumeration's body",
        b"classdiagram d {enum E {a;};}",
    ),
    (
        "abstract twice",
        b"classdiagram d {abstract abstract class A;}",
    ),
    (
        "abstract behind the stereotype",
        b"classdiagram d {<<singleton>> abstract class A;}",
    ),
    (
        "abstract before it",
        b"classdiagram d {abstract <<singleton>> class A;}",
    ),
    (
        "stereotype twice",
        b"classdiagram d {<<singleton>> <<singleton>> class A;}",
    ),
    (
        "stereotype on an interface",
        b"classdiagram d {<<singleton>> interface I;}",
    ),
    (
        "abstract interface",
        b"classdiagram d {abstract interface I;}",
    ),
    (
        "another stereotype",
        b"classdiagram d {<<Singleton>> class A;}",
    ),
    (
        "a list of stereotypes",
        b"classdiagram d {<<singleton, singleton>> class A;}",
    ),
    ("marks apart", b"classdiagram d {< <singleton>> class A;}"),
    ("three marks", b"classdiagram d {<<<singleton>> class A;}"),
    (
        "implements before extends",
        b"classdiagram d {class B; interface I; class A implements I extends B;}",
    ),
    ("no parent", b"classdiagram d {class A extends;}"),
    (
        "comma last",
        b"classdiagram d {class B; class A extends B,;}",
    ),
    (
        "extends twice",
        b"classdiagram d {class B; class A extends B extends B;}",
    ),
    (
        "interface implements",
        b"classdiagram d {interface I; interface J implements I;}",
    ),
    (
        "attribute without a type",
        b"classdiagram d {class A { x; }}",
    ),
    (
        "attribute without semicolon",
        b"classdiagram d {class A { int x }}",
    ),
    ("array type", b"classdiagram d {class A { int[] x; }}"),
    ("qualified type", b"classdiagram d {class A { a.b x; }}"),
    (
        "qualified parent",
        b"classdiagram d {class B; class A extends p.B;}",
    ),
];

/// 23: associations and cardinalities.
const BAD_ASSOCIATIONS: [Unnumbered; 27] = [
    (
        "no semicolon",
        b"classdiagram d {class A; association A -> A}",
    ),
    ("no arrow", b"classdiagram d {class A; association A A;}"),
    ("-->", b"classdiagram d {class A; association A --> A;}"),
    ("<--", b"classdiagram d {class A; association A <-- A;}"),
    ("--->", b"classdiagram d {class A; association A ---> A;}"),
    ("<-->", b"classdiagram d {class A; association A <--> A;}"),
    ("- >", b"classdiagram d {class A; association A - > A;}"),
    ("<- >", b"classdiagram d {class A; association A <- > A;}"),
    ("=>", b"classdiagram d {class A; association A => A;}"),
    (
        "cardinality on the wrong side",
        b"classdiagram d {class A; association A [1] -> A;}",
    ),
    (
        "role before the left type",
        b"classdiagram d {class A; association (r) A -> A;}",
    ),
    (
        "role behind the right type",
        b"classdiagram d {class A; association A -> A (r);}",
    ),
    (
        "an association's name",
        b"classdiagram d {class A; association owns A -> A;}",
    ),
    (
        "empty role",
        b"classdiagram d {class A; association A () -> A;}",
    ),
    (
        "qualified end",
        b"classdiagram d {class A; association p.A -> A;}",
    ),
    ("[]", b"classdiagram d {class A; association [] A -> A;}"),
    (
        "[*..1]",
        b"classdiagram d {class A; association [*..1] A -> A;}",
    ),
    (
        "[1..]",
        b"classdiagram d {class A; association [1..] A -> A;}",
    ),
    (
        "[1.2]",
        b"classdiagram d {class A; association [1.2] A -> A;}",
    ),
    (
        "[1...2]",
        b"classdiagram d {class A; association [1...2] A -> A;}",
    ),
    (
        "[1,2]",
        b"classdiagram d {class A; association [1,2] A -> A;}",
    ),
    (
        "[-1]",
        b"classdiagram d {class A; association [-1] A -> A;}",
    ),
    (
        "[1a]",
        b"classdiagram d {class A; association [1a] A -> A;}",
    ),
    ("[n]", b"classdiagram d {class A; association [n] A -> A;}"),
    (
        "[2..1]",
        b"classdiagram d {class A; association A -> A [2..1];}",
    ),
    (
        "20 digits, 1 in eight bytes",
        b"classdiagram d {class A; association [18446744073709551617] A -> A;}",
    ),
    (
        "a cardinality that nobody navigates",
        b"classdiagram d {class A; association [3..2] A -> A;}",
    ),
];

/// 24: ends and parents.
const NOT_DECLARED: [Unnumbered; 12] = [
    (
        "end that nothing declares",
        b"classdiagram d {class A; association A -> B;}",
    ),
    (
        "end that is an enumeration",
        b"classdiagram d {class A; enum E; association A -> E;}",
    ),
    (
        "end that is a plain type",
        b"classdiagram d {class A { B b; } association A -> B;}",
    ),
    (
        "other letters",
        b"classdiagram d {class A; association A -> a;}",
    ),
    (
        "parent declared later",
        b"classdiagram d {class B extends A; class A;}",
    ),
    ("its own parent", b"classdiagram d {class A extends A;}"),
    (
        "class extends an interface",
        b"classdiagram d {interface I; class A extends I;}",
    ),
    (
        "class implements a class",
        b"classdiagram d {class A; class B implements A;}",
    ),
    (
        "interface extends a class",
        b"classdiagram d {class A; interface I extends A;}",
    ),
    (
        "parent that is an enumeration",
        b"classdiagram d {enum E; class A extends E;}",
    ),
    (
        "interface of that name comes later (not 5)",
        b"classdiagram d {class X; class Y implements X; interface X;}",
    ),
    (
        "second parent only",
        b"classdiagram d {class A; class B extends A, C;}",
    ),
];

/// 5: names twice.
const TWICE: [Unnumbered; 8] = [
    ("class twice", b"classdiagram d {class A; class A;}"),
    (
        "class and interface",
        b"classdiagram d {class A; interface A;}",
    ),
    (
        "name declared before as both kinds (not 24)",
        b"classdiagram d {class X; interface X; class Y implements X;}",
    ),
    ("enumeration twice", b"classdiagram d {enum E; enum E {a;}}"),
    ("constant twice", b"classdiagram d {enum E {a, b, a;}}"),
    (
        "parent twice",
        b"classdiagram d {class A; class B extends A, A;}",
    ),
    (
        "interface parent twice",
        b"classdiagram d {interface I; interface J extends I, I;}",
    ),
    (
        "before 8",
        b"classdiagram d {class A; class A; composition A <- A;}",
    ),
];

/// 8: a composition to the left.
const BACKWARDS: [Unnumbered; 1] = [(
    "composition to the left",
    b"classdiagram d {class A; composition A <- A;}",
)];

/// Faults that more than one check would refuse, with the number that comes.
const ORDER: [Refused; 4] = [
    (
        "24 early, 23 behind",
        b"classdiagram d {association A -> B; class A; enum E {}}",
        23,
    ),
    (
        "23 by a cardinality behind 24",
        b"classdiagram d {class B extends A; class A; association [2..1] A -> A;}",
        23,
    ),
    (
        "5 early, 24 behind",
        b"classdiagram d {class A; class A; association A -> B;}",
        24,
    ),
    (
        "5 and 8, then 23 in the last byte",
        b"classdiagram d {class A; class A; composition A <- A;};",
        23,
    ),
];

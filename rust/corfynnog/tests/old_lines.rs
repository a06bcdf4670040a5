//! Below each place where new forbids a site stands what both diagrams declare there.

mod common;

use common::json::{read, Value};
use common::Folder;

/// A test's name, old's and new's declarations, and the lines below the place.
type Case = (
    &'static str,
    &'static str,
    &'static str,
    &'static [&'static str],
);

/// A folder with the two texts.
fn folder((test, old, new, _): &Case) -> Folder {
    let folder = Folder::of(&format!("old_lines_{test}"));
    folder.put("old.cd", format!("classdiagram o {{ {old} }}").as_bytes());
    folder.put("newer.cd", format!("classdiagram n {{ {new} }}").as_bytes());
    folder
}

/// Compares; the lines below the first place, with the names in front.
fn lines_below(case: &Case) -> Vec<String> {
    let answer = folder(case).answer(1, "compare old.cd newer.cd");
    let why = answer.split("Why newer.cd forbids it:\n").nth(1);
    let lines = why.expect("a reason").lines().skip(2);
    let own = lines.take_while(|line| line.starts_with("    "));
    own.map(|line| line.trim_start().to_string()).collect()
}

/// The same, and the lists for scripts: they have the lines without names, and none where a diagram
/// declares nothing.
fn expect(case: &Case) {
    let (test, _, _, expected) = case;
    assert_eq!(lines_below(case), *expected, "{test}");
    let ran = folder(case).line("compare old.cd newer.cd --json");
    let object = read(&ran.out);
    let place = object.get("reason").get("places").at(0);
    for (member, name) in [("new_text", "newer.cd: "), ("old_text", "old.cd:   ")] {
        let own = expected.iter().filter_map(|line| line.strip_prefix(name));
        let own: Vec<&str> = own.filter(|line| !line.starts_with("no ")).collect();
        let list = place.get(member);
        let texts: Vec<&str> = (0..list.len()).map(|i| list.at(i).text()).collect();
        assert_eq!(texts, own, "{test} {member}");
    }
}

#[test]
fn types_and_singletons() {
    let cases: [Case; 5] = [
        (
            "unknown",
            "class A; class Foo extends A;",
            "class A;",
            &["newer.cd: no type Foo", "old.cd:   class Foo extends A"],
        ),
        (
            "abstract",
            "interface I; class Foo implements I;",
            "interface I; abstract class Foo;",
            &[
                "newer.cd: abstract class Foo",
                "old.cd:   class Foo implements I",
            ],
        ),
        (
            "interface",
            "class Foo;",
            "interface Foo;",
            &["newer.cd: interface Foo", "old.cd:   class Foo"],
        ),
        (
            "singleton",
            "class Main;",
            "<<singleton>> class Main;",
            &["newer.cd: <<singleton>> class Main", "old.cd:   class Main"],
        ),
        (
            "new_singleton",
            "",
            "<<singleton>> class Main;",
            &[
                "newer.cd: <<singleton>> class Main",
                "old.cd:   no type Main",
            ],
        ),
    ];
    cases.iter().for_each(expect);
}

#[test]
fn attributes_and_enumerations() {
    let cases: [Case; 5] = [
        (
            "missing",
            "class A {V x;}",
            "class A {V x; W y;}",
            &[
                "newer.cd: W y; in class A",
                "old.cd:   no attribute y in A or an ancestor",
            ],
        ),
        (
            "undeclared",
            "abstract class B {V x;} class A extends B;",
            "abstract class B; class A extends B;",
            &[
                "newer.cd: no attribute x in A or an ancestor",
                "old.cd:   V x; in abstract class B",
            ],
        ),
        (
            "constant",
            "enum S {a, b;} class A {S x;}",
            "enum S {a;} class A {S x;}",
            &[
                "newer.cd: S x; in class A",
                "newer.cd: enum S {a;}",
                "old.cd:   S x; in class A",
                "old.cd:   enum S {a, b;}",
            ],
        ),
        (
            "clash",
            "abstract class B {V x;} class A extends B;",
            "abstract class B {V x;} class A extends B {W x;}",
            &[
                "newer.cd: V x; in abstract class B",
                "newer.cd: W x; in class A",
                "newer.cd: enum V",
                "newer.cd: enum W",
                "old.cd:   V x; in abstract class B",
                "old.cd:   enum V",
            ],
        ),
        (
            "inherited",
            "abstract class B {V x;} class A;",
            "abstract class B {V x;} class A extends B;",
            &[
                "newer.cd: V x; in abstract class B",
                "newer.cd: class A extends B",
                "old.cd:   no attribute x in A or an ancestor",
                "old.cd:   class A",
            ],
        ),
    ];
    cases.iter().for_each(expect);
}

#[test]
fn associations() {
    let cases: [Case; 8] = [
        (
            "no_role",
            "class A; association A -> (r) A;",
            "class A;",
            &[
                "newer.cd: no association with role r",
                "old.cd:   association [*] A (a) -> (r) A [*]",
            ],
        ),
        (
            "no_longer_below",
            "abstract class B; class A extends B; association B -> (r) B;",
            "abstract class B; class A; association B -> (r) B;",
            &[
                "newer.cd: association [*] B (b) -> (r) B [*]",
                "newer.cd: class A",
                "old.cd:   association [*] B (b) -> (r) B [*]",
                "old.cd:   class A extends B",
            ],
        ),
        (
            "no_such_limit",
            "class A;",
            "class A; association A -> (r) A [1];",
            &[
                "newer.cd: association [*] A (a) -> (r) A [1]",
                "old.cd:   no association with role r",
            ],
        ),
        (
            "same_ends_first",
            "class A; class B; association B -> (r) B [1]; association A <- (r) A [0..2]; association A -> (r) B;",
            "class A; class B; association B -> (r) B [1]; association A <- (r) A [0..2]; association A -> (r) B [1];",
            &[
                "newer.cd: association [*] A (a) -> (r) B [1]",
                "old.cd:   association [*] A (a) -> (r) B [*]",
            ],
        ),
        (
            "sources",
            "class A; class B; association [0..1] A -> (r) B;",
            "class A; class B; association [1] A -> (r) B;",
            &[
                "newer.cd: association [1] A (a) -> (r) B [*]",
                "old.cd:   association [0..1] A (a) -> (r) B [*]",
            ],
        ),
        (
            "mirror",
            "class A; class B; association A -> (r) B;",
            "class A; class B; association A (q) <-> (r) B;",
            &[
                "newer.cd: association [*] A (q) <-> (r) B [*]",
                "old.cd:   association [*] A (a) -> (r) B [*]",
            ],
        ),
        (
            "mirror_without_arrowhead",
            "class A; class B; association A -> (r) B;",
            "class A; class B; association A (q) -- (r) B;",
            &[
                "newer.cd: association [*] A (q) -- (r) B [*]",
                "old.cd:   association [*] A (a) -> (r) B [*]",
            ],
        ),
        (
            "wholes",
            "class F; class G; class X; composition F -> (x) X; association G -> (y) X;",
            "class F; class G; class X; composition F -> (x) X; composition G -> (y) X;",
            &[
                "newer.cd: composition [*] F (f) -> (x) X [*]",
                "newer.cd: composition [*] G (g) -> (y) X [*]",
                "old.cd:   composition [*] F (f) -> (x) X [*]",
                "old.cd:   association [*] G (g) -> (y) X [*]",
            ],
        ),
    ];
    cases.iter().for_each(expect);
}

#[test]
fn under_one_diagram_there_is_no_old_one() {
    let folder = Folder::of("old_lines_judge");
    folder.put("d", b"classdiagram d { <<singleton>> class Main; }");
    folder.put("r", b"\x60\x00\x01\x00");
    let object = read(&folder.answer(1, "judge d r --json"));
    let place = object.get("reason").get("places").at(0);
    assert_eq!(
        place.get("new_text").at(0).text(),
        "<<singleton>> class Main"
    );
    assert_eq!(place.get("old_text"), &Value::Null);
}

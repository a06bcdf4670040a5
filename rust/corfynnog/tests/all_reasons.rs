//! `compare --all`: every reason, with the changes by which new would allow what old allows.

mod common;

use common::json::{read, Value};
use common::{sites, Folder};

/// A folder with two diagrams of these declarations.
fn folder(test: &str, old: &str, new: &str) -> Folder {
    let folder = Folder::of(&format!("all_reasons_{test}"));
    folder.put("old.cd", format!("classdiagram o {{ {old} }}").as_bytes());
    folder.put("new.cd", format!("classdiagram n {{ {new} }}").as_bytes());
    folder
}

/// One reason: the site's body, the reason behind the number of the rule, the change.
struct One {
    objects: &'static str,
    site: &'static str,
    why: &'static str,
    change: &'static str,
}

/// Compares up to two objects; there is one reason, and a line in the list for each sentence of the
/// change.
fn expect_one(test: &str, old: &str, new: &str, one: &One) {
    let One {
        objects,
        site,
        why,
        change,
    } = one;
    let lines: Vec<&str> = change.trim_end_matches('.').split(". ").collect();
    let with = match lines.len() {
        1 => "this change".to_string(),
        count => format!("these {count} changes"),
    };
    let numbered = lines.iter().zip(1..);
    let list: String = numbered
        .map(|(line, i)| format!("  {i}. {line}.\n"))
        .collect();
    let expected = format!(
        "Difference: 1 reason why new.cd forbids a site of at most 2 objects that old.cd allows.\n\n\
         1. A smallest site, of {objects}:\n\n\
         objectdiagram witness {{\n{site}}}\n\n\
         Why new.cd forbids it:\n{why}Change: {change}\n\n\
         With {with} new.cd would allow every site of at most 2 objects that old.cd allows:\n{list}"
    );
    let answer = folder(test, old, new).answer(1, "compare old.cd new.cd --all --bound 2");
    assert_eq!(answer, expected, "{test}");
}

#[test]
fn rule_1_a_type_is_added_or_becomes_a_class() {
    expect_one(
        "rule_1",
        "class A; class Foo extends A;",
        "class A;",
        &One {
            objects: "1 object",
            site: "  Foo0:Foo {}\n",
            why:
                "  Rule 1: The type of every object is a class or a singleton class of the diagram.
  Foo0 is of type Foo, which the diagram does not have.
    new.cd: no type Foo
    old.cd: class Foo extends A
",
            change: "class Foo extends A is added.",
        },
    );
    expect_one(
        "rule_1_interface",
        "class Foo;",
        "interface Foo; interface J extends Foo; class K implements J;",
        &One {
            objects: "1 object",
            site: "  Foo0:Foo {}\n",
            why: "  Rule 1: The type of every object is a class or a singleton class of the diagram.
  Foo0 is of type Foo, which is an interface there.
    new.cd: interface Foo
    old.cd: class Foo
",
            change: "interface Foo becomes class Foo. interface J extends Foo becomes abstract class J extends Foo. class K implements J becomes class K extends J.",
        },
    );
}

#[test]
fn rule_2_a_singleton_becomes_a_class() {
    expect_one(
        "rule_2",
        "class Main;",
        "<<singleton>> class Main;",
        &One {
            objects: "no objects",
            site: "",
            why: "  Rule 2: Every singleton class is the type of exactly one object.
  No object is of the singleton class Main.
    new.cd: <<singleton>> class Main
    old.cd: class Main
",
            change: "<<singleton>> class Main becomes class Main.",
        },
    );
}

#[test]
fn rule_3_an_attribute_is_taken_out_or_added() {
    expect_one(
        "rule_3_missing",
        "class A;",
        "class A {V x;}",
        &One {
            objects: "1 object",
            site: "  A0:A {}\n",
            why: "  Rule 3: An object has a value for exactly those attributes that its type or an ancestor declares.
  A0 has no value for the attribute x, which A declares.
    new.cd: V x; in class A
    old.cd: no attribute x in A or an ancestor
",
            change: "V x; in class A is taken out.",
        },
    );
    expect_one(
        "rule_3_undeclared",
        "enum S {a;} abstract class B {S x;} class A extends B;",
        "abstract class B; class A extends B;",
        &One {
            objects: "1 object",
            site: "  A0:A { S x = a; }\n",
            why: "  Rule 3: An object has a value for exactly those attributes that its type or an ancestor declares.
  A0 has a value for the attribute x, which neither A nor an ancestor declares.
    new.cd: no attribute x in A or an ancestor
    old.cd: S x; in abstract class B
",
            change: "enum S {a;} is added. S x; in abstract class B is added.",
        },
    );
}

#[test]
fn rule_4_constants_are_added() {
    expect_one(
        "rule_4",
        "enum S {a, b;} class A {S x;}",
        "enum S {a, c;} class A {S x;}",
        &One {
            objects: "1 object",
            site: "  A0:A { S x = b; }\n",
            why:
                "  Rule 4: A value belongs to the value type of every declaration of its attribute.
  A0 has the attribute x, which A declares as S, but S has no constant b.
    new.cd: S x; in class A
    new.cd: enum S {a, c;}
    old.cd: S x; in class A
    old.cd: enum S {a, b;}
",
            change: "enum S {a, c;} becomes enum S {a, c, b;}.",
        },
    );
}

#[test]
fn rule_5_an_association_is_added() {
    expect_one(
        "rule_5",
        "class A; composition [0..1] A -> (r) A [0..2];",
        "class A;",
        &One {
            objects: "1 object",
            site: "  A0:A {}\n  link A0 -> (r) A0;\n",
            why: "  Rule 5: Every link is carried by an association with that role, in that direction and between such objects.
  A0 has a link of role r to A0, but no association of this diagram has the role r.
    new.cd: no association with role r
    old.cd: composition [0..1] A (a) -> (r) A [0..2]
",
            change: "association [*] A (a) -> (r) A [*] is added.",
        },
    );
}

#[test]
fn rules_6_and_7_limits_are_opened() {
    expect_one(
        "rule_6",
        "class A; association A -> (r) A [0..3];",
        "class A; association A -> (r) A [2..4];",
        &One {
            objects: "1 object",
            site: "  A0:A {}\n",
            why: "  Rule 6: An object at the start of an association has only targets of the other end's type, as many as the limits there allow.
  A0 has no link of role r; allowed: 2 to 4.
    new.cd: association [*] A (a) -> (r) A [2..4]
    old.cd: association [*] A (a) -> (r) A [0..3]
",
            change: "association [*] A (a) -> (r) A [2..4] becomes association [*] A (a) -> (r) A [0..4].",
        },
    );
    expect_one(
        "rule_7",
        "class A;",
        "class A; association [1] A -> (r) A;",
        &One {
            objects: "1 object",
            site: "  A0:A {}\n",
            why: "  Rule 7: An object at the end of a one-way association is the target of as many objects as the limits at the start allow.
  A0 is the target of no A by role r; allowed: exactly 1.
    new.cd: association [1] A (a) -> (r) A [*]
    old.cd: no association with role r
",
            change: "association [1] A (a) -> (r) A [*] becomes association [0..1] A (a) -> (r) A [*].",
        },
    );
}

#[test]
fn rule_8_an_association_is_parted() {
    expect_one(
        "rule_8",
        "class A; composition A -> (r) A;",
        "class A; composition [0..3] A (q) <-> (r) A;",
        &One {
            objects: "1 object",
            site: "  A0:A {}\n  link A0 -> (r) A0;\n",
            why: "  Rule 8: Links of a two-way association, <-> or --, come in pairs, one each way.
  A0 has a link of role r to A0, but A0 has none of role q to A0.
    new.cd: composition [0..3] A (q) <-> (r) A [*]
    old.cd: composition [*] A (a) -> (r) A [*]
",
            change: "composition [0..3] A (q) <-> (r) A [*] becomes composition [*] A (q) -> (r) A [*] and association [0..3] A (q) <- (r) A [*].",
        },
    );
    expect_one(
        "rule_8_plain",
        "class A; association A (q) <- (r) A;",
        "class A; association [0..3] A (q) -- (r) A;",
        &One {
            objects: "1 object",
            site: "  A0:A {}\n  link A0 -> (q) A0;\n",
            why: "  Rule 8: Links of a two-way association, <-> or --, come in pairs, one each way.
  A0 has a link of role q to A0, but A0 has none of role r to A0.
    new.cd: association [0..3] A (q) -- (r) A [*]
    old.cd: association [*] A (q) <- (r) A [*]
",
            change: "association [0..3] A (q) -- (r) A [*] becomes association [*] A (q) -> (r) A [*] and association [0..3] A (q) <- (r) A [*].",
        },
    );
}

#[test]
fn rule_9_a_composition_becomes_an_association() {
    expect_one(
        "rule_9",
        "class X; class G; composition X -> (x) X [0..1]; association G -> (y) X;",
        "class X; class G; composition X -> (x) X [0..1]; composition G -> (y) X;",
        &One {
            objects: "2 objects",
            site: "  X0:X {}\n  G0:G {}\n  link X0 -> (x) X0;\n  link G0 -> (y) X0;\n",
            why: "  Rule 9: An object is part of at most one whole, over all compositions.
  X0 is part of 2 wholes: X0 by role x, G0 by role y.
    new.cd: composition [*] X (x) -> (x) X [0..1]
    new.cd: composition [*] G (g) -> (y) X [*]
    old.cd: composition [*] X (x) -> (x) X [0..1]
    old.cd: association [*] G (g) -> (y) X [*]
",
            change:
                "composition [*] G (g) -> (y) X [*] becomes association [*] G (g) -> (y) X [*].",
        },
    );
}

/// The changes for a pair, by which new allows all that old does.
fn expect_changes(test: &str, old: &str, new: &str, changes: &[&str]) {
    let answer = folder(test, old, new).answer(1, "compare old.cd new.cd --all --json --bound 3");
    let object = read(&answer);
    let list = object.get("changes");
    let found: Vec<&str> = (0..list.len()).map(|i| list.at(i).text()).collect();
    assert_eq!(found, changes, "{test}");
    assert_eq!(object.get("complete"), &Value::Bool(true), "{test}");
}

#[test]
fn types_stand_below_others_as_in_old() {
    expect_changes(
        "below",
        "class B; class M extends B; class A extends M; class C; association B -> (r) C;",
        "class B; class M; class A extends M; class C; association B -> (r) C;",
        &["class M becomes class M extends B."],
    );
    expect_changes(
        "not_below",
        "class B {V x;} class A;",
        "class B {V x;} class A extends B;",
        &["class A extends B becomes class A."],
    );
    expect_changes(
        "below_another",
        "abstract class Q; abstract class P extends Q {V a;} class X extends Q;",
        "abstract class Q; abstract class P extends Q {V a;} class X extends P;",
        &["class X extends P becomes class X extends Q."],
    );
    expect_changes(
        "below_again",
        "abstract class B; class A extends B; class E extends B; class T; association B -> (r) T;",
        "class A; class E; class T;",
        &[
            "abstract class B is added.",
            "class A becomes class A extends B.",
            "class E becomes class E extends B.",
            "association [*] B (b) -> (r) T [*] is added.",
        ],
    );
}

#[test]
fn attributes_stand_where_old_has_them() {
    expect_changes(
        "moved",
        "class B; class A extends B {V x;}",
        "class B {V x;} class A extends B;",
        &["V x; in class B is taken out.", "V x; in class A is added."],
    );
    expect_changes(
        "two_value_types",
        "class B {T x;} class A {V x;}",
        "class C {V x;} class A extends C; class B extends C;",
        &[
            "V x; in class C is taken out.",
            "V x; in class A is added.",
            "enum T is added.",
            "T x; in class B is added.",
        ],
    );
    expect_changes(
        "clash",
        "abstract class B {V x;} class A extends B;",
        "abstract class B {V x;} class A extends B {W x;}",
        &["W x; in class A becomes V x; in class A."],
    );
    expect_changes(
        "too_many_constants",
        "enum S {a, b;} class A {S x;}",
        "enum S {c1, c2, c3, c4, c5, c6, c7;} class A {S x;}",
        &["enum S {c1, c2, c3, c4, c5, c6, c7;} becomes enum S {c1, c2, c3, c4, c5, c6, a, b;}."],
    );
}

#[test]
fn ends_become_wider_or_associations_go() {
    let types = "abstract class B; class A extends B; class E extends B; class T;";
    expect_changes(
        "wider_end",
        &format!("{types} association T -> (r) B;"),
        &format!("{types} association T -> (r) A;"),
        &["association [*] T (t) -> (r) A [*] becomes association [*] T (t) -> (r) B [*]."],
    );
    expect_changes(
        "wider_start",
        &format!("{types} association B -> (r) T;"),
        &format!("{types} association A (b) -> (r) T;"),
        &["association [*] A (b) -> (r) T [*] becomes association [*] B (b) -> (r) T [*]."],
    );
    expect_changes(
        "one_too_many",
        "class A; class B; class C; association A (x) <-> (r) B;",
        "class A; class B; class C; association A (x) <-> (r) B; association A (y) <-> (r) C;",
        &["association [*] A (y) <-> (r) C [*] becomes association [*] A (y) <- (r) C [*]."],
    );
    expect_changes(
        "back_too",
        "class A; class B; association A (q) <-> (r) B;",
        "class A; class B; association A (q) -> (r) B;",
        &["association [*] B (r) -> (q) A [*] is added."],
    );
}

#[test]
fn a_diagram_that_is_full_gets_lines_replaced() {
    let associations = |roles: &str| {
        let roles: Vec<&str> = roles.split(' ').collect();
        assert_eq!(roles.len(), 16);
        let one = |role: &&str| format!("association A -> ({role}) A;");
        format!("class A; {}", roles.iter().map(one).collect::<String>())
    };
    expect_changes(
        "full",
        &associations("a b c d e f g h i j k l m n o p"),
        &associations("a b c d e f g h i j k l m n o q"),
        &["association [*] A (a) -> (q) A [*] becomes association [*] A (a) -> (p) A [*]."],
    );
    let classes = |front: &str| {
        let others = (0..22).map(|i| format!("class C{i};"));
        format!("{front} {}", others.collect::<String>())
    };
    expect_changes(
        "full_of_types",
        &classes("class A {V x;} class Card {V y;}"),
        &classes("class B {V x;} class Tray {V y;}"),
        &["class B becomes class A.", "class Tray becomes class Card."],
    );
}

#[test]
fn several_reasons_are_told_in_a_row() {
    let folder = folder(
        "several",
        "abstract class B; class Foo extends B; class A; association [0..1] A -> (r) A [0..1];",
        "abstract class B {V x;} class A; association [1] A -> (r) A [1];",
    );
    let answer = folder.answer(1, "compare old.cd new.cd --all --bound 3 --out site.record");
    let mut rest = answer.as_str();
    for place in [
        "Differences: 4 reasons why new.cd forbids a site of at most 3 objects that old.cd allows.\n",
        "\n1. A smallest site, of 1 object:\n",
        "\nWhy new.cd forbids it:\n  Rule 1: ",
        "\nChange: class Foo extends B is added.\n",
        "\n2. A smallest site that is left, of 1 object:\n",
        "\nWhy new.cd still forbids it with the changes above:\n  Rule 3: ",
        "\n3. A smallest site that is left, of 1 object:\n",
        "\n4. A smallest site that is left, of 1 object:\n",
        "\nWhy new.cd forbids it, besides rule 6, which the changes above settle:\n  Rule 7: ",
        "\nChange: association [1] A (a) -> (r) A [0..1] becomes association [0..1] A (a) -> (r) A [0..1].\n",
        "\nWith these 3 changes new.cd would allow every site of at most 3 objects that old.cd allows:\n",
        "  1. class Foo extends B is added.\n  2. V x; in abstract class B is taken out.\n",
        "  3. association [1] A (a) -> (r) A [1] becomes association [0..1] A (a) -> (r) A [0..1].\n",
        "\nThe site as a record file: site.record (",
    ] {
        let at = rest.find(place);
        rest = &rest[at.unwrap_or_else(|| panic!("{place:?} in {rest:?}"))..];
    }
    folder.answer(0, "judge old.cd site.record");
    folder.answer(1, "judge new.cd site.record");
}

#[test]
fn all_reasons_for_scripts() {
    let folder = folder(
        "json",
        "abstract class B; class Foo extends B;",
        "abstract class B {V x;}",
    );
    let object = read(&folder.answer(1, "compare old.cd new.cd --all --json"));
    assert_eq!(object.get("result").text(), "difference");
    let differences = object.get("differences");
    assert_eq!(differences.len(), 2);
    let (one, two) = (differences.at(0), differences.at(1));
    for member in ["objects", "witness", "reason"] {
        assert_eq!(object.get(member), one.get(member), "{member}");
    }
    assert_eq!(one.get("reason").get("rule").number(), 1);
    assert_eq!(one.get("besides"), &Value::Null);
    assert_eq!(one.get("with_changes"), &Value::Bool(false));
    assert_eq!(two.get("reason").get("rule").number(), 3);
    assert_eq!(two.get("besides").number(), 1);
    assert_eq!(two.get("with_changes"), &Value::Bool(true));
    for (difference, at) in [(one, 0), (two, 1)] {
        assert_eq!(difference.get("change"), object.get("changes").at(at));
    }
    assert_eq!(object.get("complete"), &Value::Bool(true));
    let object = read(&folder.answer(1, "compare old.cd new.cd --json"));
    for member in ["differences", "changes", "complete"] {
        assert_eq!(object.get(member), &Value::Null, "{member}");
    }
}

#[test]
fn a_list_that_may_not_be_complete_says_so() {
    let attributes: String = (0..32).map(|i| format!("V z{i}; ")).collect();
    let new = format!("class A; class Z {{ {attributes} }}");
    let folder = folder("too_large", "class A {V x;}", &new);
    let answer = folder.answer(1, "compare old.cd new.cd --all");
    assert!(answer.starts_with("Difference: at least 1 reason why new.cd forbids "));
    assert!(answer.ends_with(
        "\nChange: This program knows none.\n\n\
         By the changes that this program knows new.cd would have more parts than a diagram may \
         have; there may be further reasons.\n"
    ));
    let object = read(&folder.answer(1, "compare old.cd new.cd --all --json"));
    assert_eq!(object.get("complete"), &Value::Bool(false));
    assert_eq!(object.get("changes").len(), 0);
    assert_eq!(object.get("differences").at(0).get("change"), &Value::Null);
}

#[test]
fn without_a_difference_all_is_as_without() {
    let folder = sites::folder("all_reasons_none");
    for line in [
        "compare q.diagram p.diagram",
        "compare q.diagram p.diagram --json",
    ] {
        let without = folder.answer(0, line);
        assert_eq!(folder.answer(0, &format!("{line} --all")), without);
    }
}

/// The sentences of the changes for an example, up to 8 objects.
fn changes_of_example(name: &str, old: &str, new: &str) -> Vec<String> {
    let root = concat!(env!("CARGO_MANIFEST_DIR"), "/../../examples");
    let path = |file: &str| format!("{root}/{name}/{file}");
    let folder = Folder::of(&format!("all_reasons_{name}"));
    let ran = folder.run(&["compare", &path(old), &path(new), "--all", "--json"]);
    assert_eq!((ran.status, ran.err.as_str()), (1, ""), "{name}");
    let object = read(&ran.out);
    assert_eq!(object.get("complete"), &Value::Bool(true), "{name}");
    let list = object.get("changes");
    (0..list.len())
        .map(|i| list.at(i).text().to_string())
        .collect()
}

#[test]
fn the_examples() {
    assert_eq!(
        changes_of_example("line_cards", "old.cd", "new.cd"),
        ["composition [1] Card (card) -> (lines) Line [1..32] becomes composition [1] Card (card) -> (lines) Line [0..32]."]
    );
    assert_eq!(
        changes_of_example("card_states", "old.cd", "new.diagram"),
        ["enum State {spare, working, testing;} becomes enum State {spare, working, testing, blocked;}."]
    );
    assert_eq!(
        changes_of_example("line_groups", "old.diagram", "new.diagram"),
        ["composition [1] Exchange (exchange) -> (groups) Group [1] becomes composition [1] Exchange (exchange) -> (groups) Group [1..3]."]
    );
    let families = changes_of_example("new_families", "new.cd", "old.cd");
    for sentence in [
        "class ClockCard extends Card is added.",
        "composition [1] Shelf (shelf) -> (cards) Card [0..4] becomes composition [1] Shelf (shelf) -> (cards) Card [0..8].",
        "composition [1] TrunkCard (trunkCard) -> (trunks) Trunk [1..4] becomes composition [1] TrunkCard (trunkCard) -> (trunks) Trunk [*].",
    ] {
        assert!(families.iter().any(|s| s == sentence), "{families:?}");
    }
}

#[test]
fn diagram_files_as_well_as_texts() {
    let folder = sites::folder("all_reasons_files");
    let answer = folder.answer(1, "compare s.diagram q.diagram --all");
    let list = answer.split("that s.diagram allows:\n").nth(1);
    assert_eq!(
        list.expect("the changes"),
        "  1. composition [1] Shelf (shelf) -> (cards) Card [0..2] becomes composition [0..1] Shelf (shelf) -> (cards) Card [0..4].\n"
    );
}

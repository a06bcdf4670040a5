//! What "no difference" says and does not say, and comparisons within a time.

mod common;

use common::json::{read, Value};
use common::{sites, Folder};

/// Diagrams that allow no small site, or none at all.
fn folder(test: &str) -> Folder {
    let folder = sites::folder(test);
    folder.put(
        "large.cd",
        b"classdiagram large { <<singleton>> class Shelf; class Card;
            composition [1] Shelf -> (cards) Card [14]; }",
    );
    folder.put(
        "seven.cd",
        b"classdiagram seven { <<singleton>> class Shelf; class Card;
            composition [1] Shelf -> (cards) Card [6]; }",
    );
    folder.put(
        "clash.cd",
        b"classdiagram clash { enum Red {r;} enum Blue {b;} class Paint { Red colour; }
            class Cover { Blue colour; } <<singleton>> class Card extends Paint, Cover; }",
    );
    folder
}

/// The one object that a run prints.
fn object(folder: &Folder, status: i32, line: &str) -> Value {
    let ran = folder.line(line);
    assert_eq!((ran.status, ran.err.as_str()), (status, ""), "{line}");
    read(&ran.out)
}

#[test]
fn nothing_is_compared_where_old_allows_no_site() {
    let folder = folder("no_site");
    for old in ["large.cd", "clash.cd"] {
        for new in ["e.diagram", "z.diagram", "p.diagram", old] {
            let answer = folder.answer(0, &format!("compare {old} {new}"));
            let first =
                format!("Nothing was compared: {old} allows no site of at most 8 objects.\n");
            assert!(answer.starts_with(&first), "{answer}");
            let object = object(&folder, 0, &format!("compare {old} {new} --json"));
            assert_eq!(object.get("old_smallest_site"), &Value::Null);
            assert_eq!(object.get("result").text(), "no difference");
        }
    }
    let answer = folder.answer(0, "compare seven.cd e.diagram --bound 6");
    assert!(
        answer.starts_with("Nothing was compared: seven.cd allows no site of at most 6 objects.\n")
    );
    let answer = folder.answer(0, "compare z.diagram e.diagram --bound 0");
    assert!(answer.starts_with("Nothing was compared: z.diagram allows no site without objects.\n"));
}

#[test]
fn no_difference_tells_the_smallest_site_of_old() {
    let folder = folder("smallest_site");
    for (old, bound, words, number) in [
        ("p.diagram", 8, "no objects", 0),
        ("z.diagram", 1, "1 object", 1),
        ("seven.cd", 7, "7 objects", 7),
        ("seven.cd", 8, "7 objects", 7),
    ] {
        let line = format!("compare {old} {old} --bound {bound}");
        let answer = folder.answer(0, &line);
        let more = match bound {
            1 => "Sites of more than 1 object were not looked at.".to_string(),
            _ => format!("Sites of more than {bound} objects were not looked at."),
        };
        let second = format!("The smallest site that {old} allows has {words}. {more}");
        assert_eq!(answer.lines().nth(1), Some(second.as_str()), "{line}");
        let object = object(&folder, 0, &format!("{line} --json"));
        assert_eq!(object.get("old_smallest_site").number(), number, "{line}");
        assert_eq!(object.get("settled_bound").number(), bound, "{line}");
    }
}

#[test]
fn a_difference_tells_it_to_scripts() {
    let folder = folder("smallest_of_difference");
    for (line, objects, smallest) in [
        ("compare p.diagram q.diagram --json", 4, 0),
        ("compare e.diagram z.diagram --json", 0, 0),
        ("compare z.diagram e.diagram --json", 1, 1),
        ("compare seven.cd p.diagram --json", 7, 7),
    ] {
        let object = object(&folder, 1, line);
        assert_eq!(object.get("objects").number(), objects, "{line}");
        assert_eq!(object.get("old_smallest_site").number(), smallest, "{line}");
    }
}

#[test]
fn a_class_named_as_the_one_that_no_site_has() {
    let folder = Folder::of("none_named");
    let types: String = (0..24).map(|i| format!("class None{i};")).collect();
    folder.put("old", format!("classdiagram d {{ {types} }}").as_bytes());
    folder.put("upper", b"classdiagram d { <<singleton>> class NONE0; }");
    let answer = folder.answer(0, "compare old old --bound 1");
    assert!(answer.contains("The smallest site that old allows has no objects."));
    let answer = folder.answer(0, "compare upper upper --bound 1");
    assert!(answer.contains("The smallest site that upper allows has 1 object."));
}

#[test]
fn a_time_limit_that_is_up_leaves_the_question_open() {
    let folder = folder("time_is_up");
    let told = folder.complaint("compare p.diagram q.diagram --timeout 0.000000001");
    assert!(told.starts_with("corfynnog: Not settled: the time was up before an answer.\n"));
    assert!(told.contains("\n  No bound is settled yet.\n"), "{told}");
    assert!(told.contains("\n  to do: "));
    let line = "compare p.diagram q.diagram --timeout 0.000000001 --json";
    let object = object(&folder, 2, line);
    assert_eq!(object.get("result").text(), "not settled");
    assert_eq!(object.get("settled_bound"), &Value::Null);
    assert_eq!(object.get("old_smallest_site"), &Value::Null);
}

#[test]
fn a_time_limit_that_is_not_reached_changes_nothing() {
    let folder = folder("time_is_left");
    for (line, status) in [
        ("compare p.diagram q.diagram", 1),
        ("compare q.diagram p.diagram", 0),
    ] {
        let limited = format!("{line} --timeout 3600");
        assert_eq!(folder.answer(status, line), folder.answer(status, &limited));
    }
}

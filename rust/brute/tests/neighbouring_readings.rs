//! Cases that set a reading of the rules apart from its neighbours and that the table of worked
//! cases does not have.

use brute::{
    compare, compare_within, evaluate, judge, Association, Diagram, End, Form, Kind, Limits, Link,
    Record, TooLarge, Type,
};

fn name(text: &str) -> Vec<u8> {
    text.as_bytes().to_vec()
}

fn class(text: &str) -> Type {
    Type {
        kind: Kind::Class,
        name: name(text),
        parents: Vec::new(),
    }
}

/// An end without limits.
fn end(type_name: &str, role: &str) -> End {
    End {
        type_name: name(type_name),
        limits: Limits { low: 0, up: None },
        role: name(role),
    }
}

fn association(form: Form, arrow: u8, left: End, right: End) -> Association {
    Association {
        form,
        arrow,
        left,
        right,
    }
}

fn diagram(types: &[&str], associations: Vec<Association>) -> Diagram {
    Diagram {
        types: types.iter().map(|text| class(text)).collect(),
        associations,
        ..Diagram::default()
    }
}

fn record(objects: &[&str], links: &[(usize, &str, usize)]) -> Record {
    let link = |&(from, role, to): &(usize, &str, usize)| Link {
        from,
        role: name(role),
        to,
    };
    Record {
        objects: objects.iter().map(|text| name(text)).collect(),
        links: links.iter().map(link).collect(),
        ..Record::default()
    }
}

#[test]
fn rule_5_looks_at_the_target_too() {
    let arrow = association(Form::Association, 1, end("L", "l"), end("R", "r"));
    let under = diagram(&["L", "R"], vec![arrow]);
    assert_eq!(judge(&under, &record(&["L", "L"], &[(0, "r", 1)])), 5);
    assert_eq!(judge(&under, &record(&["L", "R"], &[(0, "r", 1)])), 0);
}

#[test]
fn rule_5_is_kept_where_one_of_two_associations_permits_and_rule_6_is_not() {
    let associations = ["R", "T"]
        .map(|right| association(Form::Association, 1, end("L", "l"), end(right, "r")))
        .to_vec();
    let under = diagram(&["L", "R", "T"], associations);
    assert_eq!(judge(&under, &record(&["L", "T"], &[(0, "r", 1)])), 6);
}

#[test]
fn wholes_count_by_the_part_too() {
    let associations = vec![
        association(Form::Composition, 1, end("F", "f"), end("X", "x")),
        association(Form::Composition, 1, end("G", "g"), end("Y", "y")),
    ];
    let under = diagram(&["F", "G", "X", "Y"], associations);
    let site = record(&["F", "G", "X"], &[(0, "x", 2), (1, "y", 2)]);
    // Kinds 1 and 3 of the first hold, and so does its kind 6: X is no Y, and has one whole.
    assert_eq!(evaluate(&under, &site), 3);
    assert_eq!(judge(&under, &site), 5);
}

#[test]
fn no_arrow_has_no_rule_7() {
    let mut left = end("L", "l");
    left.limits = Limits {
        low: 1,
        up: Some(1),
    };
    for arrow in [3, 4] {
        let both = association(Form::Association, arrow, left.clone(), end("R", "r"));
        let under = diagram(&["L", "R"], vec![both]);
        // Rule 6 asks for the l link of the R; nobody counts the sources of its r links.
        assert_eq!(judge(&under, &record(&["R"], &[])), 6);
        assert_eq!(judge(&under, &record(&["L"], &[])), 0);
    }
}

#[test]
fn mirrors_are_asked_of_pairs_of_instances_only() {
    for arrow in [3, 4] {
        let both = association(Form::Association, arrow, end("L", "l"), end("R", "r"));
        let other = association(Form::Association, 1, end("M", "m"), end("T", "r"));
        let mut under = diagram(&["L", "R", "M", "T", "S"], vec![both, other]);
        under.types[4].parents.push(name("L"));
        // M and T are no instances of the ends; S is one by its parent.
        assert_eq!(judge(&under, &record(&["M", "T"], &[(0, "r", 1)])), 0);
        assert_eq!(judge(&under, &record(&["S", "R"], &[(0, "r", 1)])), 8);
        assert_eq!(judge(&under, &record(&["S", "R"], &[(1, "l", 0)])), 8);
        let mirrored = record(&["S", "R"], &[(0, "r", 1), (1, "l", 0)]);
        assert_eq!(judge(&under, &mirrored), 0);
    }
}

#[test]
fn roles_that_mirrors_join_are_searched_together() {
    for arrows in [[3, 4], [4, 3], [4, 4]] {
        let chain = |up| {
            let mut last = end("N", "z");
            last.limits.up = up;
            let associations = vec![
                association(Form::Association, arrows[0], end("N", "x"), end("N", "y")),
                association(Form::Association, arrows[1], end("N", "y"), last),
            ];
            diagram(&["N"], associations)
        };
        // An x link needs a y link back, and that a z link back.
        let all = record(&["N"], &[(0, "x", 0), (0, "y", 0), (0, "z", 0)]);
        assert_eq!(compare(&chain(None), &chain(Some(0)), 2), Some(all));
        assert_eq!(compare(&chain(Some(0)), &chain(None), 2), None);
    }
}

#[test]
fn a_budget_runs_out_or_changes_nothing() {
    let free = association(Form::Association, 4, end("N", "l"), end("N", "r"));
    let mut limited = free.clone();
    limited.right.limits.up = Some(1);
    let (old, new) = (diagram(&["N"], vec![free]), diagram(&["N"], vec![limited]));
    assert_eq!(compare_within(&old, &new, 2, 20), Err(TooLarge));
    let found = compare_within(&old, &new, 2, 1_000_000);
    assert_eq!(found, Ok(compare(&old, &new, 2)));
    assert_eq!(found.unwrap().map(|r| r.objects.len()), Some(2));
    assert_eq!(compare_within(&new, &old, 2, 20), Err(TooLarge));
    assert_eq!(compare_within(&new, &old, 2, 1_000_000), Ok(None));
}

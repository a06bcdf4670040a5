//! What the texts promise: the same text for the same seed, every form that the grammar has, and
//! the diagram that was asked for.

use generators::diagrams::{diagram, Size, SMALL};
use generators::limits::full;
use generators::text_damage::{damaged_bytes, damaged_tokens};
use generators::text_layout::laid_out;
use generators::texts::{faulty_text, text};
use generators::{DiagramPlan, Random};

/// A size with room for every kind of part.
const LARGE: Size = Size {
    value_types: 6,
    types: 12,
    attributes: 16,
    associations: 12,
};

/// The tokens of a text with one blank between them, for looking at.
fn spaced(tokens: &[Vec<u8>]) -> String {
    String::from_utf8_lossy(&tokens.join(&b' ')).into_owned()
}

#[test]
fn a_seed_gives_the_same_text_again() {
    for seed in 0..50 {
        let make = || {
            let mut random = Random::new(seed);
            let plan = diagram(&mut random, SMALL);
            let written = text(&mut random, &plan);
            let whole = laid_out(&mut random, &written.tokens);
            let tokens = damaged_tokens(&mut random, &written.tokens);
            let bytes = damaged_bytes(&mut random, &whole);
            let faulty = faulty_text(&mut random, &plan);
            (written, whole, tokens, bytes, faulty)
        };
        assert_eq!(make(), make());
    }
}

#[test]
fn every_form_comes() {
    let mut random = Random::new(1);
    let mut all = String::new();
    for _ in 0..300 {
        let plan = diagram(&mut random, LARGE);
        all += &spaced(&text(&mut random, &plan).tokens);
        all += " ";
    }
    let forms = [
        "{ association",
        "; association",
        "} composition",
        "{ enum",
        "; class",
        "{ interface",
        "abstract class",
        "<< singleton >> class",
        "{ }",
        "} }",
        "[ * ]",
        "[ 0 .. * ]",
        "[ 1 .. 1 ]",
        "[ 1 ]",
        "A -> (",
        ") -> A",
        "A <- (",
        "A <-> (",
        "A -- (",
        "association A (",
        ") A ;",
        "A [",
        "( a )",
        "extends A , B",
        "extends B , A",
        "implements",
        " 00",
        "[ 256",
        ".. 4000 ]",
    ];
    for form in forms {
        assert!(all.contains(form), "'{form}' never comes");
    }
}

#[test]
fn every_layout_comes() {
    let mut random = Random::new(2);
    let tokens = text(&mut random, &full(2)).tokens;
    let texts: Vec<Vec<u8>> = (0..20).map(|_| laid_out(&mut random, &tokens)).collect();
    let together = tokens.concat();
    let blanks = |text: &[u8]| text.iter().filter(|byte| b" \t\r\n".contains(byte)).count();
    for text in &texts {
        let bare: Vec<u8> = text
            .iter()
            .copied()
            .filter(|b| !b" \t\r\n".contains(b))
            .collect();
        assert_eq!(bare, together);
    }
    for byte in b" \t\r\n" {
        assert!(texts.iter().any(|text| text.contains(byte)));
    }
    assert!(texts.iter().any(|text| blanks(text) < tokens.len() / 2));
    assert!(texts.iter().any(|text| blanks(text) > tokens.len()));
}

/// The names of the types and, of each, the names of its parents.
fn families(plan: &DiagramPlan) -> Vec<(Vec<u8>, Vec<Vec<u8>>)> {
    let name = |of: usize| plan.types[of].name.clone();
    let parents = |of: &generators::Type| -> Vec<Vec<u8>> {
        let mut names: Vec<_> = of.parents.iter().map(|p| name(usize::from(*p))).collect();
        names.sort();
        names
    };
    let mut families: Vec<_> = plan
        .types
        .iter()
        .map(|of| (of.name.clone(), parents(of)))
        .collect();
    families.sort();
    families
}

#[test]
fn a_text_keeps_all_but_the_attributes_of_interfaces() {
    let mut moved = 0;
    for seed in 0..200 {
        let mut random = Random::new(seed);
        let plan = diagram(&mut random, LARGE);
        let written = text(&mut random, &plan).plan;
        assert_eq!(families(&written), families(&plan), "seed {seed}");
        assert_eq!(written.value_types.len(), plan.value_types.len());
        assert_eq!(written.associations.len(), plan.associations.len());
        let owned = |a: &&generators::Attribute| plan.types[usize::from(a.owner)].kind != 2;
        let kept = plan.attributes.iter().filter(owned).count();
        assert_eq!(written.attributes.len(), kept, "seed {seed}");
        moved += usize::from(written.types != plan.types);
    }
    assert!(moved > 100, "only {moved} texts have another order");
}

#[test]
fn damage_changes_most_texts() {
    let mut random = Random::new(3);
    let tokens = text(&mut random, &full(2)).tokens;
    let whole = laid_out(&mut random, &tokens);
    let by_token = (0..100).filter(|_| damaged_tokens(&mut random, &tokens) != tokens);
    assert!(by_token.count() >= 80);
    let by_byte = (0..100).filter(|_| damaged_bytes(&mut random, &whole) != whole);
    assert!(by_byte.count() >= 80);
}

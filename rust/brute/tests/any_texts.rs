//! Texts of any bytes and of any length: the reader always answers, with one of its numbers.

use brute::{read_text, write_diagram, Edition};
use generators::diagrams::{diagram, SMALL};
use generators::limits::full;
use generators::text_damage::{damaged_bytes, damaged_tokens};
use generators::text_layout::laid_out;
use generators::texts::text;
use generators::Random;

/// The refusal of a text, 0 where it is accepted; no others may come.
fn number(text: &[u8]) -> u8 {
    let number = read_text(text).err().unwrap_or(0);
    assert!([0, 4, 5, 8, 23, 24].contains(&number), "{number}");
    number
}

/// Declarations one behind the other, inside the wrapper.
fn wrapped(declarations: &str) -> Vec<u8> {
    format!("classdiagram d {{{declarations}}}").into_bytes()
}

#[test]
fn bytes_without_any_order() {
    let mut random = Random::new(1);
    for _ in 0..20_000 {
        let length = random.below(40);
        let bytes: Vec<u8> = (0..length).map(|_| random.byte()).collect();
        assert_eq!(number(&bytes), 23);
    }
}

#[test]
fn texts_damaged_many_times() {
    let mut random = Random::new(2);
    for _ in 0..2_000 {
        let plan = diagram(&mut random, SMALL);
        let mut tokens = text(&mut random, &plan).tokens;
        let mut bytes = laid_out(&mut random, &tokens);
        for _ in 0..6 {
            tokens = damaged_tokens(&mut random, &tokens);
            number(&laid_out(&mut random, &tokens));
            bytes = damaged_bytes(&mut random, &bytes);
            number(&bytes);
        }
    }
}

#[test]
fn texts_cut_off_anywhere() {
    let mut random = Random::new(3);
    let tokens = text(&mut random, &full(2)).tokens;
    let whole = tokens.join(&b' ');
    assert_eq!(number(&whole), 0);
    for end in 0..whole.len() {
        assert_eq!(number(&whole[..end]), 23);
    }
}

#[test]
fn the_largest_diagram() {
    let mut random = Random::new(4);
    let written = text(&mut random, &full(2));
    let diagram = read_text(&laid_out(&mut random, &written.tokens)).expect("it is accepted");
    let file = write_diagram(Edition::Two, &diagram);
    assert_eq!(file, written.plan.file());
    assert_eq!(file.len(), 3_990);
}

#[test]
fn long_texts() {
    let class = |at: usize| match at {
        0 => "class C0;".to_string(),
        _ => format!("class C{at} extends C{} {{ V{at} a; }}", at - 1),
    };
    let classes: String = (0..100_000).map(class).collect();
    assert_eq!(number(&wrapped(&classes)), 4);
    let ends = "association C99999 -> C0;".repeat(50_000);
    assert_eq!(number(&wrapped(&format!("{ends}{classes}"))), 4);
    assert_eq!(
        number(&wrapped(&format!("{ends}{classes}association C0 -> V;"))),
        24
    );
    assert_eq!(
        number(&wrapped(&format!("class B extends C9;{classes}"))),
        24
    );
    assert_eq!(number(&wrapped(&format!("{ends}{classes};"))), 23);
    assert_eq!(number(&wrapped(&"{".repeat(1_000_000))), 23);
    let constants = ["k"; 100_000].join(",");
    assert_eq!(number(&wrapped(&format!("enum E {{{constants};}}"))), 4);
    let parents = ["A"; 100_000].join(",");
    assert_eq!(
        number(&wrapped(&format!("class A; class B extends {parents};"))),
        4
    );
    assert_eq!(
        number(&[b"classdiagram d{}", &[b'\n'; 2_000_000][..]].concat()),
        0
    );
}

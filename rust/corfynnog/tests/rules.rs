//! docs/RULES.md: its diagrams, its sites and its messages.

mod common;

use std::fs;
use std::path::Path;

use common::Folder;

/// The text of the document.
fn document() -> String {
    let path = Path::new(env!("CARGO_MANIFEST_DIR")).join("../../docs/RULES.md");
    fs::read_to_string(path).expect("docs/RULES.md")
}

/// The section of a rule.
fn section(document: &str, rule: u8) -> &str {
    let heading = format!("Rule {rule}: ");
    let mut sections = document.split("\n## ");
    sections
        .find(|section| section.starts_with(&heading))
        .unwrap_or_else(|| panic!("rule {rule} has a section"))
}

/// A fenced block, and the last line before it that is not empty.
struct Block<'a> {
    before: &'a str,
    text: &'a str,
}

impl<'a> Block<'a> {
    /// The name of the diagram or site that it declares with this word.
    fn declares(&self, word: &str) -> Option<&'a str> {
        let mut words = self.text.split_whitespace();
        words.next().filter(|first| *first == word)?;
        words.next()
    }

    /// The rule that is announced before a site, 0 for a legal one.
    fn announced(&self) -> u8 {
        if self.before == "Legal:" {
            return 0;
        }
        let rule = self.before.strip_prefix("Illegal, rule ");
        let rule = rule.and_then(|rest| rest.strip_suffix(':')?.parse().ok());
        rule.unwrap_or_else(|| panic!("no verdict before {:?}", self.text))
    }
}

/// The fenced blocks of a text, in order.
fn blocks(text: &str) -> Vec<Block<'_>> {
    let parts: Vec<&str> = text.split("```\n").collect();
    assert_eq!(parts.len() % 2, 1, "every block has an end");
    let pairs = parts.chunks_exact(2);
    pairs
        .map(|pair| Block {
            before: pair[0].trim_end().lines().last().unwrap_or(""),
            text: pair[1],
        })
        .collect()
}

/// A folder with the document's diagrams and sites, each under its own name.
fn folder(test: &str, document: &str) -> Folder {
    let folder = Folder::of(test);
    for block in blocks(document) {
        for (word, suffix) in [("classdiagram", "cd"), ("objectdiagram", "od")] {
            if let Some(name) = block.declares(word) {
                let file = format!("{name}.{suffix}");
                assert_eq!(folder.get(&file), None, "{file} stands twice");
                folder.put(&file, block.text.as_bytes());
            }
        }
    }
    folder
}

/// The rule that judging a site names, with the rule's sentence; none where the site is legal.
fn judged(folder: &Folder, diagram: &str, site: &str) -> Option<(u8, String)> {
    let ran = folder.line(&format!("judge {diagram}.cd {site}.od"));
    assert_eq!(ran.err, "", "{site}");
    let mut lines = ran.out.lines();
    let told = lines.find_map(|line| line.strip_prefix("  Rule "));
    let rule = told.map(|told| {
        let (number, sentence) = told.split_once(": ").expect("a sentence");
        (number.parse().expect("a number"), sentence.to_string())
    });
    assert_eq!(ran.status, i32::from(rule.is_some()), "{site}");
    rule
}

#[test]
fn every_rule_has_legal_and_illegal_sites() {
    let document = document();
    let folder = folder("rules_sites", &document);
    for rule in 1..=9 {
        let section = section(&document, rule);
        let (mut diagram, mut legal, mut illegal) = ("", 0, 0);
        for block in blocks(section) {
            diagram = block.declares("classdiagram").unwrap_or(diagram);
            let Some(site) = block.declares("objectdiagram") else {
                continue;
            };
            let told = judged(&folder, diagram, site);
            let number = told.as_ref().map_or(0, |(number, _)| *number);
            assert_eq!(number, block.announced(), "{site}");
            let Some((_, sentence)) = told else {
                legal += 1;
                continue;
            };
            illegal += 1;
            assert_eq!(number, rule, "{site} stands in the section of its rule");
            assert!(section.contains(&format!("\n> {sentence}\n")), "{sentence}");
        }
        assert!(legal > 0 && illegal > 0, "rule {rule}");
    }
}

#[test]
fn every_message_is_what_the_program_says() {
    let document = document();
    let folder = folder("rules_messages", &document);
    let blocks = blocks(&document);
    let sites = blocks
        .iter()
        .filter(|b| b.declares("objectdiagram").is_some());
    let illegal = sites.filter(|site| site.announced() != 0).count();
    let mut messages = 0;
    for block in &blocks {
        if let Some(line) = block.text.strip_prefix("$ corfynnog ") {
            let (line, message) = line.split_once('\n').expect("a message");
            assert_eq!(folder.line(line).out, message, "{line}");
            messages += usize::from(message.starts_with("Illegal: "));
        }
    }
    assert_eq!(messages, illegal, "a message for each illegal site");
}

#[test]
fn every_refusal_has_a_row() {
    let document = document();
    let numbers = document.lines().filter_map(|line| {
        let (number, _) = line.strip_prefix("| ")?.split_once(" | ")?;
        number.parse().ok()
    });
    let numbers: Vec<u8> = numbers.collect();
    let expected: Vec<u8> = (1..=10).chain(20..=25).collect();
    assert_eq!(numbers, expected);
}

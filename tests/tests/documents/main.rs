//! What the documents say is held to the repository: files and names that they cite exist, the plan files taken apart in FORMAT.md are those files, its limits
//! and refusals are the header's, CALLS.md has every call, and commands print what is shown. Examples in Rust are run as examples in documentation.

mod calls;
mod changes;
#[cfg(feature = "proved")]
mod commands;
mod format;
mod links;
mod readme;
#[cfg(feature = "proved")]
mod refusals;
mod review;

use std::collections::{BTreeMap, BTreeSet};
use std::path::{Path, PathBuf};

fn root() -> PathBuf {
    Path::new(env!("CARGO_MANIFEST_DIR")).join("..")
}

fn text(name: &str) -> String {
    std::fs::read_to_string(root().join(name)).unwrap_or_else(|error| panic!("{name}: {error}"))
}

/// The documents: those at the root, and all below `docs`.
fn documents() -> Vec<String> {
    let mut names = vec!["README.md".to_string(), "CONTRIBUTING.md".to_string()];
    for folder in ["docs", "docs/changes"] {
        let entries = std::fs::read_dir(root().join(folder)).expect("a folder");
        let files = entries.map(|entry| entry.expect("a file").file_name().into_string().expect("a name"));
        names.extend(files.filter(|name| name.ends_with(".md")).map(|name| format!("{folder}/{name}")));
    }
    names.sort();
    names
}

/// The fenced blocks of a kind, as lists of lines, and the text after each.
fn blocks<'a>(document: &'a str, kind: &str) -> Vec<(Vec<&'a str>, &'a str)> {
    let open = format!("\n```{kind}\n");
    let mut found = Vec::new();
    let mut rest = document;
    while let Some((_, after)) = rest.split_once(&open) {
        let (block, after) = after.split_once("\n```\n").expect("the block's end");
        found.push((block.lines().collect(), after));
        rest = after;
    }
    found
}

/// The cells of the first table of a text, without its head.
fn table(text: &str) -> Vec<Vec<&str>> {
    let rows = text.lines().skip_while(|line| !line.starts_with('|')).take_while(|line| line.starts_with('|'));
    rows.skip(2).map(|row| row.trim_matches('|').split('|').map(str::trim).collect()).collect()
}

/// What stands under a heading, up to the next of the same depth.
fn section<'a>(document: &'a str, heading: &str) -> &'a str {
    let (_, after) =
        document.split_once(&format!("\n{heading}\n")).unwrap_or_else(|| panic!("no section \"{heading}\""));
    after.split("\n## ").next().expect("a part")
}

/// What stands between backquotes, outside of fenced blocks.
fn quoted(document: &str) -> Vec<String> {
    let prose: Vec<&str> = document.split("```").step_by(2).collect();
    prose.join("\n").split('`').skip(1).step_by(2).map(str::to_string).collect()
}

/// The numbers of a list like "1 to 7, 10, 13 to 16".
fn numbers(list: &str) -> BTreeSet<u32> {
    let words: Vec<&str> = list.split(|c: char| !c.is_alphanumeric()).filter(|word| !word.is_empty()).collect();
    let mut found = BTreeSet::new();
    for (i, word) in words.iter().enumerate() {
        if let Ok(number) = word.parse::<u32>() {
            let from = match i.checked_sub(2).map(|j| (words[j].parse::<u32>(), words[i - 1])) {
                Some((Ok(from), "to")) => from,
                _ => number,
            };
            found.extend(from..=number);
        }
    }
    found
}

#[test]
fn numbers_of_a_list() {
    assert_eq!(numbers("1 to 3, 7 for both; 12"), BTreeSet::from([1, 2, 3, 7, 12]));
}

/// Whether a text has a word that is not a part of a longer one.
fn has_word(text: &str, word: &str) -> bool {
    let inside = |c: char| c.is_alphanumeric() || c == '_' || c == '-' || c == '\'';
    text.match_indices(word).any(|(i, _)| {
        let (before, after) = (text[..i].chars().next_back(), text[i + word.len()..].chars().next());
        !before.is_some_and(inside) && !after.is_some_and(inside)
    })
}

/// GUIDE.md has every crate of the list, in its layers' tables, and no other.
#[test]
fn the_guide_has_every_crate() {
    let (guide, list) = (text("docs/GUIDE.md"), text("crates.txt"));
    let names = list.lines().filter(|line| !line.starts_with('#')).filter_map(|line| line.split_once(':'));
    let listed: BTreeSet<&str> = names.map(|(name, _)| name.trim_end_matches(" staticlib")).collect();
    let layers = section(&guide, "## The layers");
    let rows = layers.lines().filter_map(|line| line.strip_prefix("| `")?.split_once('`'));
    let mut shown: BTreeSet<&str> = rows.map(|(name, _)| name).collect();
    let (_, programs) = layers.split_once("**Programs**").expect("the programs");
    shown.extend(programs.lines().next().expect("a line").split('`').skip(1).step_by(2));
    assert_eq!(shown, listed);
}

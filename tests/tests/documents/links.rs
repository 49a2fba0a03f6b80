//! Links lead somewhere, and files that are named exist.

use super::*;

/// The anchor of a heading.
fn anchor(heading: &str) -> String {
    let kept = heading.trim_start_matches('#').trim().chars().filter(|c| c.is_alphanumeric() || " -_".contains(*c));
    kept.collect::<String>().to_lowercase().replace(' ', "-")
}

#[test]
fn links_lead_somewhere() {
    let mut found = 0;
    for name in documents() {
        let document = text(&name);
        let folder = root().join(&name).parent().expect("a folder").to_path_buf();
        for link in document.split("](").skip(1).map(|rest| rest.split(')').next().expect("a link")) {
            let (file, part) = link.split_once('#').unwrap_or((link, ""));
            let path = if file.is_empty() { root().join(&name) } else { folder.join(file) };
            assert!(path.exists(), "{name}: {link}");
            if !part.is_empty() {
                let there = std::fs::read_to_string(&path).expect("a document");
                let headings = there.lines().filter(|line| line.starts_with('#'));
                assert!(headings.map(anchor).any(|of| of == part), "{name}: {link}");
            }
            found += 1;
        }
    }
    assert!(found > 60);
}

/// Files that are named with their folder exist. What a build makes is not there before it, and notes on changes tell of files that have gone since.
#[test]
fn named_files_exist() {
    let roots = ["crates/", "docs/", "tests/", "examples/", "include/", "bindings/", "tools/", ".ci/"];
    let mut found = 0;
    for name in documents().iter().filter(|name| !name.starts_with("docs/changes/") || name.ends_with("README.md")) {
        let document = text(name);
        for word in quoted(&document) {
            let path = word.split(' ').next().expect("a word").trim_end_matches("/*.antt");
            // "NAME" stands for any name.
            let is_file =
                roots.iter().any(|root| path.starts_with(root)) && !path.contains(['*', '<']) && !path.contains("NAME");
            if is_file {
                assert!(root().join(path).exists(), "{name}: {word}");
                found += 1;
            }
        }
    }
    assert!(found > 60);
}

//! REVIEW.md cites definitions, theorems, functions and edits by name: each is in the sources of the crates, in the file that its path names.

use super::*;

/// The files of a folder and of those below it, with their text, but for what `rt` made.
fn gather(folder: &Path, extensions: &[&str], into: &mut BTreeMap<String, String>) {
    for entry in std::fs::read_dir(folder).expect("a folder") {
        let path = entry.expect("a file").path();
        if path.ends_with("out") {
            continue;
        }
        if path.is_dir() {
            gather(&path, extensions, into);
        } else if extensions.iter().any(|e| path.extension().is_some_and(|of| of == *e)) {
            into.insert(path.display().to_string(), std::fs::read_to_string(&path).expect("a source"));
        }
    }
}

/// Why a name is not in the sources; nothing if it is.
fn missing(name: &str, sources: &BTreeMap<String, String>) -> Option<String> {
    let crates = root().join("crates");
    if let Some((of, edit)) = name.split_once('/') {
        let is_edit = crates.join(of).join("must-fail").join(format!("{edit}.edit")).exists();
        return (!is_edit && !root().join(name).exists()).then(|| format!("no file {name}"));
    }
    if crates.join(name).is_dir() || sources.keys().any(|path| path.ends_with(&format!("/{name}"))) {
        return None;
    }
    let parts: Vec<&str> = name.split("::").flat_map(|part| part.split('.')).collect();
    let (last, before) = parts.split_last().expect("a part");
    let module = |path: &str, parts: &[&str]| {
        let file = format!("/{}.", parts.join("/"));
        path.contains(&file)
    };
    let is_module = sources.keys().any(|path| module(path, &parts));
    // A field of a record, or a case of a type, is named by the record's name, which stands in the same file.
    let stands = sources.iter().any(|(path, source)| {
        has_word(source, last)
            && (before.is_empty() || module(path, before) || before.iter().all(|part| has_word(source, part)))
    });
    (!is_module && !stands).then(|| format!("{name} is in no source"))
}

#[test]
fn names_are_in_the_sources() {
    let mut sources = BTreeMap::new();
    gather(&root().join("crates"), &["antt", "rt"], &mut sources);
    let document = text("docs/REVIEW.md");
    let names: Vec<String> = quoted(&document);
    // Words of the language and forms that are quoted as such.
    let is_form = |name: &str| ["[[u32; 64]; 64]", "&mut [Arc]", "&[Arc]", "[]", "&", "must-fail/"].contains(&name);
    let wrong: Vec<String> =
        names.iter().filter(|name| !is_form(name)).filter_map(|name| missing(name, &sources)).collect();
    assert!(wrong.is_empty(), "{wrong:#?}");
    assert!(names.len() > 400);
    for wrong in ["postman/no_such_edit", "Theorem.floored", "Drive.isDrive", "lent_verdicts", "docs/NONE.md"] {
        assert!(missing(wrong, &sources).is_some(), "{wrong} is said to be there");
    }
}

/// A crate's name right before another name says where that stands: `solution` `Planned`.
#[test]
fn names_are_in_the_crates_that_are_named() {
    let mut found = 0;
    for document in ["docs/REVIEW.md", "docs/GUIDE.md", "docs/DECISIONS.md"] {
        let document = text(document);
        let parts: Vec<&str> = document.split('`').collect();
        for pair in parts.windows(3).skip(1).step_by(2) {
            let folder = root().join("crates").join(pair[0]);
            let is_crate = |name: &str| !name.is_empty() && root().join("crates").join(name).is_dir();
            if !is_crate(pair[0]) || is_crate(pair[2]) || !pair[1].chars().all(char::is_whitespace) {
                continue;
            }
            let mut sources = BTreeMap::new();
            gather(&folder, &["antt", "rt"], &mut sources);
            assert_eq!(missing(pair[2], &sources), None, "of {}", pair[0]);
            found += 1;
        }
    }
    assert!(found > 100);
}

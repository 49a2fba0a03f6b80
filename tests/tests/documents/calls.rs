//! CALLS.md: every call has a row and a section, and its promises are where it is said.

use super::*;

/// The rows of the table of calls.
fn rows(document: &str) -> Vec<Vec<&str>> {
    table(document)
}

/// The name of a row: `[read](#read)`.
fn name<'a>(row: &[&'a str]) -> &'a str {
    row[0].trim_start_matches('[').split(']').next().expect("a name")
}

/// What each call refuses, by its section.
pub fn refusals() -> BTreeMap<String, BTreeSet<u32>> {
    let document = text("docs/CALLS.md");
    let of_call = |call: &str| {
        let (_, after) = section(&document, &format!("## {call}")).split_once("\nRefuses: ").expect("its refusals");
        numbers(after.split('.').next().expect("a sentence"))
    };
    rows(&document).iter().map(|row| (name(row).to_string(), of_call(name(row)))).collect()
}

/// Every C function has a row and a section with an example; the names in other languages are there.
#[test]
fn every_call_has_a_section() {
    let (document, header) = (text("docs/CALLS.md"), text("include/postman.h"));
    let answers = header.split("int64_t postman_").skip(1);
    let functions: Vec<String> =
        answers.map(|after| format!("postman_{}", after.split('(').next().expect("a name"))).collect();
    let shown: Vec<&str> = rows(&document).iter().map(|row| row[1].trim_matches('`')).collect();
    assert_eq!(BTreeSet::from_iter(functions.iter().map(String::as_str)), BTreeSet::from_iter(shown));

    let (rust, python) = (sources("bindings/rust/src", "rs"), sources("bindings/python/postman", "py"));
    let commands = text("bindings/python/man/postman.1").replace('\\', "");
    for row in rows(&document) {
        let of_call = section(&document, &format!("## {}", name(&row)));
        assert!(of_call.contains("\nPromise: ") && of_call.contains("```rust\n"), "{row:?}");
        let last = |cell: &str| cell.trim_matches('`').rsplit([':', '.']).next().expect("a name").to_string();
        assert!(rust.contains(&format!("fn {}(", last(row[2]))), "{row:?}");
        let in_python = last(row[3]);
        assert!(python.contains(&format!("def {in_python}(")) || python.contains(&format!("class {in_python}")));
        for command in row[4].split('`').skip(1).step_by(2).flat_map(str::split_whitespace) {
            assert!(commands.contains(command), "{command}");
        }
    }
}

/// All sources of a folder, one after the other.
fn sources(folder: &str, extension: &str) -> String {
    let entries = std::fs::read_dir(root().join(folder)).expect("a folder").map(|entry| entry.expect("a file").path());
    let files = entries.filter(|path| path.extension().is_some_and(|e| e == extension));
    files.map(|path| std::fs::read_to_string(path).expect("a source")).collect()
}

/// "Promise: `A`, `B` (`crates/FILE`)": the names are in the file.
#[test]
fn promises_are_where_it_is_said() {
    let document = text("docs/CALLS.md");
    let mut found = 0;
    for promise in document.split("\nPromise: ").skip(1) {
        let promise = promise.split("```").next().expect("a part");
        let mut names = Vec::new();
        for word in promise.split('`').skip(1).step_by(2) {
            if word.starts_with("crates/") {
                let source = text(word);
                for name in names.drain(..) {
                    assert!(has_word(&source, name), "{name} is not in {word}");
                    found += 1;
                }
            } else {
                names.push(word);
            }
        }
        assert!(names.is_empty(), "no file is named for {names:?}");
    }
    assert!(found >= 30);
}

//! Every public item but the constants of `limits`, which have one together, has an example, which `cargo test` runs. So has every public module.

use std::path::{Path, PathBuf};

/// The public items of a source whose documentation has no example.
fn without_example(source: &str) -> Vec<String> {
    let mut found = Vec::new();
    let mut documentation = String::new();
    for line in source.lines().map(str::trim).take_while(|line| !line.starts_with("#[cfg(test)]")) {
        if line.starts_with("///") {
            documentation += line;
        } else if !line.starts_with("#[") {
            let mut words = line.split(|c: char| !(c.is_alphanumeric() || c == '_'));
            if words.next() == Some("pub") {
                let kind = words.next().unwrap_or_default();
                let item = ["fn", "struct", "enum", "trait", "type", "const", "static", "union"].contains(&kind);
                if item && !documentation.contains("```") {
                    found.push(format!("{kind} {}", words.next().unwrap_or_default()));
                }
            }
            documentation.clear();
        }
    }
    found
}

/// The public modules that a source declares.
fn modules(source: &str) -> Vec<&str> {
    source.lines().filter_map(|line| line.strip_prefix("pub mod ")?.strip_suffix(';')).collect()
}

/// Whether what a source says of itself has an example.
fn module_has_example(source: &str) -> bool {
    source.lines().take_while(|line| line.starts_with("//!")).any(|line| line.contains("```"))
}

fn sources() -> PathBuf {
    Path::new(env!("CARGO_MANIFEST_DIR")).join("src")
}

#[test]
fn every_public_item_has_an_example() {
    for path in std::fs::read_dir(sources()).unwrap().map(|entry| entry.unwrap().path()) {
        // The C functions are not public in Rust, and their declarations look as if they were.
        if !path.ends_with("ffi.rs") && !path.ends_with("limits.rs") {
            let source = std::fs::read_to_string(&path).unwrap();
            assert_eq!(without_example(&source), [""; 0], "{}", path.display());
        }
    }
}

#[test]
fn every_public_module_has_an_example() {
    let root = std::fs::read_to_string(sources().join("lib.rs")).unwrap();
    assert!(module_has_example(&root));
    let public = modules(&root);
    assert_eq!(public, ["limits", "raw"]);
    for name in public {
        let source = std::fs::read_to_string(sources().join(name).with_extension("rs")).unwrap();
        assert!(module_has_example(&source), "{name}");
    }
}

#[test]
fn an_item_without_example_is_seen() {
    let source = "/// ```\n/// ```\npub fn good() {}\n/// No example.\n#[inline]\npub fn bad() {}\n    pub struct Worse;\npub const C: u8 = 1;\nfn own() {}\n";
    assert_eq!(without_example(source), ["fn bad", "struct Worse", "const C"]);
    assert!(!module_has_example("//! No example.\n/// ```\n/// ```\nfn own() {}\n"));
    assert_eq!(modules("mod own;\npub mod open;\n"), ["open"]);
}

//! README.md is short.

use super::*;

#[test]
fn it_is_short() {
    let document = text("README.md");
    assert!(document.lines().count() <= 70, "over 70 lines");
    for line in document.lines() {
        assert!(line.chars().count() <= 120, "over 120 characters: {line}");
    }
}

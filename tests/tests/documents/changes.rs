//! The notes on changes have the same parts, and the index leads to each that has landed.

use super::*;

/// The heads of a note's parts: `**Stayed.**`. A note may have them one after the other in a paragraph.
fn heads(note: &str) -> Vec<&str> {
    note.split("**").skip(1).step_by(2).collect()
}

/// Whether a note has a part on it. What is new may also stand in the part that it belongs to.
fn has_part(note: &str, word: &str) -> bool {
    (word == "new" && has_word(note, "New"))
        || heads(note).iter().any(|head| head.split([' ', ',', '.', ':']).any(|of| of.eq_ignore_ascii_case(word)))
}

#[test]
fn notes_have_the_same_parts() {
    let index = text("docs/changes/README.md");
    let names = documents();
    let notes = names.iter().filter_map(|name| name.strip_prefix("docs/changes/")).filter(|name| *name != "README.md");
    let mut landed = 0;
    for name in notes {
        let note = text(&format!("docs/changes/{name}"));
        // Lines and time are known once a change has landed, and then the index has it.
        let parts: &[&str] = match index.contains(&format!("]({name}): ")) {
            true => &["moved", "stayed", "new", "lines", "time"],
            false => &["moved", "stayed", "new"],
        };
        for part in parts {
            assert!(has_part(&note, part), "{name} says nothing of \"{part}\"");
        }
        if let Some((_, time)) = note.split_once("**Time.**") {
            let rows = table(time);
            assert!(!rows.is_empty() && rows.iter().all(|row| row.len() >= 3), "{name}: no table of before and after");
            landed += 1;
        }
    }
    assert!(landed >= 25);
}

/// Decisions have each number once, and those that other documents cite are there.
#[test]
fn decisions_have_their_numbers() {
    let document = text("docs/DECISIONS.md");
    let heads = document.lines().filter_map(|line| line.strip_prefix("**")?.split_once(". "));
    let mut numbers: Vec<u32> = heads.filter_map(|(number, _)| number.parse().ok()).collect();
    numbers.extend(
        table(section(&document, "## No longer true")).iter().map(|row| row[0].parse::<u32>().expect("a number")),
    );
    numbers.sort();
    assert!(numbers.len() >= 199 && numbers.windows(2).all(|pair| pair[0] < pair[1]), "a number stands twice");
    for name in documents() {
        let cited = text(&name);
        for after in cited.split("decision ").skip(1) {
            let number: String = after.chars().take_while(char::is_ascii_digit).collect();
            assert!(
                number.is_empty() || numbers.contains(&number.parse().expect("a number")),
                "{name}: decision {number}"
            );
        }
    }
}

//! What the page of promises, `crates/promises/specs`, is held to: its statement files hold types and nothing else, and import nothing of laws or theorems; each statement has its proof;
//! each call that the page names asks nothing of its caller; and no contract and no definition cites anything of a `Laws` folder.

use postman_tests::asked::{asks, types_with_invariant};
use std::collections::{BTreeMap, BTreeSet};
use std::fs;
use std::path::{Path, PathBuf};
use std::process::Command;

/// The page, in its order.
const PAGE: [&str; 13] = [
    "Demands",
    "PlanFile",
    "PlanCall",
    "DeepCall",
    "Departure",
    "TwoCars",
    "TreeCount",
    "Distances",
    "Judging",
    "OpenPlan",
    "Districts",
    "Exports",
    "ExportedRuns",
];

fn crates() -> PathBuf {
    Path::new(env!("CARGO_MANIFEST_DIR")).join("../crates")
}

fn read(path: &Path) -> String {
    fs::read_to_string(path).unwrap_or_else(|error| panic!("{}: {error}", path.display()))
}

fn page(name: &str) -> String {
    read(&crates().join("promises/specs").join(name).with_extension("antt"))
}

/// All files below a folder, but for what `rt` made.
fn files(folder: &Path, found: &mut Vec<PathBuf>) {
    for entry in fs::read_dir(folder).into_iter().flatten() {
        let path = entry.expect("an entry").path();
        if path.ends_with("out") {
            continue;
        }
        if path.is_dir() {
            files(&path, found);
        } else {
            found.push(path);
        }
    }
}

/// The module and the names of each import from a crate.
fn imports(text: &str) -> Vec<(String, Vec<String>)> {
    let lines = text.lines().filter_map(|line| line.strip_prefix("ghost ").or(Some(line))?.strip_prefix("use Rattle."));
    lines
        .filter_map(|line| line.split_once(".{"))
        .map(|(module, names)| {
            let names = names.split('}').next().unwrap_or("").split(',');
            (module.to_owned(), names.map(|name| name.split_whitespace().next().unwrap_or("").to_owned()).collect())
        })
        .collect()
}

/// What is wrong with a statement file: an import of laws, theorems or proofs, or an item that is no type.
fn faults(text: &str) -> Vec<String> {
    let of_laws = |part: &str| part == "Laws" || part == "proofs" || part == "Proved" || part.ends_with("Theorem");
    let of_proofs = |module: &str| !module.starts_with("std.") && module.split('.').any(of_laws);
    let mut found: Vec<String> = imports(text).into_iter().map(|(module, _)| module).filter(|m| of_proofs(m)).collect();
    let mut named = "";
    for line in text.lines().filter(|line| !line.is_empty() && !line.starts_with([' ', '-'])) {
        let sort = line.trim_end_matches(" where").rsplit_once("Type ").map(|(_, level)| level);
        let of_types = sort.is_some_and(|level| level == "0" || level == "1");
        if let Some(rest) = line.strip_prefix("abbrev pub ").filter(|_| of_types) {
            named = rest.split(' ').next().unwrap_or("");
        } else if (line.starts_with("pub record ") || line.starts_with("pub data "))
            && line.ends_with(" where")
            && of_types
        {
            named = "";
        } else if !line.starts_with("use ") && (named.is_empty() || line.split(' ').next() != Some(named)) {
            found.push(line.to_owned());
        }
    }
    found
}

/// The statements of a file: its closed types.
fn statements(text: &str) -> Vec<&str> {
    let closed = |line: &&str| line.ends_with(" : Type 0") || line.ends_with(" : Type 1");
    text.lines()
        .filter_map(|line| line.strip_prefix("abbrev pub "))
        .filter(closed)
        .filter_map(|line| line.split(' ').next())
        .collect()
}

/// What a file of proofs proves: the type of each of its items.
fn proved(text: &str) -> Vec<&str> {
    text.lines()
        .filter(|line| line.starts_with("pub "))
        .filter_map(|line| line.split_once(" : "))
        .map(|(_, of)| of)
        .collect()
}

#[test]
fn statement_files_hold_types_alone() {
    for name in PAGE {
        let text = page(name);
        assert_eq!(faults(&text), Vec::<String>::new(), "{name}");
        let long: Vec<&str> = text.lines().filter(|line| 140 < line.chars().count()).collect();
        assert_eq!(long, Vec::<&str>::new(), "{name}: lines of more than 140 characters");
    }
}

#[test]
fn other_texts_are_refused() {
    let import = "use Rattle.postman_laws.specs.Laws.Judge.{judged}\n";
    let theorem = "use Rattle.promises.specs.JudgedTheorem.{Passes}\n";
    let term = "abbrev pub drive : List ℕ → List ℕ\ndrive w = w\n";
    let lemma = "pub floor : Floor\nfloor = tt\n";
    for wrong in [import, theorem, term, lemma] {
        assert!(!faults(wrong).is_empty(), "{wrong}");
    }
    let right = "use Rattle.postman.specs.Plan.{Plan}\n\n-- A sentence.\nabbrev pub Floor : Type 0\nFloor = (p : Plan)\n    → Bounds p\n";
    assert!(faults(right).is_empty());
    assert_eq!(statements(right), ["Floor"]);
    assert_eq!(proved(lemma), ["Floor"]);
}

#[test]
fn each_statement_has_its_proof() {
    let mut count = 0;
    for name in PAGE {
        let text = page(name);
        let stated = statements(&text);
        count += stated.len();
        if stated.is_empty() {
            continue;
        }
        let proofs = page(&format!("Proved/{name}"));
        assert_eq!(stated, proved(&proofs), "{name}: the statements, and what is proved, in their order");
    }
    assert!(60 < count, "{count} statements");
}

/// The functions of a crate, with their clauses: from the name up to the body.
fn functions(of: &str) -> BTreeMap<String, String> {
    let mut sources = Vec::new();
    files(&crates().join(of).join("src"), &mut sources);
    let mut found = BTreeMap::new();
    for source in sources {
        for part in read(&source).split("fn ").skip(1) {
            let name: String = part.chars().take_while(|c| c.is_alphanumeric() || *c == '_').collect();
            let clauses = part.split("\n{").next().unwrap_or("").to_owned();
            found.insert(name, clauses);
        }
    }
    found
}

/// The words in backquotes of a text's comments that are names of functions or crates.
fn quoted(text: &str) -> Vec<&str> {
    let comments = text.lines().filter(|line| line.trim_start().starts_with("--"));
    comments.flat_map(|line| line.split('`').skip(1).step_by(2)).collect()
}

#[test]
fn the_calls_of_the_page_ask_nothing() {
    let mut exported = functions("exports");
    for other in ["file_exports", "open_plan_exports", "district_exports"] {
        exported.extend(functions(other));
    }
    let mut sources = Vec::new();
    files(&crates(), &mut sources);
    let sources: Vec<String> =
        sources.iter().filter(|path| path.extension().is_some_and(|x| x == "rt")).map(|path| read(path)).collect();
    let types = types_with_invariant(sources.iter().map(String::as_str));
    for of in ["GoodPlan", "Measured", "Tabled", "Prepared", "VertexList", "Lengths", "LaidLegs"] {
        assert!(types.iter().any(|name| name == of), "{of} is a type with an invariant");
    }
    let mut named = BTreeSet::new();
    for name in PAGE {
        let text = page(name);
        let mut of = BTreeMap::new();
        for word in quoted(&text) {
            if crates().join(word).join("src").is_dir() && !of.contains_key(word) {
                of = functions(word);
            }
            if let Some(clauses) = exported.get(word).or_else(|| of.get(word)) {
                assert!(clauses.contains("ensures") && !asks(clauses, &types), "{name}: {word}");
                named.insert(word.to_owned());
            }
        }
    }
    let missing: Vec<&String> =
        exported.keys().filter(|name| name.starts_with("postman_") && !named.contains(*name)).collect();
    assert_eq!(missing, Vec::<&String>::new(), "functions for other languages that the page does not name");
    for call in [
        "plan_call",
        "short_call",
        "plan_call_at",
        "two_cars",
        "count_call",
        "distance_call",
        "judge",
        "open",
        "ask",
        "enter",
        "turn",
    ] {
        assert!(named.contains(call), "{call}");
    }
}

#[test]
fn contracts_and_definitions_cite_no_laws() {
    let mut all = Vec::new();
    files(&crates(), &mut all);
    let mut found = BTreeSet::new();
    for path in all {
        let within = path.strip_prefix(crates()).expect("a file of a crate").to_string_lossy().replace('\\', "/");
        let name = path.file_stem().expect("a name").to_string_lossy().into_owned();
        let of_definitions = within.contains("/specs/") && within.ends_with(".antt");
        let of_proofs = within.contains("/Laws/")
            || within.contains("/Proved/")
            || name == "Laws"
            || name == "Cases"
            || name.ends_with("Theorem");
        if (of_definitions && !of_proofs) || (within.contains("/src/") && within.ends_with(".rt")) {
            for (module, names) in imports(&read(&path)) {
                if !module.starts_with("std.") && module.split('.').any(|part| part == "Laws" || part == "proofs") {
                    found.extend(names.into_iter().map(|cited| (within.clone(), cited)));
                }
            }
        }
    }
    assert_eq!(found, BTreeSet::new(), "a definition belongs outside `Laws`");
}

#[test]
fn no_more_is_believed_than_may_be() {
    let script = crates().join("../tools/believed");
    let output = Command::new("python3").arg(script).arg("--check").output().expect("python3");
    let told = String::from_utf8_lossy(&output.stdout);
    assert!(output.status.success(), "{told}");
    let lines = |what: &str| -> String {
        let row = told.lines().find_map(|line| line.strip_prefix(what)).expect(what);
        row.split_whitespace().nth(2).expect("a number of lines").to_string()
    };
    let [call, all, with_c] = ["PlanCall ", "all Rattle calls ", "with the C layer "].map(lines);
    let said = format!("{call} for the plan call, {all} for all calls in Rattle, {with_c} with the C layer");
    assert!(read(&crates().join("../docs/GUIDE.md")).contains(&said), "GUIDE.md has not: {said}");
}

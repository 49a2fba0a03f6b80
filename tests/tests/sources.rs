//! What the sources of the proved crates promise about copies: no call made for one leg of a drive takes or gives the table of distances by value, nor the
//! plan's records; about tables: for two cars they are computed once; and about what is public: which functions are calls, which ask nothing of their caller,
//! which are steps for other crates, and that every function says what it gives back. And that every must-fail edit says which wrong program it makes.

use postman_tests::asked::{asks, types_with_invariant};
use std::collections::BTreeMap;
use std::path::Path;

/// The functions of a source by name: the signature, and all that follows it up to the next function. Functions of one name, in several modules, are taken
/// together.
fn functions(source: &str) -> BTreeMap<String, (String, String)> {
    let code: String = source.lines().map(|line| line.split("//").next().unwrap_or("").to_owned() + "\n").collect();
    let mut found: BTreeMap<String, (String, String)> = BTreeMap::new();
    for part in code.split("fn ").skip(1) {
        let name: String = part.chars().take_while(|c| c.is_alphanumeric() || *c == '_').collect();
        let end = part.find('{').expect("a function has a body or clauses");
        let clauses = ["requires", "ensures", "ghost"].iter().filter_map(|word| part.find(word)).min().unwrap_or(end);
        let (signature, rest) = part.split_at(end.min(clauses));
        let function = found.entry(name).or_default();
        function.0 += signature;
        function.1 += rest;
    }
    found
}

/// The functions that a call of `name` can reach, itself among them.
fn reached(all: &BTreeMap<String, (String, String)>, name: &str) -> Vec<String> {
    let mut names = vec![name.to_owned()];
    let mut at = 0;
    while at < names.len() {
        let (_, body) = &all[&names[at]];
        for other in all.keys() {
            let called = body.match_indices(&format!("{other}(")).any(|(i, _)| {
                let before = body[..i].chars().next_back().unwrap_or(' ');
                !(before.is_alphanumeric() || before == '_')
            });
            if called && !names.contains(other) {
                names.push(other.clone());
            }
        }
        at += 1;
    }
    names
}

/// How many elements a type holds at least, by value: those of arrays, also of arrays; 1 of a number, and of a struct what its fields hold.
fn elements(of: &str, structs: &BTreeMap<String, usize>) -> usize {
    if let Some(inner) = of.strip_prefix('[').and_then(|of| of.strip_suffix(']')) {
        let (inner, length) = inner.rsplit_once(';').unwrap_or((inner, "1"));
        return elements(inner, structs) * length.replace('_', "").parse::<usize>().unwrap_or(1);
    }
    let name = of.rsplit("::").next().expect("the last part of a path");
    structs.get(name).copied().unwrap_or(1)
}

/// What each struct of a source holds. One that holds another is counted once that one is.
fn structs(source: &str) -> BTreeMap<String, usize> {
    let code: String = source.lines().map(|line| line.split("//").next().unwrap_or("").to_owned() + "\n").collect();
    let mut found: BTreeMap<String, usize> = BTreeMap::new();
    for _ in 0..4 {
        for part in code.split("struct ").skip(1) {
            let name: String = part.chars().take_while(|c| c.is_alphanumeric() || *c == '_').collect();
            let Some((_, rest)) = part.split_once('{') else { continue };
            let fields = rest.split_once('}').expect("the end of a struct").0;
            let flat: String = fields.chars().filter(|c| !c.is_whitespace()).collect();
            let held =
                flat.split(',').filter_map(|field| field.split_once(':')).map(|(_, of)| elements(of, &found)).sum();
            found.insert(name, held);
        }
    }
    found
}

/// As many elements as the table of distances has.
const TABLE: usize = 64 * 64;

/// Whether a signature takes or gives as much as a table, or a plan, by value: an array, or a struct that holds one.
fn copies(signature: &str, structs: &BTreeMap<String, usize>) -> bool {
    let plan = structs.get("Plan").copied().unwrap_or(TABLE);
    let flat: String = signature.chars().filter(|c| !c.is_whitespace()).collect();
    let (parameters, result) = flat.rsplit_once("->").unwrap_or((flat.as_str(), ""));
    let parameters = parameters.split_once('(').map_or("", |(_, rest)| rest).trim_end_matches(')');
    let mut types: Vec<&str> =
        parameters.split(',').filter_map(|parameter| parameter.split_once(':')).map(|(_, of)| of).collect();
    types.push(result);
    types
        .iter()
        .any(|of| !of.starts_with('&') && (of.rsplit("::").next() == Some("Plan") || plan <= elements(of, structs)))
}

/// A crate and all crates that it rests on, by crates.txt.
fn with_what_it_rests_on(name: &str) -> Vec<String> {
    let list =
        std::fs::read_to_string(Path::new(env!("CARGO_MANIFEST_DIR")).join("../crates.txt")).expect("crates.txt");
    let rests_on: BTreeMap<&str, Vec<&str>> = list
        .lines()
        .filter_map(|line| line.split('#').next().expect("the part before a comment").split_once(':'))
        .map(|(name, others)| (name.trim_end_matches(" staticlib"), others.split_whitespace().collect()))
        .collect();
    let mut found = vec![name.to_owned()];
    let mut at = 0;
    while at < found.len() {
        for other in rests_on.get(found[at].as_str()).unwrap_or_else(|| panic!("no crate {}", found[at])) {
            if rests_on.contains_key(other) && !found.iter().any(|name| name == other) {
                found.push((*other).to_owned());
            }
        }
        at += 1;
    }
    found
}

/// The sources of a crate and of all that it rests on.
fn sources(name: &str) -> String {
    let folder = Path::new(env!("CARGO_MANIFEST_DIR")).join("../crates");
    let mut text = String::new();
    for name in with_what_it_rests_on(name) {
        let files = std::fs::read_dir(folder.join(name).join("src")).expect("the sources of a crate");
        let mut files: Vec<_> = files.map(|file| file.expect("a file").path()).collect();
        files.sort();
        for file in files {
            text += &std::fs::read_to_string(&file).expect("a source");
        }
    }
    text
}

/// `write` of the circuit writes the legs, one call of `write_leg` each.
#[test]
fn a_leg_copies_neither_the_table_nor_the_plan() {
    let text = sources("circuit");
    let (all, structs) = (functions(&text), structs(&text));
    let way = reached(&all, "write");
    for name in ["write_leg", "path", "column_to", "next_arc", "leads"] {
        assert!(way.iter().any(|other| other == name), "`{name}` is not on the way of a leg: {way:?}");
    }
    let copying: Vec<_> = way.iter().filter(|name| copies(&all[*name].0, &structs)).collect();
    assert!(copying.is_empty(), "made for each leg, with a copy: {copying:?}");
}

/// The distance call searches from one vertex at a time.
#[test]
fn a_page_computes_no_table() {
    let all = functions(&sources("distances"));
    let way = reached(&all, "distance_call");
    assert!(way.iter().any(|name| name == "row"), "no row is computed: {way:?}");
    assert!(way.iter().all(|name| name != "table"), "the table is computed: {way:?}");
}

/// The call for two cars computes both tables, each in one place, and nothing that it does for a car computes one.
#[test]
fn two_cars_share_the_tables() {
    let all = functions(&sources("two_cars"));
    let (_, body) = &all["two_cars"];
    for table in ["weights::table(", "distance::table_of("] {
        assert_eq!(body.matches(table).count(), 1, "{table}");
    }
    let way = reached(&all, "plan_car");
    for name in
        ["plan_marked", "plan_tabled", "network_of", "candidates_of", "add_all", "counts", "explore", "multipliers_for"]
    {
        assert!(way.iter().any(|other| other == name), "`{name}` is not on the way of a car: {way:?}");
    }
    for name in ["table", "table_of", "row"] {
        assert!(way.iter().all(|other| other != name), "`{name}` is computed for each car: {way:?}");
    }
}

/// A function as its source declares it.
struct Declared {
    /// With the type whose method it is.
    name: String,
    public: bool,
    external: bool,
    /// All that stands between its parameters and its body.
    clauses: String,
}

/// The functions of a source, in order.
fn declared(source: &str) -> Vec<Declared> {
    let mut found: Vec<Declared> = Vec::new();
    let mut method_of = String::new();
    let mut open = false;
    for line in source.lines().map(|line| line.split("//").next().unwrap_or("")) {
        let text = line.trim();
        if let Some(rest) = text.strip_prefix("impl") {
            let of = rest.split_once('>').filter(|_| rest.starts_with('<')).map_or(rest, |(_, of)| of);
            method_of = of.trim().chars().take_while(|c| c.is_alphanumeric() || *c == '_').collect::<String>() + "::";
        }
        if let Some((before, after)) = text
            .split_once("fn ")
            .filter(|(before, _)| ["", "pub ", "pub(crate) ", "pub extern \"C\" "].contains(before))
        {
            let name: String = after.chars().take_while(|c| c.is_alphanumeric() || *c == '_').collect();
            let name = if line.starts_with(' ') { method_of.clone() + &name } else { name };
            let external = before.contains("extern");
            found.push(Declared { name, public: before.starts_with("pub "), external, clauses: String::new() });
            open = true;
        }
        if open {
            let clause = text.starts_with("requires") || text.starts_with("ensures");
            open = text != "{" && (clause || !text.ends_with(" {"));
            found.last_mut().expect("a function").clauses += &(text.to_owned() + "\n");
        }
    }
    found
}

/// The modules of all library crates: the crate, the module's path, and its source.
fn modules() -> Vec<(String, String, String)> {
    let folder = Path::new(env!("CARGO_MANIFEST_DIR")).join("../crates");
    let mut found = Vec::new();
    let mut crates: Vec<_> =
        std::fs::read_dir(folder).expect("the crates").map(|at| at.expect("a crate").path()).collect();
    crates.sort();
    for at in crates.into_iter().filter(|at| at.join("src/lib.rt").exists()) {
        let name = at.file_name().expect("a name").to_string_lossy().into_owned();
        let files = std::fs::read_dir(at.join("src")).expect("the sources of a crate");
        let mut files: Vec<_> = files.map(|file| file.expect("a file").path()).collect();
        files.sort();
        for file in files {
            let module = match file.file_stem().expect("a name").to_string_lossy().as_ref() {
                "lib" => name.clone(),
                module => format!("{name}::{module}"),
            };
            found.push((name.clone(), module, std::fs::read_to_string(&file).expect("a source")));
        }
    }
    found
}

/// The calls that the guide lists: the code of the first column of the table under "The calls".
fn calls(guide: &str) -> Vec<String> {
    let section = guide.split("\n## The calls\n").nth(1).expect("the section of the calls");
    let section = section.split("\n## ").next().expect("its text");
    section
        .lines()
        .filter_map(|line| line.strip_prefix("| `"))
        .map(|row| row.split_once('`').expect("the end of a name").0.to_owned())
        .collect()
}

/// What is wrong with a function for other languages: it is to promise what a call of its name promises, in a crate below.
fn unlike(path: &str, function: &Declared, modules: &[(String, String, String)], calls: &[String]) -> Option<String> {
    let promised = |of: &Declared| -> Vec<String> {
        let from = ["requires", "ensures"].iter().filter_map(|word| of.clauses.find(word)).min();
        of.clauses[from.unwrap_or(0)..].split_whitespace().map(str::to_owned).collect()
    };
    let call = calls.iter().find(|call| call.ends_with(&format!("::{}", function.name)) && *call != path);
    let Some(call) = call else { return Some(format!("{path} is not among the calls")) };
    let (module, _) = call.rsplit_once("::").expect("a path");
    let below = modules.iter().filter(|(_, name, _)| name == module).flat_map(|(_, _, source)| declared(source));
    let same = below.filter(|other| other.name == function.name).any(|other| promised(&other) == promised(function));
    (!same).then(|| format!("{path} does not promise what {call} does"))
}

/// What is wrong with the public functions: a call that is none, or asks something; a function for other languages that is not listed; one that gives nothing
/// back by its contract; a step in a module that does not say so.
fn faults(modules: &[(String, String, String)], calls: &[String]) -> Vec<String> {
    let mut faults = Vec::new();
    let types = types_with_invariant(modules.iter().map(|(_, _, source)| source.as_str()));
    let mut seen: BTreeMap<String, bool> = BTreeMap::new();
    for (_, module, source) in modules {
        let comment: String =
            source.lines().take_while(|line| line.starts_with("//")).collect::<Vec<_>>().join(" ").to_lowercase();
        for function in declared(source) {
            let path = format!("{module}::{}", function.name);
            let asks = asks(&function.clauses, &types);
            let gives = function.clauses.contains("->") || function.clauses.contains("&mut");
            if gives && !function.clauses.contains("ensures") {
                faults.push(format!("{path} does not say what it gives back"));
            }
            if function.external {
                faults.extend(unlike(&path, &function, modules, calls));
            }
            if function.public && asks && !comment.contains("steps for other crates") {
                faults.push(format!(
                    "{path} asks something, and {module} does not say that it holds steps for other crates"
                ));
            }
            if function.public {
                seen.insert(path, asks);
            }
        }
    }
    for call in calls {
        match seen.get(call) {
            None => faults.push(format!("{call} is no public function")),
            Some(true) => faults.push(format!("{call} is a call, and asks something of its caller")),
            Some(false) => {}
        }
    }
    faults
}

/// "Every callable function says what it gives back", and the calls ask nothing.
#[test]
fn the_calls_ask_nothing_and_every_function_answers() {
    let guide = std::fs::read_to_string(Path::new(env!("CARGO_MANIFEST_DIR")).join("../docs/GUIDE.md"));
    let calls = calls(&guide.expect("docs/GUIDE.md"));
    assert!(35 <= calls.len(), "too few calls are listed: {calls:?}");
    let faults = faults(&modules(), &calls);
    assert!(faults.is_empty(), "{}", faults.join("\n"));
}

/// The test of that test.
#[test]
fn a_call_that_asks_is_seen() {
    let source = |text: &str| vec![("a".to_owned(), "a::call".to_owned(), text.to_owned())];
    let calls = vec!["a::call::f".to_owned(), "a::call::T::g".to_owned()];
    let good = "// Calls.\npub fn f(x: u8) -> u8\n    ensures { result ≡ x }\n{\n    x\n}\nimpl<'a> T<'a> {\n    pub fn g() -> u8\n        ensures { result ≡ 0 }\n    {\n        0\n    }\n}\n";
    let step = "pub fn h(x: u8) -> u8\n    requires { x < 2 }\n    ensures { result ≡ x }\n{\n    x\n}\n";
    assert_eq!(faults(&source(good), &calls), Vec::<String>::new());
    assert_eq!(
        faults(
            &source(
                &good
                    .replace("// Calls.", "// Calls, and steps for other crates.")
                    .replace("impl", &format!("{step}impl"))
            ),
            &calls
        ),
        Vec::<String>::new()
    );
    for wrong in [
        good.replace("    ensures { result ≡ x }\n", ""),
        good.replace("    ensures { result ≡ x }\n", "    requires { x < 2 }\n    ensures { result ≡ x }\n"),
        good.replace("pub fn f(x: u8) -> u8\n", "fn f(x: u8) -> u8\n"),
        good.replace(
            "pub fn f(x: u8)",
            "pub struct Low {\n    pub x: u8,\n    pub ghost low: { x < 2 },\n}\npub fn f(x: &Low)",
        ),
        good.replace("impl", &format!("{step}impl")),
        good.replace("impl", &format!("{}impl", step.replace("pub fn h", "pub extern \"C\" fn h"))),
        good.replace("pub fn g() -> u8\n        ensures { result ≡ 0 }\n    {", "pub fn g() -> u8 {"),
    ] {
        assert_ne!(faults(&source(&wrong), &calls), Vec::<String>::new(), "{wrong}");
    }
}

/// What is wrong with a must-fail edit: it does not open with a line that says which wrong program it makes, or it changes a contract or a model in place of a
/// program. Those of `postman`, which has none, change definitions.
fn edit_fault(of: &str, text: &str) -> Option<&'static str> {
    let first = text.lines().next().unwrap_or("");
    if ["file:", "old:", "new:"].iter().any(|word| first.starts_with(word)) || first.len() < 12 {
        return Some("does not open with a line that says which wrong program it makes");
    }
    let folder = if of == "postman" { "file: specs/" } else { "file: src/" };
    if text.lines().any(|line| line.starts_with("file:") && !line.starts_with(folder)) {
        return Some("makes no wrong program");
    }
    let changed = text.lines().filter_map(|line| line.strip_prefix("old:").or(line.strip_prefix("new:")));
    // What stands in a clause and never in code.
    let contract = changed.map(str::trim_start).any(|of| {
        of.starts_with("requires") || of.starts_with("ensures") || of.contains(['≡', '≤', '×', '→', 'ℕ', 'λ'])
    });
    (contract && of != "postman").then_some("changes a contract")
}

#[test]
fn every_edit_says_which_wrong_program_it_makes() {
    let folder = Path::new(env!("CARGO_MANIFEST_DIR")).join("../crates");
    let mut count = 0;
    for at in std::fs::read_dir(folder).expect("the crates").map(|at| at.expect("a crate").path()) {
        let name = at.file_name().expect("a name").to_string_lossy().into_owned();
        let Ok(edits) = std::fs::read_dir(at.join("must-fail")) else { continue };
        for edit in edits.map(|edit| edit.expect("an edit").path()) {
            let text = std::fs::read_to_string(&edit).expect("an edit's text");
            if let Some(fault) = edit_fault(&name, &text) {
                panic!("{} {fault}", edit.display());
            }
            count += 1;
        }
    }
    assert!(150 <= count, "only {count} edits were looked at");
    let good = "Writes one less.\nfile: src/a.rt\nold: 1\nnew: 0\n";
    assert_eq!(edit_fault("a", good), None);
    assert!(edit_fault("a", &good.replace("Writes one less.\n", "")).is_some());
    assert!(edit_fault("a", &good.replace("src/", "specs/")).is_some());
    assert!(edit_fault("a", &good.replace("old: 1", "old:     ensures { result ≡ 1 }")).is_some());
}

/// The test of the test: sources in which a leg does copy.
#[test]
fn a_copy_is_seen() {
    let lent = "fn write(t: &[[u32; 64]; 64]) { leg(t) }\nfn leg(t: &[[u32; 64]; 64]) -> u32 { t[0][0] }";
    let taken = "fn write(t: &[[u32; 64]; 64]) { leg(*t) } // a copy\nfn leg(t: [[u32; 64]; 64]) -> u32 { t[0][0] }";
    let given = "fn write() { leg() }\nfn leg() -> [[u32; 64]; 64]\n    requires { x }\n{ table }";
    let plan = "fn write(p: &Rows) { leg(p) }\nfn leg(\n    plan: Plan,\n    v: usize,\n) -> usize { v }";
    let good = "struct Plan { n: u8, arcs: [u8; 256] }\nstruct GoodPlan { plan: Plan }\nfn write(p: &GoodPlan) { leg(*p) }\nfn leg(p: GoodPlan) -> u8 { p.n }";
    let flat = "fn write(t: &[u32; 4096]) { leg(*t) }\nfn leg(t: [u32; 4096]) -> u32 { t[0] }";
    let held = "struct Tables { d: [[u32; 64]; 64], n: usize }\nstruct Both { t: Tables }\nfn write(b: &Rows) { leg(b) }\nfn leg(b: crate::Both) -> u32 { 0 }";
    let row =
        "struct Row { d: [u32; 64] }\nfn write(r: &Row) { leg(r) }\nfn leg(r: Row, c: [u16; 320]) -> [u32; 64] { r.d }";
    for (source, expected) in [
        (lent, false),
        (taken, true),
        (given, true),
        (plan, true),
        (good, true),
        (flat, true),
        (held, true),
        (row, false),
    ] {
        let (all, structs) = (functions(source), structs(source));
        let way = reached(&all, "write");
        assert_eq!(way, ["write", "leg"]);
        assert_eq!(way.iter().any(|name| copies(&all[name].0, &structs)), expected, "{source}");
    }
}

/// The lines of a folder's sources that are longer than 140 characters, by file; imports, which the formatter lays out, and the worked cases, a row each, are left out.
fn long_lines(folder: &Path, found: &mut Vec<(String, String)>) {
    for entry in std::fs::read_dir(folder).expect("a folder") {
        let path = entry.expect("an entry").path();
        if path.is_dir() {
            long_lines(&path, found);
        } else if path.extension().is_some_and(|of| of == "rt" || of == "antt") && !path.ends_with("Cases.antt") {
            let source = std::fs::read_to_string(&path).expect("a source");
            let is_import = |line: &&str| line.starts_with("use ") || line.starts_with("ghost use ");
            let long = source.lines().filter(|line| line.chars().count() > 140 && !is_import(line));
            found.extend(long.map(|line| (path.display().to_string(), line.to_owned())));
        }
    }
}

/// Lines of code, contracts and laws fit a screen. Six definitions are longer: each is counted as a line of what is believed.
#[test]
fn lines_fit_a_screen() {
    let crates = Path::new(env!("CARGO_MANIFEST_DIR")).join("../crates");
    let mut found = Vec::new();
    for entry in std::fs::read_dir(crates).expect("the crates") {
        for part in ["src", "specs"] {
            let folder = entry.as_ref().expect("a crate").path().join(part);
            if folder.is_dir() {
                long_lines(&folder, &mut found);
            }
        }
    }
    let believed = |(path, _): &&(String, String)| {
        (path.contains("/postman/specs/") && !path.contains("/Laws/")) || path.ends_with("/districts/specs/Led.antt")
    };
    let (definitions, others): (Vec<_>, Vec<_>) = found.iter().partition(believed);
    assert_eq!(others, Vec::<&(String, String)>::new(), "longer than 140 characters");
    assert!(definitions.len() <= 6, "{definitions:#?}");
}

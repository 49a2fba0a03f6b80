//! The library's C functions are declared in three places: its source, the C header and the Rust package. No compiler compares them, so this
//! test does; and the constants of the header with those of the package, and the words of the library with the package's.

use postman_tests::plan;
use postman_tests::planner::refusal;
use std::collections::BTreeMap;
use std::path::{Path, PathBuf};

// ---- declarations

/// A function as C sees it. Types are in Rust's words.
#[derive(Clone, PartialEq, Eq, Debug)]
struct Function {
    name: String,
    parameters: Vec<(String, String)>,
    result: String,
}

fn without_line_comments(text: &str) -> String {
    text.lines().map(|line| line.split("//").next().expect("the part before a comment").to_string() + "\n").collect()
}

fn without_block_comments(text: &str) -> String {
    let mut parts = text.split("/*");
    let before = parts.next().expect("the part before a comment").to_string();
    parts.fold(before, |kept, part| kept + " " + part.split_once("*/").expect("the end of a comment").1)
}

/// Name, parameters and what follows them, of `name(parameters) …`.
fn parts(text: &str) -> (&str, Vec<&str>, &str) {
    let (name, rest) = text.split_once('(').unwrap_or_else(|| panic!("no parameters: {text}"));
    let (parameters, rest) = rest.split_once(')').unwrap_or_else(|| panic!("no end of the parameters: {text}"));
    let parameters = parameters.split(',').map(str::trim).filter(|parameter| !parameter.is_empty());
    (name.trim(), parameters.collect(), rest.trim_start())
}

/// The type after an arrow.
fn result(text: &str) -> String {
    let rest = text.strip_prefix("->").unwrap_or_else(|| panic!("no result: {text}")).trim_start();
    rest.split([' ', '\n', ';', '{']).next().expect("a type").to_string()
}

/// Name and type of `name: type`.
fn annotated(parameter: &str) -> (String, &str) {
    let (name, of) = parameter.split_once(':').unwrap_or_else(|| panic!("no type: {parameter}"));
    (name.trim().to_string(), of.trim())
}

/// The exported functions of a Rattle source. A slice is a pointer and a length.
fn of_rattle(source: &str) -> Vec<Function> {
    let source = without_line_comments(source);
    let exported: Vec<&str> = source.split("pub extern \"C\" fn ").collect();
    let functions = exported.windows(2).map(|pair| {
        let (name, parameters, rest) = parts(pair[1]);
        assert!(pair[0].trim_end().ends_with("#[unsafe(no_mangle)]"), "{name} is not exported by its name");
        let parameters = parameters.into_iter().flat_map(|parameter| {
            let (name, of) = annotated(parameter);
            let slice = |prefix| of.strip_prefix(prefix).and_then(|of: &str| of.strip_suffix(']'));
            let pointer = |pointer: String| vec![(name.clone(), pointer), (format!("{name}_len"), "usize".to_string())];
            match (slice("&["), slice("&mut [")) {
                (Some(of), _) => pointer(format!("*const {of}")),
                (_, Some(of)) => pointer(format!("*mut {of}")),
                _ => vec![(name, of.to_string())],
            }
        });
        Function { name: name.to_string(), parameters: parameters.collect(), result: result(rest) }
    });
    let functions: Vec<Function> = functions.collect();
    for word in ["no_mangle", "extern"] {
        assert_eq!(source.matches(word).count(), functions.len(), "`{word}` without an exported function");
    }
    functions
}

/// The functions of the `extern` blocks of a Rust source.
fn of_rust(source: &str) -> Vec<Function> {
    let source = without_line_comments(source);
    let blocks = source.split("extern \"C\" {").skip(1).map(|rest| rest.split_once('}').expect("the block's end").0);
    let functions = blocks.flat_map(|block| block.split(';')).filter(|declaration| !declaration.trim().is_empty());
    functions
        .map(|declaration| {
            let declaration = declaration.trim().strip_prefix("pub fn ").expect("a function");
            let (name, parameters, rest) = parts(declaration);
            let parameters = parameters.into_iter().map(annotated).map(|(name, of)| (name, of.to_string()));
            Function { name: name.to_string(), parameters: parameters.collect(), result: result(rest) }
        })
        .collect()
}

/// Name and type of a C declarator: `const uint8_t *plan`.
fn of_c_declarator(text: &str) -> (String, String) {
    let spaced = text.replace('*', " * ");
    let (prefix, of, name) = match spaced.split_whitespace().collect::<Vec<&str>>()[..] {
        ["const", of, "*", name] => ("*const ", of, name),
        [of, "*", name] => ("*mut ", of, name),
        [of, name] => ("", of, name),
        _ => panic!("no declarator that is known here: {text}"),
    };
    let of = match of {
        "uint8_t" => "u8",
        "uint16_t" => "u16",
        "uint32_t" => "u32",
        "uint64_t" => "u64",
        "int64_t" => "i64",
        "size_t" => "usize",
        _ => panic!("no type that is known here: {of}"),
    };
    (name.to_string(), format!("{prefix}{of}"))
}

/// The functions of a C header.
fn of_c(header: &str) -> Vec<Function> {
    let text = without_block_comments(header);
    let text: Vec<&str> = text.lines().filter(|line| !line.starts_with('#')).collect();
    let text = text.join("\n").replace("extern \"C\" {", "");
    // Functions that answer a text are the words, which are not the proved library's.
    let declarations =
        text.split(';').filter(|declaration| declaration.contains('(') && !declaration.contains(" char *"));
    declarations
        .map(|declaration| {
            let (declarator, parameters, rest) = parts(declaration);
            assert!(rest.is_empty(), "something after the parameters: {declaration}");
            let (name, result) = of_c_declarator(declarator);
            Function { name, parameters: parameters.into_iter().map(of_c_declarator).collect(), result }
        })
        .collect()
}

/// What is declared otherwise in the second list than in the first. The order of functions does not matter.
fn differences(first: &[Function], second: &[Function]) -> Vec<String> {
    let by_name = |list: &[Function]| -> BTreeMap<String, Function> {
        list.iter().map(|function| (function.name.clone(), function.clone())).collect()
    };
    let (a, b) = (by_name(first), by_name(second));
    let mut found = Vec::new();
    if a.len() != first.len() || b.len() != second.len() {
        found.push("a function is declared twice".to_string());
    }
    found.extend(b.keys().filter(|name| !a.contains_key(*name)).map(|name| format!("{name} is not in the first")));
    for (name, function) in &a {
        match b.get(name) {
            None => found.push(format!("{name} is not in the second")),
            Some(other) if other != function => found.push(format!("{function:?}\n{other:?}")),
            Some(_) => {}
        }
    }
    found
}

// ---- constants

type Constants = BTreeMap<String, u64>;

/// A number of C or Rust, and nothing else.
fn number(text: &str) -> Option<u64> {
    text.trim().trim_end_matches('u').replace('_', "").parse().ok()
}

/// The constants of a C header, macros and enumerators, without their prefix.
fn constants_of_c(header: &str) -> Constants {
    let text = without_block_comments(header);
    let constant = |line: &str| {
        let line = line.trim().trim_end_matches(',');
        let (name, value) = match line.strip_prefix("#define ") {
            Some(line) => line.split_once(' ')?,
            None => line.split_once(" = ")?,
        };
        let name = name.strip_prefix("POSTMAN_").unwrap_or_else(|| panic!("{name} has no prefix"));
        Some((name.to_string(), number(value).unwrap_or_else(|| panic!("{name} is no number: {value}"))))
    };
    text.lines().filter(|line| !line.ends_with('"')).filter_map(constant).collect()
}

/// The public constants of a Rust source.
fn constants_of_rust(source: &str) -> Constants {
    let constant = |line: &str| {
        let (name, rest) = line.strip_prefix("pub const ")?.split_once(':').expect("a type");
        let value = rest.split_once('=').expect("a value").1.trim().trim_end_matches(';');
        Some((name.to_string(), number(value).unwrap_or_else(|| panic!("{name} is no number: {value}"))))
    };
    without_line_comments(source).lines().filter_map(constant).collect()
}

/// The cases of the enums of a Rust source that have a number, in capitals.
fn cases_of_rust(source: &str) -> Constants {
    let capitals = |name: &str| {
        let word = |(i, c): (usize, char)| if i > 0 && c.is_uppercase() { format!("_{c}") } else { c.to_string() };
        name.char_indices().map(word).collect::<String>().to_uppercase()
    };
    let case = |line: &str| {
        let (name, value) = line.trim().strip_suffix(',')?.split_once(" = ")?;
        name.chars().all(char::is_alphanumeric).then_some((capitals(name), number(value)?))
    };
    without_line_comments(source).lines().filter_map(case).collect()
}

// ---- the repository's files

fn root() -> PathBuf {
    Path::new(env!("CARGO_MANIFEST_DIR")).join("..")
}

fn read(path: &Path) -> String {
    std::fs::read_to_string(path).unwrap_or_else(|error| panic!("{}: {error}", path.display()))
}

/// The files of a folder and of those in it that end so, by their path in the repository.
fn files(folder: &str, extension: &str) -> Vec<String> {
    let entries = std::fs::read_dir(root().join(folder)).expect("a folder of sources");
    let mut found: Vec<String> = Vec::new();
    for entry in entries.map(|entry| entry.expect("an entry")) {
        let path = format!("{folder}/{}", entry.file_name().into_string().expect("a name"));
        if entry.path().is_dir() && entry.file_name() != "target" && entry.file_name() != "out" {
            found.extend(files(&path, extension));
        } else if entry.path().extension().is_some_and(|e| e == extension) {
            found.push(path);
        }
    }
    found.sort();
    found
}

/// The functions of all these files.
fn of_folder(folder: &str, extension: &str, of: fn(&str) -> Vec<Function>) -> Vec<Function> {
    files(folder, extension).iter().flat_map(|path| of(&read(&root().join(path)))).collect()
}

/// The crate whose functions other languages call.
const EXPORTING: [&str; 1] = ["crates/postman_c/src"];

/// What the tests below compare is all that is declared: one header, and no function for other languages outside the crate that exports and the package's sources.
#[test]
fn nothing_is_left_uncompared() {
    assert_eq!(files("include", "h"), ["include/postman.h"]);
    let declares = |path: &String| {
        let source = without_line_comments(&read(&root().join(path)));
        source.contains("extern \"C\"") || source.contains("no_mangle")
    };
    let elsewhere = |folder: &str, extension: &str, homes: &[&str]| -> Vec<String> {
        let at_home = |path: &String| homes.iter().any(|home| path.starts_with(home));
        files(folder, extension).into_iter().filter(|path| !at_home(path) && declares(path)).collect()
    };
    assert_eq!(elsewhere("crates", "rt", &EXPORTING), [""; 0], "exported from another crate");
    assert_eq!(
        elsewhere("bindings/rust", "rs", &["bindings/rust/src"]),
        [""; 0],
        "declared outside the package's sources"
    );
}

#[test]
fn declarations_agree() {
    let library: Vec<Function> = EXPORTING.iter().flat_map(|folder| of_folder(folder, "rt", of_rattle)).collect();
    assert!(!library.is_empty(), "the library exports no function");
    let header = of_c(&read(&root().join("include/postman.h")));
    assert_eq!(differences(&library, &header), [""; 0], "library and header");
    let package = of_folder("bindings/rust/src", "rs", of_rust);
    assert_eq!(differences(&library, &package), [""; 0], "library and package");
}

#[test]
fn constants_agree() {
    let header = constants_of_c(&read(&root().join("include/postman.h")));
    let package = |file: &str| read(&root().join("bindings/rust/src").join(file));
    let mut all = constants_of_rust(&package("limits.rs"));
    all.extend(cases_of_rust(&package("plan.rs")));
    // An edition's name says what it is in C.
    all.extend(cases_of_rust(&package("edition.rs")).into_iter().map(|(name, number)| (name + "_EDITION", number)));
    // And so does a refusal's.
    let refusals = cases_of_rust(&package("refusal.rs"));
    all.extend(refusals.into_iter().map(|(name, number)| (format!("REFUSED_{name}"), number)));
    assert_eq!(header, all);
    // These are the numbers that the planners are held to.
    for (name, value) in [
        ("MOST_VERTICES", plan::MOST_VERTICES as u64),
        ("MULTIPLIERS", plan::MOST_VERTICES as u64),
        ("MOST_ARCS", plan::MOST_ARCS as u64),
        ("MOST_PARTS", plan::MOST_PARTS as u64),
        ("MOST_PAIRS", plan::MOST_PAIRS as u64),
        ("MOST_WINDOWS", plan::MOST_WINDOWS as u64),
        ("MOST_DISTRICTS", plan::MOST_DISTRICTS as u64),
        ("MOST_ROUNDS", u64::from(plan::MOST_ROUNDS)),
        ("TURN_TREES", plan::TURN_TREES),
        ("LONGEST_FILE", plan::LONGEST_FILE as u64),
        ("SHEET_PLACES", plan::SHEET_PLACES as u64),
        ("MOST_PLACES", plan::MOST_PLACES as u64),
        ("DEFAULT_BUDGET", plan::DEFAULT_BUDGET),
        ("HIGHEST_BUDGET", plan::HIGHEST_BUDGET),
        ("FIRST_EDITION", 1),
        ("SECOND_EDITION", 2),
        ("OPTIONAL", u64::from(plan::OPTIONAL)),
        ("REQUIRED", u64::from(plan::REQUIRED)),
        ("CLOSED", u64::from(plan::CLOSED)),
        ("REFUSED_TORN", u64::from(refusal::TORN)),
        ("REFUSED_EDITION", u64::from(refusal::EDITION)),
        ("REFUSED_EXTENT", u64::from(refusal::EXTENT)),
        ("REFUSED_MARGIN", u64::from(refusal::MARGIN)),
        ("REFUSED_OFF_SHEET", u64::from(refusal::OFF_SHEET)),
        ("REFUSED_UNPRICED", u64::from(refusal::UNPRICED)),
        ("REFUSED_STANDING", u64::from(refusal::STANDING)),
        ("REFUSED_SHORT_SHEET", u64::from(refusal::SHORT_SHEET)),
        ("REFUSED_BUDGET", u64::from(refusal::BUDGET)),
        ("REFUSED_IDLE", u64::from(refusal::IDLE)),
        ("REFUSED_SCATTERED", u64::from(refusal::SCATTERED)),
        ("REFUSED_CUT_OFF", u64::from(refusal::CUT_OFF)),
        ("REFUSED_REPEATED", u64::from(refusal::REPEATED)),
        ("REFUSED_FOREIGN", u64::from(refusal::FOREIGN)),
        ("REFUSED_UNJOINED", u64::from(refusal::UNJOINED)),
        ("REFUSED_MISSED", u64::from(refusal::MISSED)),
        ("REFUSED_STRAY_PAIR", u64::from(refusal::STRAY_PAIR)),
        ("REFUSED_BAD_MARKS", u64::from(refusal::BAD_MARKS)),
        ("REFUSED_BAD_WINDOW", u64::from(refusal::BAD_WINDOW)),
        ("REFUSED_MUST_SHUT", u64::from(refusal::MUST_SHUT)),
        ("REFUSED_NO_MARK", u64::from(refusal::NO_MARK)),
        ("REFUSED_FULL", u64::from(refusal::FULL)),
        ("REFUSED_ROUNDS", u64::from(refusal::ROUNDS)),
    ] {
        assert_eq!(header.get(name), Some(&value), "{name}");
    }
}

/// The text between the first two quotes.
fn quoted(text: &str) -> &str {
    text.split('"').nth(1).unwrap_or_else(|| panic!("no text in quotes: {text}"))
}

/// The line that begins so.
fn line<'a>(text: &'a str, start: &str) -> &'a str {
    text.lines().find(|line| line.starts_with(start)).unwrap_or_else(|| panic!("no line {start}"))
}

/// One version: the header's, with which the C library is built, and those of both packages.
#[test]
fn versions_agree() {
    let header = read(&root().join("include/postman.h"));
    let version = quoted(line(&header, "#define POSTMAN_VERSION "));
    for package in ["bindings/rust/Cargo.toml", "bindings/python/pyproject.toml"] {
        assert_eq!(quoted(line(&read(&root().join(package)), "version = ")), version, "{package}");
    }
}

/// The trade words in C by their number, from 0 on, which is no refusal's.
fn words_of_c(source: &str) -> Vec<String> {
    let (_, rest) = source.split_once("words[] = {").expect("a list of words");
    let (list, _) = rest.split_once('}').expect("the list's end");
    list.split('"').skip(1).step_by(2).map(str::to_string).collect()
}

/// And in the Rust package: of each case in turn the first of two texts.
fn words_of_rust(source: &str) -> Vec<String> {
    let (_, rest) = source.split_once("fn words(self)").expect("the words");
    let cases = rest.split("Refusal::").skip(1).filter(|case| case.contains("=>"));
    cases.map(|case| quoted(case).to_string()).collect()
}

#[test]
fn words_agree() {
    let c = words_of_c(&read(&root().join("bindings/c/words.c")));
    let rust = words_of_rust(&read(&root().join("bindings/rust/src/refusal.rs")));
    assert_eq!((c[0].as_str(), &c[1..]), ("", &rust[..]));
    assert_eq!(rust.len(), 23);
}

// ---- the test can fail

const RATTLE: &str = r#"
// A call. #[unsafe(no_mangle)] and extern "C" of a comment do not count.
#[unsafe(no_mangle)]
pub extern "C" fn call(
    plan: &[u8],
    budget: u64,
    sheet: &mut [u16],
) -> i64
    ensures { result ≡ f plan.now }
{
    other(plan)
}

fn other(plan: &[u8]) -> u32 {
    0
}

#[unsafe(no_mangle)]
pub extern "C" fn write(n: u32, words: &[i64]) -> u64 {
    0
}
"#;

const C: &str = r#"
/* int64_t none(uint8_t x); */
#ifdef __cplusplus
extern "C" {
#endif
#define POSTMAN_NAME "name"
#define POSTMAN_MOST 4294967295u /* most */
enum postman_kind {
    POSTMAN_OFF_SHEET = 5, /* a kind */
    POSTMAN_TORN = 1
};

/* A word. */
const char *word(void);

/* A call. */
int64_t call(const uint8_t *plan, size_t plan_len, uint64_t budget, uint16_t *sheet,
             size_t sheet_len);
uint64_t write(uint32_t n, const int64_t *words, size_t words_len);

#ifdef __cplusplus
}
#endif
"#;

const RUST: &str = r#"
/// fn none(x: u8);
extern "C" {
    /// A call.
    pub fn call(
        plan: *const u8,
        plan_len: usize,
        budget: u64,
        sheet: *mut u16,
        sheet_len: usize,
    ) -> i64;
    pub fn write(n: u32, words: *const i64, words_len: usize) -> u64;
}
pub const MOST: u32 = 4_294_967_295; // most
enum Kind {
    OffSheet = 5,
    Torn = 1,
}
"#;

/// The text with one thing changed.
fn changed(text: &str, old: &str, new: &str) -> String {
    assert_eq!(text.matches(old).count(), 1, "{old}");
    text.replace(old, new)
}

#[test]
fn equal_declarations_do_not_differ() {
    let functions = of_rattle(RATTLE);
    assert_eq!(functions.len(), 2);
    assert_eq!(differences(&functions, &of_c(C)), [""; 0]);
    assert_eq!(differences(&functions, &of_rust(RUST)), [""; 0]);
}

/// Name, number, order, parameter's name, width, sign, constness and result: each is seen in the header.
#[test]
fn a_change_of_the_header_is_seen() {
    for (old, new) in [
        ("int64_t call(", "int64_t cal("),
        ("uint64_t write(uint32_t n, const int64_t *words, size_t words_len);", ""),
        ("uint64_t write(", "uint64_t more(uint8_t x);\nuint64_t write("),
        ("uint64_t budget, uint16_t *sheet,", "uint16_t *sheet, uint64_t budget,"),
        ("size_t plan_len, uint64_t budget", "uint64_t budget, size_t plan_len"),
        ("uint64_t budget, ", ""),
        ("uint32_t n", "uint32_t m"),
        ("size_t sheet_len", "size_t sheet_length"),
        ("uint32_t n", "uint64_t n"),
        ("uint64_t budget", "int64_t budget"),
        ("uint16_t *sheet", "uint8_t *sheet"),
        ("uint16_t *sheet", "uint16_t sheet"),
        ("uint16_t *sheet", "const uint16_t *sheet"),
        ("const uint8_t *plan", "uint8_t *plan"),
        ("size_t words_len", "uint32_t words_len"),
        ("int64_t call(", "uint64_t call("),
        ("int64_t call(", "uint32_t call("),
    ] {
        let text = changed(C, old, new);
        assert!(!differences(&of_rattle(RATTLE), &of_c(&text)).is_empty(), "{old} became {new}");
    }
}

/// The same in the package.
#[test]
fn a_change_of_the_package_is_seen() {
    for (old, new) in [
        ("fn call(", "fn cal("),
        ("pub fn write(n: u32, words: *const i64, words_len: usize) -> u64;", ""),
        ("pub fn write(", "pub fn more(x: u8) -> i64;\n    pub fn write("),
        ("budget: u64,\n        sheet: *mut u16,", "sheet: *mut u16,\n        budget: u64,"),
        ("budget: u64,", ""),
        ("n: u32", "m: u32"),
        ("n: u32", "n: u64"),
        ("sheet: *mut u16", "sheet: *mut u8"),
        ("sheet: *mut u16", "sheet: *const u16"),
        ("plan: *const u8", "plan: *mut u8"),
        ("words_len: usize", "words_len: u32"),
        (") -> i64", ") -> u32"),
    ] {
        let text = changed(RUST, old, new);
        assert!(!differences(&of_rattle(RATTLE), &of_rust(&text)).is_empty(), "{old} became {new}");
    }
}

/// The same in the library.
#[test]
fn a_change_of_the_library_is_seen() {
    for (old, new) in [
        ("fn call(", "fn cal("),
        ("budget: u64,\n    sheet: &mut [u16],", "sheet: &mut [u16],\n    budget: u64,"),
        ("budget: u64,", ""),
        ("n: u32", "m: u32"),
        ("n: u32", "n: u64"),
        ("&mut [u16]", "&mut [u8]"),
        ("&mut [u16]", "&[u16]"),
        ("words: &[i64]", "words: &mut [i64]"),
        ("words: &[i64]", "words: &[u64]"),
        (") -> i64", ") -> u32"),
    ] {
        let functions = of_rattle(&changed(RATTLE, old, new));
        assert!(!differences(&functions, &of_c(C)).is_empty(), "{old} became {new}");
        assert!(!differences(&functions, &of_rust(RUST)).is_empty(), "{old} became {new}");
    }
}

#[test]
#[should_panic(expected = "write is not exported by its name")]
fn a_mangled_name_is_seen() {
    of_rattle(&changed(RATTLE, "#[unsafe(no_mangle)]\npub extern \"C\" fn write", "pub extern \"C\" fn write"));
}

#[test]
fn constants_are_found() {
    let expected = [("MOST", 4_294_967_295), ("OFF_SHEET", 5), ("TORN", 1)];
    let expected: Constants = expected.into_iter().map(|(name, value)| (name.to_string(), value)).collect();
    assert_eq!(constants_of_c(C), expected);
    let mut rust = constants_of_rust(RUST);
    rust.extend(cases_of_rust(RUST));
    assert_eq!(rust, expected);
}

#[test]
fn words_are_found() {
    let c = "static const char *const words[] = {\n    \"\", \"torn\",\n    \"cut off\",\n};\nconst char *f(void) { return \"x\"; }\n";
    assert_eq!(words_of_c(c), ["", "torn", "cut off"]);
    let rust = "fn words(self) -> X { match self {\nRefusal::Torn => (\"torn\", \"the end\"),\nRefusal::CutOff => {\n(\"cut off\", \"x\")\n}\n";
    assert_eq!(words_of_rust(rust), ["torn", "cut off"]);
}

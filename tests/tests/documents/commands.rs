//! Commands that need the library.

use super::*;
use std::process::Command;
use std::sync::OnceLock;

fn scratch(name: &str) -> PathBuf {
    Path::new(env!("CARGO_TARGET_TMPDIR")).join(name)
}

fn archive() -> PathBuf {
    let folder = std::env::var_os("POSTMAN_LIB_DIR").map(PathBuf::from);
    folder.unwrap_or_else(|| root().join("target/staticlib")).join("libproved.a")
}

fn printed(command: &mut Command) -> String {
    let output = command.output().unwrap_or_else(|error| panic!("{command:?}: {error}"));
    assert!(output.status.success(), "{command:?}: {}", String::from_utf8_lossy(&output.stderr));
    String::from_utf8(output.stdout).expect("text")
}

/// The shared library, for Python.
fn library() -> &'static Path {
    static LIBRARY: OnceLock<PathBuf> = OnceLock::new();
    LIBRARY.get_or_init(|| {
        let library = scratch("libpostman_documents.so");
        let mut command = Command::new("cc");
        command.args(["-shared", "-fPIC", "-Wl,--whole-archive"]).arg(archive()).arg("-Wl,--no-whole-archive");
        command.arg("-I").arg(root().join("include")).arg(root().join("bindings/c/words.c"));
        printed(command.arg("-o").arg(&library));
        library
    })
}

/// Runs a line at the repository's root.
fn shell(line: &str) -> String {
    let mut command = Command::new("bash");
    command.args(["-o", "pipefail", "-c", line]).current_dir(root()).env("POSTMAN_LIBRARY", library());
    printed(&mut command)
}

/// Every command that is shown with what it prints.
#[test]
fn commands_print_what_is_shown() {
    for name in ["README.md", "docs/CALLS.md", "docs/FORMAT.md"] {
        let document = text(name);
        let blocks = blocks(&document, "console");
        assert!(!blocks.is_empty(), "{name} has no command");
        for (block, _) in blocks {
            let commands = block.join("\n") + "\n";
            for command in format!("\n{commands}").split("\n$ ").skip(1) {
                let (line, shown) = command.split_once('\n').expect("a line");
                assert_eq!(shell(line).trim_end(), shown.trim_end(), "{name}: {line}");
            }
        }
    }
}

/// Commands that are shown without what they print are those of the gate, which runs this test, but for what follows them.
#[test]
fn other_commands_are_the_gates() {
    let document = text("README.md");
    for line in blocks(&document, "sh").iter().flat_map(|(block, _)| block) {
        let line = line.split('#').next().expect("a command").trim();
        let (gate, then) = line.split_once(" && ").unwrap_or((line, ""));
        assert!(["tools/library", "bash .ci/run", "make"].contains(&gate), "{gate}");
        if !then.is_empty() {
            assert_eq!(shell(then), text("examples/town.txt"));
        }
    }
    assert!(document.contains("`examples/town.txt`"), "README says what the first command prints");
}

/// The lines of C are compiled and run; they lay the drive of case A.
#[test]
fn c_is_compiled_and_run() {
    let document = text("README.md");
    let blocks = blocks(&document, "c");
    assert_eq!(blocks.len(), 1);
    let (source, program) = (scratch("readme.c"), scratch("readme"));
    let lines = blocks[0].0.join("\n");
    let whole = format!("#include <stdio.h>\n#include \"postman.h\"\nint main(void) {{\n{lines}\nreturn 0;\n}}\n");
    std::fs::write(&source, whole).expect("a file to be written");
    let mut command = Command::new("cc");
    command.args(["-std=c99", "-Wall", "-Wextra", "-Werror", "-pedantic", "-I"]).arg(root().join("include"));
    printed(command.arg(&source).arg(archive()).arg("-o").arg(&program));
    assert_eq!(printed(&mut Command::new(program)), "cost 8, floor 8\n");
}

/// The picture is of the drive that the command lays for that list.
#[test]
fn the_picture_is_of_the_drive() {
    let told = shell("PYTHONPATH=bindings/python python3 -m postman drive examples/town/streets.csv --budget 1000000");
    let of = |word: &str| {
        let line = told.lines().find_map(|line| line.strip_prefix(word)).unwrap_or_else(|| panic!("no {word}"));
        line.trim().to_string()
    };
    let picture = text("docs/town-drive.svg");
    let desc = picture.split("<desc>").nth(1).and_then(|rest| rest.split("</desc>").next()).expect("a description");
    assert!(
        desc.contains(&format!("cost {};", of("cost"))) && desc.contains(&format!("floor of {};", of("floor"))),
        "{desc}"
    );
    let steps = told.lines().filter(|line| line.trim_start().starts_with(|c: char| c.is_ascii_digit())).count();
    assert!(desc.starts_with(&format!("{steps} steps")), "{desc}");
    assert!(text("README.md").contains(&format!("a drive of {steps} steps](docs/town-drive.svg)")));
}

//! The plans in `examples/`, with what the program `drive` prints for them, and the program in C that prints the same.

use postman_tests::oracle::{judge, parse};
use postman_tests::plan::{PROGRAM_BUDGET, SHEET_PLACES};
use postman_tests::planner::{Answer, Planner, Refusal};
use postman_tests::yardstick::Yardstick;
use std::path::{Path, PathBuf};

fn folder() -> PathBuf {
    Path::new(env!("CARGO_MANIFEST_DIR")).join("../examples")
}

/// Every plan file of the folder with the text beside it, by name.
fn examples() -> Vec<(String, Vec<u8>, String)> {
    let entries = std::fs::read_dir(folder()).expect("there are examples");
    let mut plans: Vec<PathBuf> = entries.map(|entry| entry.expect("a file").path()).collect();
    plans.retain(|path| path.extension().is_some_and(|e| e == "plan"));
    plans.sort();
    assert!(plans.len() >= 4, "examples are missing");
    let read = |path: &Path| std::fs::read(path).expect("a file that can be read");
    let text = |path: &Path| String::from_utf8(read(&path.with_extension("txt"))).expect("text");
    plans.iter().map(|path| (path.display().to_string(), read(path), text(path))).collect()
}

#[test]
fn examples_are_of_both_editions() {
    for edition in [1, 2] {
        assert!(examples().iter().any(|(_, file, _)| parse(file).edition == edition), "none of edition {edition}");
    }
}

/// The lines of document 01's program, but for the places.
fn first_lines(answer: &Result<Answer, Refusal>) -> String {
    match answer {
        Ok(a) => {
            let whole = if a.whole { "yes" } else { "no" };
            format!("cost {}\nfloor {}\ntrees {}\nwhole {whole}\nparts {}\n", a.cost, a.floor, a.trees, a.parts)
        }
        Err(number) => format!("refused {number}\n"),
    }
}

/// What is printed of an example is right: its fields are the yardstick's, and its arcs are a drive of the cost.
#[test]
fn examples_are_right() {
    for (name, file, text) in examples() {
        let mut sheet = vec![0; SHEET_PLACES];
        let answer = Yardstick.plan_call(&file, PROGRAM_BUDGET, &mut sheet);
        let rest = text.strip_prefix(&first_lines(&answer)).unwrap_or_else(|| panic!("{name}: other fields"));
        let places: Vec<u16> =
            rest.lines().map(|line| line.strip_prefix("arc ").expect("an arc").parse().expect("a number")).collect();
        match answer {
            Ok(answer) => assert_eq!(judge(&parse(&file), &places), Ok(answer.cost), "{name}: no drive of the cost"),
            Err(_) => assert!(places.is_empty(), "{name}: a refusal has no place"),
        }
    }
}

/// The proved program prints just these lines.
#[cfg(feature = "proved")]
#[test]
fn drive_prints_the_examples() {
    use std::process::{Command, Stdio};
    let program = Path::new(env!("CARGO_MANIFEST_DIR")).join("../target/bin/drive");
    for (name, _, text) in examples() {
        let plan = std::fs::File::open(&name).expect("a plan");
        let output = Command::new(&program).stdin(Stdio::from(plan)).output().expect("the program that `rt` has built");
        assert!(output.status.success(), "{name}: {:?}", output.status);
        assert_eq!(String::from_utf8_lossy(&output.stdout), text, "{name}");
    }
}

/// The example in C, built by the system's compiler with the header and the library.
#[cfg(feature = "proved")]
mod in_c {
    use super::*;
    use postman_tests::plan::LONGEST_FILE;
    use postman_tests::planner::Proved;
    use std::process::{Command, Output};
    use std::sync::OnceLock;

    fn root() -> PathBuf {
        Path::new(env!("CARGO_MANIFEST_DIR")).join("..")
    }

    /// Where built programs and made-up plans go.
    fn scratch(name: &str) -> PathBuf {
        Path::new(env!("CARGO_TARGET_TMPDIR")).join(name)
    }

    /// The library that the Rust package links too.
    fn library() -> PathBuf {
        let folder = std::env::var_os("POSTMAN_LIB_DIR").map(PathBuf::from);
        folder.unwrap_or_else(|| root().join("target/staticlib")).join("libproved.a")
    }

    fn compile(command: &mut Command) {
        let output = command.output().unwrap_or_else(|error| panic!("{command:?}: {error}"));
        assert!(output.status.success(), "{command:?}: {}", String::from_utf8_lossy(&output.stderr));
    }

    /// Runs the example on a file.
    fn run(plan: &Path) -> Output {
        static PROGRAM: OnceLock<PathBuf> = OnceLock::new();
        let program = PROGRAM.get_or_init(|| {
            let program = scratch("plan");
            let mut command = Command::new("cc");
            command.args(["-std=c99", "-Wall", "-Wextra", "-Werror", "-pedantic"]);
            command.arg("-I").arg(root().join("include"));
            command.arg(folder().join("plan.c")).arg(root().join("bindings/c/words.c"));
            compile(command.arg(library()).arg("-o").arg(&program));
            program
        });
        Command::new(program).arg(plan).output().expect("the program that was built")
    }

    #[test]
    fn prints_the_examples() {
        for (name, _, text) in examples() {
            let output = run(Path::new(&name));
            assert!(output.status.success(), "{name}: {:?}", output.status);
            assert_eq!(String::from_utf8_lossy(&output.stdout), text, "{name}");
        }
    }

    /// Files that are cut short, or longer than any plan and than what the program reads of them.
    #[test]
    fn refuses_what_the_library_refuses() {
        let (_, town, _) = examples().pop().expect("an example");
        for length in [0, 2, 3, town.len() - 1, town.len() + 1, LONGEST_FILE, LONGEST_FILE + 1, 4_096, 4_097, 100_000] {
            let mut file = town.clone();
            file.resize(length, 0);
            let told = Proved.plan_call(&file, PROGRAM_BUDGET, &mut vec![0; SHEET_PLACES]);
            let refused = first_lines(&told);
            assert!(refused.starts_with("refused"), "{length} bytes");
            let word = told.err().and_then(postman::Refusal::from_number).expect("a refusal").word();
            let path = scratch("refused.plan");
            std::fs::write(&path, &file).expect("a file that can be written");
            let output = run(&path);
            assert!(output.status.success(), "{length} bytes: {:?}", output.status);
            assert_eq!(String::from_utf8_lossy(&output.stdout), refused, "{length} bytes");
            assert_eq!(String::from_utf8_lossy(&output.stderr), format!("plan: {word}\n"), "{length} bytes");
        }
    }

    #[test]
    fn says_what_it_cannot_read() {
        for name in ["no such file", "."] {
            let output = run(&scratch(name));
            assert_eq!(output.status.code(), Some(1), "{name}");
            assert!(output.stdout.is_empty() && !output.stderr.is_empty(), "{name}");
        }
    }

    #[test]
    fn header_is_good_c_plus_plus() {
        let mut command = Command::new("c++");
        command.args(["-x", "c++", "-fsyntax-only", "-Wall", "-Wextra", "-Werror", "-pedantic"]);
        compile(command.arg(root().join("include/postman.h")));
    }
}

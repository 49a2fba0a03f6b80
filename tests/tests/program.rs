//! The program `drive` on plans at the limits: what it prints, and in how many writes.
#![cfg(feature = "proved")]

use postman_tests::instances::{checked, fullest, longest};
use postman_tests::oracle::file_of;
use postman_tests::plan::{Arc, Plan, OPTIONAL, PROGRAM_BUDGET, REQUIRED, SHEET_PLACES};
use postman_tests::planner::{Planner, Proved};
use std::fs::File;
use std::io::Write;
use std::os::fd::OwnedFd;
use std::os::unix::net::UnixDatagram;
use std::path::Path;
use std::process::{Command, Stdio};

/// Runs the program on a plan file: what it prints, and the number of its writes. Its output is a datagram socket, on which each write arrives as a message of
/// its own; an empty message, sent when the program has ended, is the end.
fn run(plan: &[u8]) -> (Vec<u8>, usize) {
    let program = Path::new(env!("CARGO_MANIFEST_DIR")).join("../target/bin/drive");
    let (ours, theirs) = UnixDatagram::pair().expect("sockets");
    let end = theirs.try_clone().expect("a socket");
    let mut child = Command::new(program)
        .stdin(Stdio::piped())
        .stdout(Stdio::from(OwnedFd::from(theirs)))
        .spawn()
        .expect("the program that `rt` has built");
    child.stdin.take().expect("a pipe").write_all(plan).expect("the program reads all of its input");
    let ending = std::thread::spawn(move || {
        let status = child.wait().expect("a program that ends");
        end.send(&[]).expect("an empty message");
        status
    });
    let (mut printed, mut writes) = (Vec::new(), 0);
    let mut message = [0; 1 << 16];
    loop {
        match ours.recv(&mut message).expect("a message") {
            0 => break,
            length => {
                printed.extend_from_slice(&message[..length]);
                writes += 1;
            }
        }
    }
    assert!(ending.join().expect("no panic").success());
    (printed, writes)
}

/// The lines of document 01's program for what the library answers.
fn lines(plan: &[u8]) -> (String, usize) {
    let mut sheet = vec![0; SHEET_PLACES];
    let a = Proved.plan_call(plan, PROGRAM_BUDGET, &mut sheet).expect("a good plan");
    let whole = if a.whole { "yes" } else { "no" };
    let mut text = format!("cost {}\nfloor {}\ntrees {}\nwhole {whole}\nparts {}\n", a.cost, a.floor, a.trees, a.parts);
    for place in &sheet[..a.places] {
        text += &format!("arc {place}\n");
    }
    (text, a.places)
}

/// The output comes in blocks, however long the drive: at most 50 writes for a full sheet, so in proportion for a shorter drive.
#[test]
fn drive_writes_in_blocks() {
    let longest_file = checked(fullest(), |k, _| 1 + k as u16);
    for (plan, least) in [(longest(), 12_000), (fullest(), 256), (longest_file, 256)] {
        let file = file_of(&plan);
        let (text, places) = lines(&file);
        assert!(places >= least, "{places} places");
        let (printed, writes) = run(&file);
        assert!(printed == text.as_bytes(), "the program prints something else than the library answers");
        assert!(writes <= 1 + 49 * places / SHEET_PLACES, "{writes} writes for {places} places");
    }
}

/// A refusal is one line, and one write.
#[test]
fn drive_writes_a_refusal_at_once() {
    assert_eq!(run(&[0x10, 0x40]), (b"refused 1\n".to_vec(), 1));
}

/// Runs the program with arguments on a plan file: what it writes on standard output, if that is read, and on standard error.
fn said(arguments: &[&str], plan: &[u8], out: Stdio) -> (String, String) {
    let mut child = Command::new(Path::new(env!("CARGO_MANIFEST_DIR")).join("../target/bin/drive"))
        .args(arguments)
        .stdin(Stdio::piped())
        .stdout(out)
        .stderr(Stdio::piped())
        .spawn()
        .expect("the program that `rt` has built");
    // Where it is given an argument it has ended before it reads, and writing fails.
    let _ = child.stdin.take().expect("a pipe").write_all(plan);
    let output = child.wait_with_output().expect("a program that ends");
    assert!(output.status.success());
    (String::from_utf8(output.stdout).expect("text"), String::from_utf8(output.stderr).expect("text"))
}

/// A file for each refusal that the program can meet: its sheet and its budget are good.
fn refused() -> Vec<(u32, Vec<u8>)> {
    let file = |n: usize, arcs: Vec<Arc>| file_of(&Plan { edition: 1, n, arcs });
    let a = |standing, cost| vec![Arc::new(0, 1, REQUIRED, 5), Arc::new(1, 0, standing, cost)];
    let loops = |n: usize| (0..n).map(|v| Arc::new(v, v, REQUIRED, 1)).collect::<Vec<Arc>>();
    vec![
        (1, vec![0x10, 0x40]),
        (2, vec![0x30, 0x40, 0x20]),
        (3, vec![0x18, 0x20, 0x10]),
        (4, [file(2, a(OPTIONAL, 3)), vec![0]].concat()),
        (5, file(1, a(OPTIONAL, 3))),
        (6, file(2, a(REQUIRED, 0))),
        (7, file(2, a(3, 3))),
        (10, file(2, vec![Arc::new(0, 1, OPTIONAL, 5)])),
        (11, file(9, loops(9))),
        (12, file(8, loops(8))),
        (13, file(2, [a(OPTIONAL, 3), a(OPTIONAL, 3)].concat())),
    ]
}

/// On standard error stands the refusal's trade word, as the Rust package has it; on standard output what document 01 asks for.
#[test]
fn drive_says_a_refusal_by_its_word() {
    for (number, plan) in refused() {
        let refusal = postman::Refusal::ALL.iter().find(|refusal| refusal.number() == number).expect("a refusal");
        let expected = (format!("refused {number}\n"), format!("drive: {}\n", refusal.word()));
        assert_eq!(said(&[], &plan, Stdio::piped()), expected);
    }
}

/// An argument is not taken, a failed write is told, and otherwise nothing is said.
#[test]
fn drive_says_what_went_wrong() {
    let plan = file_of(&longest());
    let usage = "drive: no argument is taken\ndrive: usage: drive < FILE\n";
    assert_eq!(said(&["town.plan"], &plan, Stdio::piped()), (String::new(), usage.to_string()));
    let full = File::options().write(true).open("/dev/full").expect("a device that is always full");
    let (_, error) = said(&[], &plan, Stdio::from(full));
    assert!(error.starts_with("drive: writing failed\n"), "{error}");
    assert_eq!(said(&[], &plan, Stdio::piped()).1, "");
}

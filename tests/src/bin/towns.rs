//! Writes the benchmark's four towns as plan files into a folder: `cargo run --release --bin towns FOLDER`.

use postman_tests::instances::towns;
use postman_tests::oracle::file_of;
use std::path::Path;

fn main() {
    let folder = std::env::args().nth(1).expect("the folder that the plans go to");
    for (name, plan) in towns() {
        let path = Path::new(&folder).join(name.replace(' ', "_") + ".plan");
        std::fs::write(&path, file_of(&plan)).unwrap_or_else(|error| panic!("{}: {error}", path.display()));
    }
}

//! Links the static library that `tools/library` builds from the proved crates, or the one in the folder that `POSTMAN_LIB_DIR` names: that archive, or
//! the `libpostman.a` that `make install` puts into `lib`.
use std::env;
use std::path::PathBuf;

fn main() {
    println!("cargo:rerun-if-changed=build.rs");
    println!("cargo:rerun-if-env-changed=POSTMAN_LIB_DIR");
    let package = PathBuf::from(env::var_os("CARGO_MANIFEST_DIR").expect("cargo names the package's folder"));
    let root = package.join("../..");
    let folder = env::var_os("POSTMAN_LIB_DIR").map_or_else(|| root.join("target/staticlib"), PathBuf::from);
    let found = ["proved", "postman"].into_iter().find(|name| folder.join(format!("lib{name}.a")).is_file());
    let name = found.unwrap_or_else(|| {
        panic!(
            "there is no library in {}: run `tools/library` in the repository, or set POSTMAN_LIB_DIR to the absolute path of the folder that has \
             libproved.a or libpostman.a",
            folder.display()
        )
    });
    println!("cargo:rerun-if-changed={}", folder.join(format!("lib{name}.a")).display());
    println!("cargo:rustc-link-search=native={}", folder.display());
    println!("cargo:rustc-link-lib=static={name}");
}

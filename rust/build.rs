//! Links the proved library: from the folder that REACHVOLEM_LIB names, else from ../target/native, where tools/native-lib
//! leaves it, else from ../dist/lib, where tools/make-dist does. A file `links` beside it names further libraries, one a
//! line: the library that checks what its compiler assumes needs the address sanitizer's.

use std::{
    env, fs,
    path::{Path, PathBuf},
};

/// The library's name for the linker: as it is compiled, and as it is taken along.
const NAMES: [&str; 2] = ["exports", "reachvolem"];

fn main() {
    println!("cargo::rerun-if-env-changed=REACHVOLEM_LIB");
    let folders = folders();
    let mut places = folders.iter().flat_map(|folder| NAMES.map(|name| (folder, name)));
    let place = places.find(|(folder, name)| file(folder, name).is_file());
    match place {
        Some((folder, name)) => link(folder, name),
        None => println!("cargo::error={}", missing(&folders)),
    }
}

/// Where the library may stand: where the caller says, or else in the repository.
fn folders() -> Vec<PathBuf> {
    let own = PathBuf::from(env::var_os("CARGO_MANIFEST_DIR").expect("run by cargo"));
    match env::var_os("REACHVOLEM_LIB").filter(|given| !given.is_empty()) {
        Some(given) => vec![PathBuf::from(given)],
        None => ["../target/native", "../dist/lib"].map(|folder| own.join(folder)).to_vec(),
    }
}

/// The file of a library in a folder.
fn file(folder: &Path, name: &str) -> PathBuf {
    folder.join(format!("lib{name}.a"))
}

/// Names the library to the linker, and what `links` names.
fn link(folder: &Path, name: &str) {
    println!("cargo::rerun-if-changed={}", file(folder, name).display());
    println!("cargo::rustc-link-search=native={}", folder.display());
    println!("cargo::rustc-link-lib=static={name}");
    for name in fs::read_to_string(folder.join("links")).unwrap_or_default().lines() {
        println!("cargo::rustc-link-lib=dylib={name}");
    }
}

/// What to run where the library is in none of these folders.
fn missing(folders: &[PathBuf]) -> String {
    let folders: Vec<String> = folders.iter().map(|folder| folder.display().to_string()).collect();
    format!(
        "neither libexports.a nor libreachvolem.a is in {}: run `tools/native-lib exports` in the \
         repository, or set REACHVOLEM_LIB to the folder that has it",
        folders.join(" or ")
    )
}

//! The work of the four build scripts: find the Rust's five files, write the lines that make them modules of a
//! crate, and apply our patches to a text kept in the build's folder.
//!
//! No file of the Rust is kept here. The build reads it where it stands: in the folder that `SUPERCLUSTER_RS` names,
//! otherwise in `shared/docs/src/src` beside the repository. A patch is a unified diff; the build fails if one line
//! that it shows is not there to the letter.

mod patch;

use std::{
    env, fs,
    path::{Path, PathBuf},
};

/// The files of the Rust; its lib.rs holds no more than the module lines for them.
const FILES: [&str; 5] = ["builder", "error", "kdbush", "range", "supercluster"];

/// Module lines for the five files as they stand.
pub fn untouched() {
    let folder = folder();
    let lines: String = FILES.iter().map(|name| module(name, &source(&folder, name))).collect();
    write(&out_folder().join("modules.rs"), &lines);
}

/// Module lines with one file taken through patches, one after the other. Their paths start at the build script's
/// folder, and each names its lines as the patches before it leave them.
pub fn patched(changed: &str, patches: &[&str]) {
    let folder = folder();
    let mut lines = String::new();
    for name in FILES {
        let original = source(&folder, name);
        if name == changed {
            let copy = out_folder().join(format!("{name}.rs"));
            write(&copy, &patches.iter().fold(read(&original), changed_by));
            // What only the removed lines called is left without a caller.
            lines += "#[allow(dead_code)]\n";
            lines += &module(name, &copy);
        } else {
            lines += &module(name, &original);
        }
    }
    write(&out_folder().join("modules.rs"), &lines);
}

/// A text taken through a patch; the build runs again when the patch changes.
fn changed_by(text: String, patch: &&str) -> String {
    println!("cargo::rerun-if-changed={patch}");
    let changed = patch::apply(&read(Path::new(patch)), &text);
    changed.unwrap_or_else(|why| panic!("{patch}: {why}"))
}

/// Where the five files stand: SUPERCLUSTER_RS, or `shared/docs/src/src` beside the repository.
fn folder() -> PathBuf {
    println!("cargo::rerun-if-env-changed=SUPERCLUSTER_RS");
    let crate_folder = PathBuf::from(env::var_os("CARGO_MANIFEST_DIR").expect("run by cargo"));
    let given = env::var_os("SUPERCLUSTER_RS").filter(|given| !given.is_empty());
    let folder = match given {
        Some(given) => PathBuf::from(given),
        None => crate_folder.join("../../../../shared/docs/src/src"),
    };
    fs::canonicalize(&folder)
        .unwrap_or_else(|why| panic!("the Rust's sources, {}: {why}", folder.display()))
}

/// One of the five files; the build runs again when it changes.
fn source(folder: &Path, name: &str) -> PathBuf {
    let path = folder.join(format!("{name}.rs"));
    println!("cargo::rerun-if-changed={}", path.display());
    assert!(path.is_file(), "{} is not there", path.display());
    path
}

/// The two lines that make a file a module and hand its names on.
fn module(name: &str, path: &Path) -> String {
    let path = path.to_str().expect("a path of plain text");
    format!("#[path = {path:?}]\nmod {name};\npub use {name}::*;\n")
}

fn out_folder() -> PathBuf {
    PathBuf::from(env::var_os("OUT_DIR").expect("run by cargo"))
}

fn read(path: &Path) -> String {
    fs::read_to_string(path).unwrap_or_else(|why| panic!("{}: {why}", path.display()))
}

fn write(path: &Path, text: &str) {
    fs::write(path, text).unwrap_or_else(|why| panic!("{}: {why}", path.display()));
}

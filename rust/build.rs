//! Finds the proved library: the archive that BASILVAULT_LIBRARY names, else the one that the repository around this crate has built or now builds.

use std::path::{Path, PathBuf};
use std::process::{Command, exit};

/// What to do where there is no library.
const HELP: &str = "name a built one in BASILVAULT_LIBRARY, or use the crate from its repository and run `.ci/archive` there";

/// Ends the build with a message.
fn fail(what: &str) -> ! {
    eprintln!("basilvault: {what}: {HELP}");
    exit(1);
}

/// The archive that a user has named.
fn given(path: PathBuf) -> PathBuf {
    if !path.is_absolute() {
        fail(&format!("BASILVAULT_LIBRARY is {}, which is no absolute path", path.display()));
    }
    path
}

/// The archive of the repository, which `.ci/archive` proves and builds where its sources have changed since.
fn of_repository() -> PathBuf {
    let here = PathBuf::from(std::env::var_os("CARGO_MANIFEST_DIR").expect("cargo names the crate's folder"));
    let root = here.parent().unwrap_or(Path::new("/"));
    if !root.join("crates/capi").is_dir() {
        fail(&format!("{} is no repository of the library", root.display()));
    }
    // not the folders out/ beside these, which are large, and change with each proof
    println!("cargo::rerun-if-changed={}", root.join("crates.txt").display());
    for folder in std::fs::read_dir(root.join("crates")).into_iter().flatten().flatten() {
        for part in ["src", "specs", "proofs"].map(|part| folder.path().join(part)) {
            if part.is_dir() {
                println!("cargo::rerun-if-changed={}", part.display());
            }
        }
    }
    match Command::new(root.join(".ci/archive")).output() {
        Err(e) => fail(&format!("the library's script does not run ({e})")),
        Ok(done) if !done.status.success() => fail(&format!("the library is not built\n{}", String::from_utf8_lossy(&done.stderr))),
        Ok(done) => {
            // what was built anew is said
            if let Some(said) = String::from_utf8_lossy(&done.stderr).lines().next() {
                println!("cargo::warning={said}");
            }
            root.join("target/staticlib/libcapi.a")
        }
    }
}

fn main() {
    println!("cargo::rerun-if-env-changed=BASILVAULT_LIBRARY");
    println!("cargo::rerun-if-changed=build.rs");
    let library = std::env::var_os("BASILVAULT_LIBRARY").map_or_else(of_repository, |path| given(path.into()));
    println!("cargo::rerun-if-changed={}", library.display());
    let archive = std::fs::read(&library).unwrap_or_else(|e| fail(&format!("{} cannot be read ({e})", library.display())));
    let out = PathBuf::from(std::env::var_os("OUT_DIR").expect("cargo gives a folder"));
    // under its own name, so that it meets no other library
    std::fs::write(out.join("libbasilvault.a"), archive).expect("cargo's folder takes the library");
    println!("cargo::rustc-link-search=native={}", out.display());
    println!("cargo::rustc-link-lib=static=basilvault");
}

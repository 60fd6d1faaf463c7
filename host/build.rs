//! Finds or makes Letchwater's static library, and links it.

use std::path::{Path, PathBuf};
use std::process::{Command, Output};
use std::{env, fs};

const ARCHIVE: &str = "libletchwater.a";

fn main() {
    println!("cargo::rerun-if-env-changed=LETCHWATER_LIB_DIR");
    match library() {
        Ok(archive) => link(&archive),
        Err(message) => println!("cargo::error={message}"),
    }
}

/// The archive in the directory that `LETCHWATER_LIB_DIR` names; without it the repository's own,
/// which is made where it is absent.
fn library() -> Result<PathBuf, String> {
    if let Some(directory) = env::var_os("LETCHWATER_LIB_DIR") {
        let archive = Path::new(&directory).join(ARCHIVE);
        return found(&archive)
            .ok_or_else(|| format!("LETCHWATER_LIB_DIR: there is no {}", archive.display()));
    }
    let package = env::var_os("CARGO_MANIFEST_DIR").expect("Cargo sets it");
    let root = Path::new(&package).join("..");
    let archive = root.join("target/staticlib").join(ARCHIVE);
    if let Some(archive) = found(&archive) {
        return Ok(archive);
    }
    make(&root)?;
    found(&archive).ok_or_else(|| format!("`tools/staticlib` made no {ARCHIVE}"))
}

fn found(archive: &Path) -> Option<PathBuf> {
    let archive = fs::canonicalize(archive).ok()?;
    archive.is_file().then_some(archive)
}

/// What it prints is taken and not passed on, since Cargo reads this program's output.
fn make(root: &Path) -> Result<(), String> {
    let run = Command::new(root.join("tools/staticlib")).output();
    match run {
        Ok(output) if output.status.success() => Ok(()),
        Ok(output) => Err(format!(
            "`tools/staticlib` failed with {}: {}; without `rt`, set LETCHWATER_LIB_DIR to a directory \
             that has {ARCHIVE}",
            output.status,
            last_line(&output)
        )),
        Err(error) => Err(format!(
            "{ARCHIVE} is absent and `tools/staticlib` cannot make it ({error}); \
             set LETCHWATER_LIB_DIR to a directory that has it"
        )),
    }
}

/// A message to Cargo is one line; the last has the verdict.
fn last_line(output: &Output) -> String {
    let printed = [output.stdout.as_slice(), &output.stderr].concat();
    let printed = String::from_utf8_lossy(&printed);
    printed.trim().lines().last().unwrap_or_default().into()
}

fn link(archive: &Path) {
    let directory = archive.parent().expect("a file is in a directory");
    println!("cargo::rerun-if-changed={}", archive.display());
    println!("cargo::rustc-link-search=native={}", directory.display());
    println!("cargo::rustc-link-lib=static=letchwater");
}

//! Finds the Rust original beside the repository. It may be absent: what needs it is then skipped.

use std::path::{Path, PathBuf};
use std::{env, fs};

fn main() {
    println!("cargo::rustc-check-cfg=cfg(rust_source)");
    let package = PathBuf::from(env::var_os("CARGO_MANIFEST_DIR").unwrap());
    include_rust_source(&package);
}

fn include_rust_source(package: &Path) {
    println!("cargo::rerun-if-env-changed=LETCHWATER_RUST");
    let source = env::var_os("LETCHWATER_RUST").unwrap_or("../../shared/docs/src".into());
    let decoder = package.join(source).join("src/lossless/decoder");
    let reverse_transform = decoder.join("reverse_transform.rs");
    let module = decoder.join("mod.rs");
    if !(exists(&reverse_transform) & exists(&module)) {
        return;
    }

    let module = fs::read_to_string(module).unwrap();
    let included = format!(
        "#[allow(dead_code, clippy::all)]\n#[path = {:?}]\nmod reverse_transform;\n\n{}\n\n{}\n",
        reverse_transform,
        function(&module, "subsample_size"),
        function(&module, "adjust_color_map"),
    );
    let out = PathBuf::from(env::var_os("OUT_DIR").unwrap());
    fs::write(out.join("rust_source.rs"), included).unwrap();
    println!("cargo::rustc-cfg=rust_source");
}

/// The text of one function, from the start of its signature's line to its closing brace. The two
/// that are taken have no brace in a string or a comment.
fn function<'a>(source: &'a str, name: &str) -> &'a str {
    let signature = source
        .find(&format!("fn {name}("))
        .unwrap_or_else(|| panic!("mod.rs has no function {name}"));
    let start = source[..signature].rfind('\n').map_or(0, |end| end + 1);
    let mut depth = 0;
    for (at, letter) in source[start..].char_indices() {
        match letter {
            '{' => depth += 1,
            '}' if depth == 1 => return &source[start..=start + at],
            '}' => depth -= 1,
            _ => {}
        }
    }
    panic!("the function {name} does not end");
}

/// Also has Cargo look again when the file comes, goes or changes.
fn exists(file: &Path) -> bool {
    println!("cargo::rerun-if-changed={}", file.display());
    file.is_file()
}

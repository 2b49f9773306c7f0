//! Writes the modules of the Rust's source, each with its path: the folder that `CLVM_RS` names, a checkout of clvm_rs, or
//! `../shared/docs/src` beside the repository. The files are compiled unchanged.

use std::fs;
use std::path::{Path, PathBuf};

const ROOT: [&str; 3] = ["pub allocator", "pub error", "pub traverse_path"];
const SERDE: [&str; 9] = [
    "bitset",
    "de_br",
    "identity_hash",
    "incremental",
    "pub parse_atom",
    "path_builder",
    "serialized_length",
    "tree_cache",
    "pub write_atom",
];

fn folder() -> PathBuf {
    let named = std::env::var_os("CLVM_RS").map(PathBuf::from);
    let here = std::env::var_os("CARGO_MANIFEST_DIR").expect("cargo sets it");
    let folder = named.unwrap_or_else(|| Path::new(&here).join("../../../shared/docs/src"));
    folder.join("src").canonicalize().unwrap_or_else(|_| {
        eprintln!("oracle: {} has no src", folder.display());
        std::process::exit(1)
    })
}

/// A line for each module; `pub` in front of a name makes it public.
fn modules(folder: &Path, names: &[&str]) -> String {
    names.iter().fold(String::new(), |text, item| {
        let (public, name) = match item.strip_prefix("pub ") {
            Some(name) => ("pub ", name),
            None => ("", *item),
        };
        let path = folder.join(format!("{name}.rs"));
        println!("cargo:rerun-if-changed={}", path.display());
        text + &format!("#[path = {path:?}]\n{public}mod {name};\n")
    })
}

fn main() {
    println!("cargo:rerun-if-env-changed=CLVM_RS");
    let out = PathBuf::from(std::env::var_os("OUT_DIR").expect("cargo sets it"));
    let source = folder();
    println!("cargo:source={}", source.display());
    fs::write(out.join("root.rs"), modules(&source, &ROOT)).expect("OUT_DIR can be written");
    fs::write(out.join("serde.rs"), modules(&source.join("serde"), &SERDE))
        .expect("OUT_DIR can be written");
}

//! Finds the port's static library and has it linked.

use std::path::PathBuf;
use std::process::exit;

fn fail(text: &str) -> ! {
    eprintln!("nikvoldra: {text}");
    exit(1);
}

/// `NIKVOLDRA_LIBRARIES`, or `target/staticlib` of the repository.
fn folder() -> PathBuf {
    if let Some(named) = std::env::var_os("NIKVOLDRA_LIBRARIES") {
        return named.into();
    }
    let here = std::env::var_os("CARGO_MANIFEST_DIR").expect("cargo sets it");
    PathBuf::from(here).join("../../target/staticlib")
}

fn main() {
    println!("cargo:rerun-if-env-changed=NIKVOLDRA_LIBRARIES");
    let target = std::env::var("TARGET").expect("cargo sets it");
    if !target.starts_with("x86_64-") || !target.contains("-linux-") {
        fail(&format!(
            "the static library is for x86-64 Linux, and the target is {target}"
        ));
    }
    let folder = folder();
    println!("cargo:rustc-link-search=native={}", folder.display());
    let library = folder.join("libnikvoldra.a");
    println!("cargo:rerun-if-changed={}", library.display());
    if !library.is_file() {
        fail(&format!(
            "{} is missing.\nIn the repository's folder, `tools/libraries` proves and writes it; \
             or the variable NIKVOLDRA_LIBRARIES names the folder that has it.",
            library.display()
        ));
    }
    println!("cargo:rustc-link-lib=static=nikvoldra");
}

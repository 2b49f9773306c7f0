//! Writes path_builder.rs with the documentation's prefix lengths in `serialized_length`, and the two files of the Rust over it, which are
//! compiled unchanged, with their paths.

use std::fs;
use std::path::PathBuf;

/// What `serialized_length` has, and what it gets.
const CHANGES: [(&str, &str); 4] = [
    ("self.store[0] >= 80 {", "self.store[0] >= 0x80 {"),
    ("0x40..=0x1ff => 2", "0x40..=0x1fff => 2"),
    ("0x200..=0xfffff => 3", "0x2000..=0xfffff => 3"),
    ("0x1000000..=0x7ffffff => 4", "0x100000..=0x7ffffff => 4"),
];

fn main() {
    let folder = |name| PathBuf::from(std::env::var_os(name).expect("cargo sets it"));
    // clvm_rs/build.rs tells where the source is
    let (source, out) = (
        folder("DEP_CLVM_RS_SOURCE").join("serde"),
        folder("OUT_DIR"),
    );
    let original = source.join("path_builder.rs");
    let mut text = fs::read_to_string(&original).expect("path_builder.rs");
    println!("cargo:rerun-if-changed={}", original.display());
    for (old, new) in CHANGES {
        assert_eq!(text.matches(old).count(), 1, "`{old}` occurs once");
        text = text.replace(old, new);
    }
    let changed = out.join("path_builder.rs");
    fs::write(&changed, text).expect("OUT_DIR can be written");
    let mut modules = format!("#[path = {changed:?}]\nmod path_builder;\n");
    for name in ["incremental", "tree_cache"] {
        let path = source.join(format!("{name}.rs"));
        println!("cargo:rerun-if-changed={}", path.display());
        modules += &format!("#[path = {path:?}]\nmod {name};\n");
    }
    fs::write(out.join("serde.rs"), modules).expect("OUT_DIR can be written");
}

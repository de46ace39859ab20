//! Links libgongperch.a, which `rt lib` writes in crates/gongperch; GONGPERCH_LIB names its folder if it stands elsewhere.
use std::path::{Path, PathBuf};

fn main() {
    let usual = Path::new(env!("CARGO_MANIFEST_DIR")).join("../crates/gongperch/out");
    let folder = std::env::var_os("GONGPERCH_LIB").map_or(usual, PathBuf::from);
    let folder = folder.canonicalize().unwrap_or(folder);
    println!("cargo:rustc-link-search=native={}", folder.display());
    println!("cargo:rustc-link-lib=static=gongperch");
    println!("cargo:rerun-if-changed={}", folder.join("libgongperch.a").display());
    println!("cargo:rerun-if-env-changed=GONGPERCH_LIB");
}

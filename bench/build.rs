//! Links the proved checksum; the crate `space_check` links the pass.

use std::path::Path;

fn main() {
    println!("cargo:rerun-if-env-changed=SPACE_CHECK_DIR");
    let root = Path::new(env!("CARGO_MANIFEST_DIR")).join("..");
    let folder = root.join(std::env::var_os("SPACE_CHECK_DIR").unwrap_or("crates/fletcher_c/out".into()));
    let archive = folder.join("libfletcher_c.a");
    println!("cargo:rerun-if-changed={}", archive.display());
    if !archive.exists() {
        eprintln!("{} isn't there: run `rt lib` in crates/fletcher_c first", archive.display());
        std::process::exit(1);
    }
    println!("cargo:rustc-link-search=native={}", folder.display());
    println!("cargo:rustc-link-lib=static=fletcher_c");
}

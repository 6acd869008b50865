//! Links the archive that `rt lib` writes in crates/interface, where the feature `archive` is on.
//!
//! The builds of crates that depend on this one are told which archive that was, by its path (DEP_INTERFACE_ARCHIVE) and
//! by a sum of its bytes (DEP_INTERFACE_SUM).

use std::collections::hash_map::DefaultHasher;
use std::hash::Hasher;
use std::path::Path;

fn main() {
    println!("cargo:rerun-if-env-changed=SPACE_CHECK_DIR");
    if std::env::var_os("CARGO_FEATURE_ARCHIVE").is_none() {
        return;
    }
    let root = Path::new(env!("CARGO_MANIFEST_DIR")).join("../..");
    let dir = root.join(std::env::var_os("SPACE_CHECK_DIR").unwrap_or_else(|| "crates/interface/out".into()));
    let archive = dir.join("libinterface.a");
    println!("cargo:rerun-if-changed={}", archive.display());
    let bytes = std::fs::read(&archive).unwrap_or_else(|reason| {
        eprintln!(
            "{} can't be read ({reason}): run `rt lib` in crates/interface, or set SPACE_CHECK_DIR to its folder",
            archive.display()
        );
        std::process::exit(1);
    });
    let mut sum = DefaultHasher::new();
    sum.write(&bytes);
    println!("cargo:archive={}", archive.display());
    println!("cargo:sum={}", sum.finish());
    println!("cargo:rustc-link-search=native={}", dir.display());
    println!("cargo:rustc-link-lib=static=interface");
}

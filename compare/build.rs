//! Keeps which archive the crate `space_check` was linked with, where it was.

fn main() {
    for (told, kept) in [("DEP_INTERFACE_ARCHIVE", "SPACE_CHECK_ARCHIVE"), ("DEP_INTERFACE_SUM", "SPACE_CHECK_SUM")] {
        if let Ok(value) = std::env::var(told) {
            println!("cargo:rustc-env={kept}={value}");
        }
    }
}

//! Puts files of the original into the build directory, with the listed cuts.
//!
//! Shared by the two build scripts. A cut is an exact text that must be there exactly once: where the sources
//! differ from those this was written for, the build stops with a message instead of comparing something else.

use std::path::{Path, PathBuf};
use std::{env, fs, process};

/// Names the folder of the sources.
const VARIABLE: &str = "WINAPFS_SOURCES";

/// One change of one file: the text from `from` up to `upto` (all of `from` where `upto` is empty) becomes `instead`.
pub struct Cut {
    pub file: &'static str,
    pub from: &'static str,
    pub upto: &'static str,
    pub instead: &'static str,
}

/// Copies `files` of the original's crate `name`, with `cuts`, beside a `modules.rs` that declares them.
pub fn assemble(name: &str, files: &[&str], cuts: &[Cut]) {
    let source = sources().join("crates").join(name).join("src");
    let out = PathBuf::from(env::var("OUT_DIR").expect("cargo sets OUT_DIR"));
    for file in files {
        let path = source.join(file);
        println!("cargo:rerun-if-changed={}", path.display());
        let text = fs::read_to_string(&path).unwrap_or_else(|e| stop(&format!("cannot read {}: {e}", path.display())));
        let cut = cuts.iter().filter(|c| c.file == *file).fold(text, apply);
        write(&out.join(file), &cut);
    }
    let modules: String = files.iter().map(|f| format!("pub mod {};\n", module(f))).collect();
    write(&out.join("modules.rs"), &modules);
}

/// The module of a file, which may be the first of a folder's.
fn module(file: &str) -> &str {
    file.trim_end_matches(".rs").trim_end_matches("/mod")
}

fn write(path: &Path, text: &str) {
    let folder = path.parent().expect("a file stands in a folder");
    let written = fs::create_dir_all(folder).and_then(|()| fs::write(path, text));
    written.unwrap_or_else(|e| stop(&format!("cannot write {}: {e}", path.display())));
}

fn sources() -> PathBuf {
    println!("cargo:rerun-if-env-changed={VARIABLE}");
    let Some(named) = env::var_os(VARIABLE).filter(|path| !path.is_empty()) else {
        stop(&format!("set {VARIABLE} to the folder that holds the original's crates/ (compare/README.md)"));
    };
    let manifest = PathBuf::from(env::var("CARGO_MANIFEST_DIR").expect("cargo sets CARGO_MANIFEST_DIR"));
    let repository = manifest.ancestors().nth(3).expect("this stands in compare/original/ of the repository");
    // A relative path counts from the repository's root, wherever cargo was started.
    let path = repository.join(named);
    if !path.join("crates").is_dir() {
        stop(&format!("{VARIABLE} is {}, which holds no crates/ of the original", path.display()));
    }
    path
}

fn apply(text: String, cut: &Cut) -> String {
    let start = once(&text, cut.from, cut.file);
    let end = if cut.upto.is_empty() { start + cut.from.len() } else { once(&text, cut.upto, cut.file) };
    if end < start {
        stop(&format!("{}: `{}` stands before `{}`", cut.file, cut.upto, cut.from));
    }
    format!("{}{}{}", &text[..start], cut.instead, &text[end..])
}

/// Where `part` stands in `text`: it must be there exactly once.
fn once(text: &str, part: &str, file: &str) -> usize {
    let mut places = text.match_indices(part).map(|(at, _)| at);
    match (places.next(), places.next()) {
        (Some(at), None) => at,
        (None, _) => stop(&format!("{file}: the text to cut at is not there: `{part}`")),
        (Some(_), Some(_)) => stop(&format!("{file}: the text to cut at is there more than once: `{part}`")),
    }
}

fn stop(message: &str) -> ! {
    eprintln!("compare: {message}");
    process::exit(1);
}

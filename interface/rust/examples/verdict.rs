//! Prints the listing of a container's image, or why it is refused:
//!
//!     cargo run --manifest-path interface/rust/Cargo.toml --example verdict -- IMAGE

use std::process::ExitCode;

fn main() -> ExitCode {
    let path = match std::env::args().nth(1) {
        Some(path) => path,
        None => {
            eprintln!("usage: verdict IMAGE");
            return ExitCode::from(3);
        }
    };
    let image = match std::fs::read(&path) {
        Ok(image) => image,
        Err(reason) => {
            eprintln!("{path}: {reason}");
            return ExitCode::from(3);
        }
    };
    let mut map = vec![0; space_check::blocks(&image)];
    match space_check::check(&image, &mut map) {
        Ok(report) => {
            print!("{}", report.listing(&path));
            ExitCode::from(if report.verdict == space_check::Verdict::Consistent { 0 } else { 1 })
        }
        Err(refusal) => {
            println!("refused {}", refusal.number());
            eprintln!("{path}: {refusal}");
            ExitCode::from(2)
        }
    }
}

//! `apfs-space-check`: the proved space check for images and block devices, at a terminal and in scripts.

mod arguments;
mod checked;
mod container;
mod disk;
mod explain;
mod files;
mod font;
mod gpt;
mod json;
mod one;
mod output;
mod picture;
mod status;
mod supervise;

use std::path::PathBuf;
use std::process::ExitCode;

use arguments::{Arguments, Task};
use status::Status;

fn main() -> ExitCode {
    let status = match Arguments::read() {
        Ok(arguments) => match arguments.task() {
            Task::Explain(sentence) => output::print(format!("{sentence}\n"), Status::DONE),
            Task::Complete(shell) => arguments::complete(shell),
            Task::Check(images) => check(&arguments, images),
        },
        Err(message) => arguments::tell(&message),
    };
    ExitCode::from(status as u8)
}

fn check(arguments: &Arguments, images: &[PathBuf]) -> Status {
    if let Err(reason) = files::may_be_written(arguments) {
        output::note(&reason);
        return Status::NoAnswer;
    }
    match arguments.only_image.and_then(|at| images.get(at)) {
        Some(image) => {
            supervise::end_with_parent();
            one::check(arguments, image)
        }
        None => supervise::check_all(arguments, images),
    }
}

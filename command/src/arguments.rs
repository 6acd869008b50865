//! The command line.

use std::path::PathBuf;

use clap::error::ErrorKind;
use clap::{value_parser, Arg, CommandFactory, FromArgMatches, Parser};
use clap_complete::{generate, Shell};

use crate::explain;
use crate::output;
use crate::status::Status;

const AFTER: &str = "\
Exit status, the worst of several images:
  0  consistent
  1  inconsistent
  2  refused
  3  no answer: an image could not be read, a file not be written, or the command line makes no sense";

/// The option by which a child is told its image: for the command's own use, and in no help.
pub const ONLY_IMAGE: &str = "only-image";

/// Checks the space of APFS containers: counts the bitmaps, rebuilds who owns each block, and gives a verdict.
#[derive(Parser)]
#[command(name = "apfs-space-check", version, after_help = AFTER)]
pub struct Arguments {
    /// Images or block devices; they are only read, and nothing else may write to them meanwhile
    #[arg(value_name = "IMAGE", required_unless_present_any = ["explain", "completions"])]
    images: Vec<PathBuf>,

    /// The container begins at this byte of the image
    #[arg(long, value_name = "BYTES", conflicts_with = "partition")]
    pub offset: Option<u64>,

    /// The container is partition N of the disk's GPT [default: the only APFS partition, where there is a GPT]
    #[arg(long, value_name = "N")]
    pub partition: Option<u32>,

    /// Print a line of JSON for each image instead of the listing
    #[arg(long, conflicts_with = "quiet")]
    pub json: bool,

    /// Write the block map to FILE, a byte for each block, where there is a report
    #[arg(long, value_name = "FILE")]
    pub map: Option<PathBuf>,

    /// Draw the block map to FILE as PNG, where there is a report
    #[arg(long, value_name = "FILE")]
    pub picture: Option<PathBuf>,

    /// Print errors and warnings alone
    #[arg(long, short)]
    pub quiet: bool,

    /// Tell what refusal N means and what to do next
    #[arg(long, value_name = "N", value_parser = explanation, exclusive = true)]
    explain: Option<String>,

    /// Print the completions for a shell
    #[arg(long, value_name = "SHELL", exclusive = true)]
    completions: Option<Shell>,

    /// In a child of this command, the place of the image that it checks.
    #[arg(skip)]
    pub only_image: Option<usize>,
}

/// What a command line asks for.
pub enum Task<'a> {
    Check(&'a [PathBuf]),
    Explain(&'a str),
    Complete(Shell),
}

impl Arguments {
    pub fn read() -> Result<Arguments, clap::Error> {
        // not one of the derived options, which completions would offer
        let own = Arg::new(ONLY_IMAGE).long(ONLY_IMAGE).hide(true).value_parser(value_parser!(usize));
        let mut matches = Arguments::command().arg(own).try_get_matches()?;
        let only_image = matches.remove_one(ONLY_IMAGE);
        let arguments = Arguments { only_image, ..Arguments::from_arg_matches(&matches)? };
        if arguments.images.len() > 1 && arguments.outputs().next().is_some() {
            let message = "--map and --picture are for one image";
            return Err(Arguments::command().error(ErrorKind::ArgumentConflict, message));
        }
        Ok(arguments)
    }

    pub fn task(&self) -> Task<'_> {
        match (&self.explain, self.completions) {
            (Some(sentence), _) => Task::Explain(sentence),
            (None, Some(shell)) => Task::Complete(shell),
            (None, None) => Task::Check(&self.images),
        }
    }

    /// The files to write.
    pub fn outputs(&self) -> impl Iterator<Item = &PathBuf> {
        self.map.iter().chain(&self.picture)
    }
}

/// The sentence that is asked for by a number.
fn explanation(number: &str) -> Result<String, String> {
    number.parse().ok().and_then(explain::explanation).ok_or_else(|| "no refusal has this number".into())
}

/// Prints help, version or what is wrong. A wrong command line must not pass for a refused disk, as clap's own 2 would.
pub fn tell(message: &clap::Error) -> Status {
    match message.print() {
        Ok(()) if !message.use_stderr() => Status::DONE,
        _ => Status::NoAnswer,
    }
}

pub fn complete(shell: Shell) -> Status {
    let mut script = Vec::new();
    let mut command = Arguments::command();
    let name = command.get_name().to_string();
    generate(shell, &mut command, name, &mut script);
    output::print(script, Status::DONE)
}

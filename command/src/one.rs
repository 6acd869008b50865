//! The check of one image.

use std::io;
use std::path::Path;

use memmap2::{Advice, MmapMut};

use crate::arguments::Arguments;
use crate::checked::Checked;
use crate::container::Container;
use crate::disk::Disk;
use crate::picture::Picture;
use crate::status::Status;
use crate::{explain, files, json, output};

/// Checks an image, prints what was found and writes the files asked for.
pub fn check(arguments: &Arguments, image: &Path) -> Status {
    answered(arguments, image).unwrap_or_else(|reason| no_answer(arguments, image, &reason))
}

/// Says why an image has no answer.
pub fn no_answer(arguments: &Arguments, image: &Path, reason: &str) -> Status {
    output::note_of(image, reason);
    if arguments.json {
        return output::print(json::no_answer(image, reason), Status::NoAnswer);
    }
    Status::NoAnswer
}

fn answered(arguments: &Arguments, image: &Path) -> Result<Status, String> {
    let disk = Disk::open(image).map_err(|reason| reason.to_string())?;
    let container = Container::find(disk.bytes(), arguments)?;
    let blocks = space_check::blocks(container.bytes);
    let mut map = block_map(blocks).map_err(|reason| format!("no memory for a map of {blocks} blocks: {reason}"))?;
    let answer = space_check::check(container.bytes, &mut map[..blocks]);
    disk.unchanged().map_err(|reason| reason.to_string())?;

    let checked = Checked { image, container, answer, map: &map[..blocks] };
    let printed = print(arguments, &checked);
    Ok(printed.max(write_files(arguments, &checked)))
}

/// Zeroed pages, large ones where the system has them: most are never written, and looking at many small ones takes time.
fn block_map(blocks: usize) -> io::Result<MmapMut> {
    let map = MmapMut::map_anon(blocks.max(1))?;
    // a system without large pages does without
    let _ = map.advise(Advice::HugePage);
    Ok(map)
}

fn print(arguments: &Arguments, checked: &Checked) -> Status {
    if let Some(note) = checked.container.note {
        output::note_of(checked.image, note);
    }
    let status = Status::of(&checked.answer);
    if arguments.quiet {
        return status;
    }
    if arguments.json {
        return output::print(json::checked(checked), status);
    }
    match &checked.answer {
        Ok(report) => output::print(report.listing(&checked.title()).to_string(), status),
        Err(refusal) => {
            let printed = output::print(format!("refused {}\n", refusal.number()), status);
            output::note(&format!("{}: {}", checked.title(), explain::sentence(*refusal)));
            printed
        }
    }
}

/// A refused image has no map, and leaves the files as they are.
fn write_files(arguments: &Arguments, checked: &Checked) -> Status {
    let status = Status::of(&checked.answer);
    let report = match &checked.answer {
        Ok(report) => report,
        Err(_) => {
            for path in arguments.outputs() {
                output::note_of(path, "not written: there is no report");
            }
            return status;
        }
    };
    let map = arguments.map.iter().map(|path| (path, files::write(path, |file| file.write_all(checked.map))));
    let picture = arguments.picture.iter().map(|path| (path, Picture::of(checked, report).write(path)));
    let failed = map.chain(picture).filter_map(|(path, written)| Some((path, written.err()?)));
    failed.fold(status, |_, (path, reason)| {
        output::note_of(path, &reason.to_string());
        Status::NoAnswer
    })
}

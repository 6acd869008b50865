//! `compare verify`: images with kept answers, replayed against original, model and library.

use std::io;

use crate::disagreement::Disagreement;
use crate::judge::{judge, kept_parts, Ask};
use crate::list::{ending, read, Item};
use crate::worker::{Worker, SMALL};

/// Whether every image of the files agrees with what is kept for it.
pub fn verify(files: &[&str]) -> io::Result<bool> {
    let mut worker = Worker::new(SMALL);
    let (mut images, mut faults) = (0, 0);
    for path in files {
        for item in read(path)? {
            images += 1;
            for fault in replay(&mut worker, &item)? {
                faults += 1;
                println!("{path}: {}: {fault}", item.name);
            }
        }
    }
    println!("{images} images replayed, {faults} faults");
    Ok(faults == 0)
}

/// The model must give the kept answer and map, and the original must end as kept and not disagree.
fn replay(worker: &mut Worker, item: &Item) -> io::Result<Vec<Disagreement>> {
    let judgement = judge(worker, &item.image, item.map_length, Ask::Always)?;
    let now = ending(&judgement);
    let mut faults: Vec<_> = kept_parts(&judgement, &item.answer, &item.left).into_iter().collect();
    // A list of another origin doesn't say how the original ended.
    if !item.original.is_empty() && now != item.original {
        faults.push(Disagreement::Ending { kept: item.original.clone(), now });
    }
    faults.extend(judgement.disagreement);
    Ok(faults)
}

//! What a refusal means to an operator.

use space_check::Refusal;

const DAMAGED: &str =
    "do not file the disk and do not write to it, but copy it whole and have the copy judged by Apple's \
     fsck_apfs, on a Mac";
const BEYOND: &str =
    "the disk may be sound, which this check cannot tell, so set it aside and have it judged by Apple's \
     fsck_apfs, on a Mac";

/// A refusal of earlier versions, which logs may still hold.
const WITHDRAWN: u64 = 19;
const WITHDRAWN_MEANING: &str = "no longer given since version 0.2.0, which follows the address blocks of large disks";
const WITHDRAWN_ADVICE: &str = "check the disk again with this version";

/// What to do next.
pub fn advice(refusal: Refusal) -> &'static str {
    match refusal {
        Refusal::ShortImage => "make sure that the right file was named and that its copy is complete",
        Refusal::NoMagic => {
            "do not file the disk before it is found: --partition or --offset names the place of a container inside a \
             disk, and one that begins right here is damaged in its first block"
        }
        Refusal::BlockCount => {
            "set the disk aside, since one of 16 TiB or more may be sound and is beyond this check, and any other is \
             damaged in its first block"
        }
        Refusal::MissingBlocks => {
            "do not file the disk: a copy was cut short and has to be made again, a disk has lost its end, or --offset \
             or --partition names a wrong place"
        }
        Refusal::ShortMap => "this command always lends one that is long enough, so report a fault of the program",
        Refusal::DescriptorLength | Refusal::Incompatible => BEYOND,
        _ => DAMAGED,
    }
}

/// Meaning and advice.
pub fn sentence(refusal: Refusal) -> String {
    worded(refusal.number(), refusal.name(), advice(refusal))
}

/// Those of a number, where a refusal has it or had it.
pub fn explanation(number: u64) -> Option<String> {
    match number {
        WITHDRAWN => Some(worded(number, WITHDRAWN_MEANING, WITHDRAWN_ADVICE)),
        _ => Refusal::from_number(number).map(sentence),
    }
}

fn worded(number: u64, meaning: &str, advice: &str) -> String {
    format!("refused {number}: {meaning}; {advice}")
}

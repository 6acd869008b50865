//! Exit statuses.

use space_check::{Refusal, Report, Verdict};

/// How a check ends. Of several images the worst counts, which is the greatest.
#[derive(Clone, Copy, Debug, PartialEq, Eq, PartialOrd, Ord)]
pub enum Status {
    Consistent = 0,
    Inconsistent = 1,
    Refused = 2,
    /// An image could not be read, a file not be written, or the command line makes no sense.
    NoAnswer = 3,
}

impl Status {
    /// What checks no image was done, as `--explain`. It has the number of a consistent image, since 0 is success.
    pub const DONE: Status = Status::Consistent;

    pub fn of(answer: &Result<Report, Refusal>) -> Status {
        match answer {
            Ok(report) if report.verdict == Verdict::Consistent => Status::Consistent,
            Ok(_) => Status::Inconsistent,
            Err(_) => Status::Refused,
        }
    }

    pub fn from_code(code: i32) -> Option<Status> {
        let all = [Status::Consistent, Status::Inconsistent, Status::Refused, Status::NoAnswer];
        all.into_iter().find(|&status| status as i32 == code)
    }
}

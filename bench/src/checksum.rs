//! The checksum of one object: the proved `verify` beside the original's.

use std::hint::black_box;

use apfs::checksum;
use compare::fletcher::seal;
use compare::rng::Rng;

use crate::clock::timed;
use crate::table::Row;

/// How much faster the proved checksum is to be.
const BAR: f64 = 1.4;
const LENGTHS: [usize; 3] = [4096, 65_536, 1 << 20];
const RUNS: usize = 10_000;
/// So many bytes at least in a run, beside which the clock's own time is nothing.
const RUN_BYTES: usize = 1 << 20;

extern "C" {
    fn fletcher_verify(object: *const u8, length: usize) -> bool;
}

fn proved(object: &[u8]) -> bool {
    // SAFETY: the object is lent whole for the call.
    unsafe { fletcher_verify(object.as_ptr(), object.len()) }
}

pub fn rows() -> Result<Vec<Row>, String> {
    let mut rng = Rng::new(1);
    println!("{}", compare(&mut rng)?);
    let row = |length| {
        let (proved, original) = best(&object(length, &mut rng));
        let what = format!("checksum of {length} bytes");
        Row { what, pages: None, proved, original: Some(original), bar: Some(BAR) }
    };
    Ok(LENGTHS.into_iter().map(row).collect())
}

/// Random bytes, with their checksum where there is room for one.
fn object(length: usize, rng: &mut Rng) -> Vec<u8> {
    let mut object: Vec<u8> = (0..length).map(|_| rng.number() as u8).collect();
    if length >= 8 && length.is_multiple_of(4) {
        seal(&mut object);
    }
    object
}

/// Both must agree on whole objects, on objects with one byte damaged, and on every short length.
fn compare(rng: &mut Rng) -> Result<String, String> {
    let (mut whole, mut damaged) = (0, 0);
    let lengths: Vec<usize> = (0..600).chain([4096, 4100, 4104, 8192, 8199, 65_536, 1 << 20]).collect();
    for &length in lengths.iter().cycle().take(4 * lengths.len()) {
        let mut object = object(length, rng);
        for _ in 0..2 {
            *if agreed(&object)? { &mut whole } else { &mut damaged } += 1;
            if length > 0 {
                let at = rng.below(length as u64) as usize;
                object[at] ^= rng.between(1, 255) as u8;
            }
        }
    }
    agreed(&vec![0xff; 1 << 20])?;
    Ok(format!("checksum: the same answers, {whole} objects verify and {damaged} do not"))
}

fn agreed(object: &[u8]) -> Result<bool, String> {
    let answer = proved(object);
    if answer == checksum::verify(object) {
        Ok(answer)
    } else {
        Err(format!("the checksum of {} bytes: the proved answer is {answer}, the original's is not", object.len()))
    }
}

/// Seconds for one call: the best of many short runs, the two taken in turns.
fn best(object: &[u8]) -> (f64, f64) {
    let calls = (RUN_BYTES / object.len()).max(1);
    let mut least = (f64::MAX, f64::MAX);
    for _ in 0..RUNS {
        least.0 = least.0.min(time(proved, object, calls));
        least.1 = least.1.min(time(checksum::verify, object, calls));
    }
    least
}

fn time(verify: fn(&[u8]) -> bool, object: &[u8], calls: usize) -> f64 {
    let run = || (0..calls).for_each(|_| assert!(black_box(verify)(black_box(object))));
    let ((), seconds) = timed(run);
    seconds / calls as f64
}

//! The request of a seed: of every shape, with entries that fit, just fit or just don't, and slices that are none.

use space_check::node::{NodeHeader, Sizes};

use super::model::{Form, NONALIGNED, SIZES};
use super::request::{Request, GHOST};
use crate::fields::{description, object, put};
use crate::rng::Rng;

/// Sizes that aren't admitted: around a header, around the admitted ones, and others.
const OTHER_SIZES: [usize; 18] =
    [0, 1, 55, 56, 95, 96, 512, 2048, 4095, 4097, 4104, 5000, 8191, 12288, 65535, 65537, 98304, 131_072];

pub fn request(seed: u64) -> Request {
    let mut rng = Rng::new(seed ^ 0x6e6f_6465);
    let size = size(&mut rng);
    let mut request = Request {
        node_length: size,
        header: header(&mut rng),
        sizes: sizes(size, &mut rng),
        info: vec![0; description::LENGTH],
        data: Vec::new(),
        lengths: Vec::new(),
    };
    let packed = rng.chance(50);
    put(&mut request.info, 0, 4, if packed { NONALIGNED } else { 0 });
    if rng.chance(2) {
        fill_slots(&mut request, &mut rng);
    } else {
        request.lengths = lengths(&request, &mut rng);
    }
    request.data = data(&request, &mut rng);
    request.info = info(&request, packed, &mut rng);
    if rng.chance(10) {
        spoil(&mut request, &mut rng);
    }
    request
}

/// Mostly small ones: a run is to be of many requests.
fn size(rng: &mut Rng) -> usize {
    match rng.below(100) {
        0..=60 => SIZES[0],
        61..=72 => SIZES[1],
        73..=80 => SIZES[2],
        81..=84 => SIZES[3],
        85..=88 => SIZES[4],
        89..=97 => *rng.pick(&OTHER_SIZES),
        _ => rng.below(20_000) as usize,
    }
}

/// Numbers at the borders of a field, and others.
fn number(rng: &mut Rng) -> u64 {
    match rng.below(8) {
        0 => 0,
        1 => u64::MAX,
        2 => 1 << rng.below(64),
        3 => rng.below(1000),
        _ => rng.number(),
    }
}

fn header(rng: &mut Rng) -> NodeHeader {
    let kind = if rng.chance(80) { rng.between(object::ROOT_NODE, object::NODE) } else { number(rng) };
    let flags = *rng.pick(&[0, 0, object::PHYSICAL, object::PHYSICAL, object::EPHEMERAL, 0x1000_0000]);
    let (queue, other) = (object::FREE_QUEUE, rng.number());
    let subtype = *rng.pick(&[0, queue, object::OBJECT_MAP, queue | object::PHYSICAL, u64::MAX, other]);
    let level = match rng.below(20) {
        0..=9 => 0,
        10..=15 => rng.between(1, 3),
        16 => rng.between(31, 33),
        17 => rng.between(4, 32),
        18 => 0xffff,
        _ => rng.below(0x10000),
    };
    NodeHeader {
        oid: number(rng),
        xid: number(rng),
        obj_type: (kind | flags) as u32,
        subtype: subtype as u32,
        level: level as u16,
        root: rng.chance(50),
    }
}

/// Usual sizes, none at all, any small ones, around the largest that leave a slot, and far too large ones.
fn sizes(node_length: usize, rng: &mut Rng) -> Sizes {
    if rng.chance(40) {
        return Sizes::Variable;
    }
    let far = |rng: &mut Rng| if rng.chance(50) { u32::MAX } else { rng.number() as u32 };
    let (key, value) = match rng.below(20) {
        0..=8 => *rng.pick(&[(16, 8), (16, 16), (8, 8), (24, 8), (16, 0), (8, 100)]),
        9..=10 => (0, 0),
        11..=16 => (rng.below(40) as u32, rng.below(60) as u32),
        17 => {
            let key = rng.below(64) as u32;
            (key, (node_length as u32).saturating_sub(key + rng.between(50, 110) as u32))
        }
        18 => (far(rng), rng.below(20) as u32),
        _ => (far(rng), far(rng)),
    };
    Sizes::Fixed { key, value }
}

/// A root leaf with a slot for each of its entries, or one entry too many: empty ones, which no other size has as many
/// of, or the ghosts of a free queue.
fn fill_slots(request: &mut Request, rng: &mut Rng) {
    request.header.root = true;
    request.header.level = 0;
    let key = *rng.pick(&[0, 16]);
    if key == 0 {
        request.sizes = Sizes::Fixed { key: 0, value: 0 };
        request.node_length = if rng.chance(20) { SIZES[4] } else { request.node_length };
    } else {
        request.sizes = Sizes::Fixed { key: 16, value: 8 };
        request.node_length = SIZES[0];
    }
    let slots = Form::of(&formable(request)).slots(0) as usize;
    let value = if key == 0 && rng.chance(50) { 0 } else { GHOST };
    request.lengths = [key, value].repeat(slots + usize::from(rng.chance(50)));
}

/// The request, or one like it of the smallest size where its own isn't admitted.
fn formable(request: &Request) -> Request {
    let node_length = if SIZES.contains(&request.node_length) { request.node_length } else { SIZES[0] };
    Request { node_length, ..request.clone() }
}

/// How an entry's lengths are chosen.
struct Style {
    /// Those that are stated.
    stated: Option<(u64, u64)>,
    longest: u64,
    ghosts: u64,
}

impl Style {
    fn of(request: &Request, rng: &mut Rng) -> Self {
        // What no entry could have is no style.
        let stated = match request.sizes {
            Sizes::Fixed { key, value } if key.max(value) < 4000 && rng.chance(60) => {
                Some((u64::from(key), if request.is_leaf() { u64::from(value) } else { 8 }))
            }
            _ => None,
        };
        Style { stated, longest: *rng.pick(&[0, 1, 9, 9, 24, 24, 100, 700]), ghosts: *rng.pick(&[0, 0, 10, 50, 100]) }
    }

    fn entry(&self, rng: &mut Rng) -> [u64; 2] {
        let [key, value] = match self.stated {
            Some((key, value)) => [key, value],
            None => [self.length(rng), self.length(rng)],
        };
        [key, if rng.chance(self.ghosts) { GHOST } else { value }]
    }

    fn length(&self, rng: &mut Rng) -> u64 {
        rng.below(self.longest + 1)
    }
}

/// A few entries, none, as many as fit, or more.
fn lengths(request: &Request, rng: &mut Rng) -> Vec<u64> {
    let style = Style::of(request, rng);
    match rng.below(20) {
        0 => Vec::new(),
        1..=10 => (0..rng.between(1, 14)).flat_map(|_| style.entry(rng)).collect(),
        11..=12 => (0..rng.between(14, 60)).flat_map(|_| style.entry(rng)).collect(),
        13 => (0..rng.between(60, 300)).flat_map(|_| style.entry(rng)).collect(),
        _ => full(&formable(request), &style, rng),
    }
}

/// As many entries as fit; then, by chance, the last one longer so that no byte is left, and a byte or an entry more.
fn full(request: &Request, style: &Style, rng: &mut Rng) -> Vec<u64> {
    let form = Form::of(request);
    let taken = |length: u64| if length == GHOST { 0 } else { form.padded(length) };
    let (mut lengths, mut used, mut count) = (Vec::new(), 0, 0);
    let fits = |count, used| count <= form.slots(count) && form.table(count) + used <= form.space;
    loop {
        let entry = style.entry(rng);
        let more = taken(entry[0]) + taken(entry[1]);
        if !fits(count + 1, used + more) {
            break;
        }
        lengths.extend(entry);
        (used, count) = (used + more, count + 1);
    }
    let left = form.space.saturating_sub(form.table(count) + used);
    if rng.chance(60) {
        // A ghost stays one: then it is the key that gets longer.
        if let Some(last) = lengths.iter_mut().rev().find(|length| **length != GHOST) {
            *last = form.padded(*last) + left;
        }
    }
    match rng.below(4) {
        0 => lengths.extend(style.entry(rng)),
        1 => lengths.iter_mut().rev().find(|length| **length != GHOST).into_iter().for_each(|last| *last += 1),
        _ => {}
    }
    lengths
}

/// The entries' bytes: anything, all alike, or keys that begin with their number.
fn data(request: &Request, rng: &mut Rng) -> Vec<u8> {
    let length = request.asked() as usize;
    let mut bytes = match rng.below(10) {
        0..=5 => random(length, rng),
        6..=7 => vec![rng.between(1, 255) as u8; length],
        _ => numbered(&request.lengths, length),
    };
    if rng.chance(10) {
        bytes.resize(length + *rng.pick(&[1, 1, 8, 100]), 0x5a);
    }
    bytes
}

fn random(length: usize, rng: &mut Rng) -> Vec<u8> {
    let mut bytes: Vec<u8> = (0..length.div_ceil(8)).flat_map(|_| rng.number().to_le_bytes()).collect();
    bytes.truncate(length);
    bytes
}

/// Each key begins with its number from 1 on, the high byte first, and each value with its complement.
pub fn numbered(lengths: &[u64], length: usize) -> Vec<u8> {
    let mut bytes = Vec::with_capacity(length);
    for (i, pair) in (1u16..).zip(lengths.chunks_exact(2)) {
        for (length, number) in pair.iter().zip([i, !i]) {
            let end = bytes.len() + if *length == GHOST { 0 } else { *length as usize };
            bytes.extend(number.to_be_bytes());
            bytes.resize(end, 0);
        }
    }
    bytes
}

/// A description that tells the truth, one that tells something else, or anything; the padding's flag is as chosen.
fn info(request: &Request, packed: bool, rng: &mut Rng) -> Vec<u8> {
    let (key, value) = match request.sizes {
        Sizes::Fixed { key, value } => (key, value),
        Sizes::Variable => (0, 0),
    };
    let mut info = vec![0; description::LENGTH];
    let longest = |which: usize| request.lengths.iter().skip(which).step_by(2).filter(|&&n| n != GHOST).max();
    let fields = [
        rng.number() & 0xbf,
        request.node_length as u64,
        key.into(),
        value.into(),
        longest(0).copied().unwrap_or(0),
        longest(1).copied().unwrap_or(0),
    ];
    fields.iter().enumerate().for_each(|(i, &field)| put(&mut info, 4 * i, 4, field));
    put(&mut info, 24, 8, request.lengths.len() as u64 / 2);
    put(&mut info, 32, 8, 1);
    match rng.below(10) {
        0..=4 => {}
        5 => put(&mut info, 4 * rng.below(10) as usize, 4, rng.number()),
        6 => info.fill(0),
        7 => info.fill(0xff),
        _ => info = random(description::LENGTH, rng),
    }
    let flags = description::FLAGS.of(&info) & !NONALIGNED;
    description::FLAGS.set(&mut info, flags | if packed { NONALIGNED } else { 0 });
    if rng.chance(10) {
        info.resize(*rng.pick(&[41, 41, 48, 80]), 0xa7);
    }
    info
}

/// Slices that are no list of entries, by one fault or two.
fn spoil(request: &mut Request, rng: &mut Rng) {
    for _ in 0..rng.between(1, 2) {
        match rng.below(8) {
            0 => request.lengths.push(*rng.pick(&[0, 5, GHOST])),
            1 => request.lengths.truncate(request.lengths.len().saturating_sub(1)),
            2 => request.info.truncate(39),
            3 => request.info.truncate(*rng.pick(&[0, 1, 38])),
            4 => request.data.truncate(request.data.len().saturating_sub(1)),
            // Sums that come to what they were, or to little more, once 64 bits are full.
            5 => request.lengths.extend([1 << 63, GHOST, 1 << 63, GHOST]),
            6 => request.lengths.extend([GHOST, *rng.pick(&[0, 1, 2, GHOST])]),
            _ => request.lengths.extend([rng.below(9), GHOST - rng.between(1, 9)]),
        }
    }
}

#[cfg(test)]
mod tests {
    use super::*;

    #[test]
    fn a_seed_gives_one_request() {
        assert_eq!(request(41), request(41));
        assert_ne!(request(41), request(42));
    }
}

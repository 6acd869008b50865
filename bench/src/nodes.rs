//! Nodes built to order: the proved `build_node` beside the original's `build`.

use std::hint::black_box;

use apfs::btree::BTreeInfo;
use apfs::btree_write::{build, fits, Entry, NodeBuild, BTREE_KV_NONALIGNED};
use compare::rng::Rng;
use space_check::node::{build_into, Description, NodeHeader, Sizes, GHOST, SIZES};

use crate::clock::timed;
use crate::table::Row;

/// How much faster the proved one is to be.
const BAR: f64 = 1.0;
/// The size that is timed.
const SIZE: usize = 65_536;
const RUNS: usize = 3000;
/// So many nodes in a run, beside which the clock's own time is nothing.
const RUN_NODES: usize = 16;

/// A sort of nodes: all keys of one length, and all values, whether or not the node says so.
struct Form {
    what: &'static str,
    key: usize,
    /// Of ghosts, what the node states.
    value: usize,
    fixed: bool,
    packed: bool,
    ghosts: bool,
    /// As many entries as have room, or none.
    full: bool,
}

const QUEUE: Form =
    Form { what: "fixed 16/8", key: 16, value: 8, fixed: true, packed: false, ghosts: false, full: true };
const FORMS: [Form; 6] = [
    QUEUE,
    Form { what: "variable 16/8", fixed: false, ..QUEUE },
    Form { what: "variable 100/200", key: 100, value: 200, fixed: false, ..QUEUE },
    Form { what: "packed 13/5", key: 13, value: 5, fixed: false, packed: true, ..QUEUE },
    Form { what: "ghosts, fixed 16/8", ghosts: true, ..QUEUE },
    Form { what: "no entries", full: false, ..QUEUE },
];

pub fn rows() -> Result<Vec<Row>, String> {
    let mut rng = Rng::new(1);
    let (mut rows, mut nodes) = (Vec::new(), 0);
    for form in FORMS {
        for size in SIZES {
            for root in [false, true] {
                Request::new(&form, size, root, &mut rng).agreed()?;
                nodes += 1;
            }
        }
        let request = Request::new(&form, SIZE, true, &mut rng);
        request.agreed()?;
        let (proved, original) = request.best();
        println!("node of {SIZE} bytes, {}: {} entries", form.what, request.entries.len());
        let what = format!("node, {}", form.what);
        rows.push(Row { what, pages: None, proved, original: Some(original), bar: Some(BAR) });
    }
    println!("nodes: the same bytes, {nodes} of all sizes and those timed; the original allocates its own");
    Ok(rows)
}

/// A node as both are asked for it, with its entries in each one's form.
struct Request {
    size: usize,
    header: NodeHeader,
    sizes: Sizes,
    description: Description,
    entries: Vec<Entry>,
    data: Vec<u8>,
    lengths: Vec<u64>,
}

impl Request {
    fn new(form: &Form, size: usize, root: bool, rng: &mut Rng) -> Request {
        let description = Description {
            flags: if form.packed { BTREE_KV_NONALIGNED } else { 0 },
            node_size: size as u32,
            key_size: form.key as u32,
            val_size: form.value as u32,
            longest_key: form.key as u32,
            longest_val: form.value as u32,
            key_count: rng.number(),
            node_count: rng.number(),
        };
        let mut request = Request {
            size,
            header: NodeHeader { oid: rng.number(), xid: rng.number(), obj_type: 2, subtype: 9, level: 0, root },
            sizes: match form.fixed {
                true => Sizes::Fixed { key: form.key as u32, value: form.value as u32 },
                false => Sizes::Variable,
            },
            description,
            entries: Vec::new(),
            data: Vec::new(),
            lengths: Vec::new(),
        };
        if form.full {
            request.fill(form, rng);
        }
        request
    }

    /// Entries until one more has no room.
    fn fill(&mut self, form: &Form, rng: &mut Rng) {
        while fits(&self.original(), self.size) {
            let key = random(form.key, rng);
            self.entries.push((key, (!form.ghosts).then(|| random(form.value, rng))));
        }
        self.entries.pop();
        for (key, value) in &self.entries {
            self.data.extend(key.iter().chain(value.iter().flatten()));
            self.lengths.extend([key.len() as u64, value.as_ref().map_or(GHOST, |value| value.len() as u64)]);
        }
    }

    fn original(&self) -> NodeBuild<'_> {
        let of = self.description;
        NodeBuild {
            oid: self.header.oid,
            xid: self.header.xid,
            obj_type: self.header.obj_type,
            subtype: self.header.subtype,
            level: self.header.level,
            root: self.header.root,
            fixed: match self.sizes {
                Sizes::Fixed { key, value } => Some((key as usize, value as usize)),
                Sizes::Variable => None,
            },
            info: BTreeInfo {
                flags: of.flags,
                node_size: of.node_size,
                key_size: of.key_size,
                val_size: of.val_size,
                longest_key: of.longest_key,
                longest_val: of.longest_val,
                key_count: of.key_count,
                node_count: of.node_count,
            },
            entries: &self.entries,
        }
    }

    fn proved(&self, node: &mut [u8], info: &[u8]) -> u32 {
        build_into(node, &self.header, self.sizes, info, &self.data, &self.lengths)
    }

    /// The bytes of both must be equal, over whatever lay in the lent node.
    fn agreed(&self) -> Result<(), String> {
        let wrong = |what: String| Err(format!("a node of {} bytes, {:?}: {what}", self.size, self.sizes));
        let mut node = vec![0xee; self.size];
        match (self.proved(&mut node, &self.description.to_bytes()), build(&self.original(), self.size)) {
            (0, Ok(theirs)) if node == theirs => Ok(()),
            (0, Ok(theirs)) => {
                let at = node.iter().zip(&theirs).position(|(ours, theirs)| ours != theirs);
                wrong(format!("the two differ at {at:?}"))
            }
            (number, theirs) => wrong(format!("the proved answer is {number}, the original's {:?}", theirs.err())),
        }
    }

    /// Seconds for one node: the best of many short runs, the two taken in turns. The original allocates its node, and
    /// gives it back; the proved one is lent the same bytes each time.
    fn best(&self) -> (f64, f64) {
        let (original, info) = (self.original(), self.description.to_bytes());
        let mut node = vec![0; self.size];
        let mut proved = || assert_eq!(black_box(self).proved(black_box(&mut node), black_box(&info)), 0);
        let original = || assert!(black_box(build(black_box(&original), self.size)).is_ok());
        let mut least = (f64::MAX, f64::MAX);
        for _ in 0..RUNS {
            least.0 = least.0.min(time(&mut proved));
            least.1 = least.1.min(time(original));
        }
        least
    }
}

fn random(length: usize, rng: &mut Rng) -> Vec<u8> {
    (0..length).map(|_| rng.number() as u8).collect()
}

fn time(mut node: impl FnMut()) -> f64 {
    let ((), seconds) = timed(|| (0..RUN_NODES).for_each(|_| node()));
    seconds / RUN_NODES as f64
}

#[cfg(test)]
mod tests {
    use super::*;

    #[test]
    fn full_nodes_have_as_many_entries_as_fit() {
        let mut rng = Rng::new(1);
        let counts: Vec<usize> =
            FORMS.iter().map(|form| Request::new(form, SIZE, true, &mut rng).entries.len()).collect();
        // of 65,440 bytes: 2,344 slots of 4 reserved, 8 slots of 8 at a time
        assert_eq!(counts, [2336, 2044, 209, 2515, 2344, 0]);
    }
}

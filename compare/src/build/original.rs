//! The original's `build`, and its reader over what was built.

use std::panic::{catch_unwind, AssertUnwindSafe};

use apfs::btree::{BTreeInfo, Node};
use apfs::btree_write::{self, NodeBuild};
use apfs::checksum;
use space_check::node::Sizes;

use super::request::{Entry, Request};
use crate::fields::{description, node, number, object};
use crate::oracle::message_of;

/// How the original's `build` ended.
#[derive(Clone, Debug, PartialEq, Eq)]
pub enum Ended {
    Built(Vec<u8>),
    Error(String),
    Panic(String),
}

type Owned = Vec<(Vec<u8>, Option<Vec<u8>>)>;

/// Builds a node from entries, which the slices of a request have to be. A size that isn't admitted may panic.
pub fn build(request: &Request, entries: &[Entry]) -> Ended {
    let entries = owned(entries);
    let header = &request.header;
    let asked = NodeBuild {
        oid: header.oid,
        xid: header.xid,
        obj_type: header.obj_type,
        subtype: header.subtype,
        level: header.level,
        root: header.root,
        fixed: match request.sizes {
            Sizes::Fixed { key, value } => Some((key as usize, value as usize)),
            Sizes::Variable => None,
        },
        info: info(&request.info),
        entries: &entries,
    };
    match catch_unwind(AssertUnwindSafe(|| btree_write::build(&asked, request.node_length))) {
        Ok(Ok(node)) => Ended::Built(node),
        Ok(Err(e)) => Ended::Error(e.to_string()),
        Err(cause) => Ended::Panic(message_of(cause.as_ref())),
    }
}

fn owned(entries: &[Entry]) -> Owned {
    entries.iter().map(|e| (e.key.to_vec(), e.value.map(<[u8]>::to_vec))).collect()
}

/// The description's eight fields.
fn info(bytes: &[u8]) -> BTreeInfo {
    let at = |at, width| number(bytes, at, width).expect("a whole description");
    let four = |place| at(place, 4) as u32;
    BTreeInfo {
        flags: four(0),
        node_size: four(4),
        key_size: four(8),
        val_size: four(12),
        longest_key: four(16),
        longest_val: four(20),
        key_count: at(24, 8),
        node_count: at(32, 8),
    }
}

/// Whether reading the node has to give the entries back: by its level, its kind, and entries of the stated sizes.
pub fn is_owed(request: &Request, entries: &[Entry]) -> bool {
    let is_node = [object::ROOT_NODE, object::NODE].contains(&u64::from(request.kind()));
    is_node && u64::from(request.header.level) <= node::HIGHEST_LEVEL && has_stated_sizes(request, entries)
}

/// Keys and values of the stated sizes, where some are stated; an index node's values are pointers.
pub fn has_stated_sizes(request: &Request, entries: &[Entry]) -> bool {
    let Sizes::Fixed { key, value } = request.sizes else { return true };
    let value = if request.is_leaf() { value as usize } else { node::POINTER };
    entries.iter().all(|e| e.key.len() == key as usize && e.value.is_none_or(|v| v.len() == value))
}

/// Reads the node with a description that states the request's sizes, and with its own where that does; what differs.
pub fn read_back(request: &Request, entries: &[Entry], node: &[u8]) -> Result<(), String> {
    if !checksum::verify(node) {
        return Err("the checksum doesn't verify".into());
    }
    let node = Node::parse(node.to_vec()).map_err(|e| e.to_string())?;
    let mut stated = info(&[0xee; description::LENGTH]);
    if let Sizes::Fixed { key, value } = request.sizes {
        (stated.key_size, stated.val_size) = (key, value);
    }
    read(&node, &stated, entries)?;
    if request.header.root {
        let own = node.info().map_err(|e| e.to_string())?;
        if !request.is_fixed() || (own.key_size, own.val_size) == (stated.key_size, stated.val_size) {
            read(&node, &own, entries)?;
        }
    }
    Ok(())
}

fn read(node: &Node, description: &BTreeInfo, entries: &[Entry]) -> Result<(), String> {
    if node.nkeys as usize != entries.len() {
        return Err(format!("{} entries and not {}", node.nkeys, entries.len()));
    }
    for (i, entry) in entries.iter().enumerate() {
        let read = node.entry(i, description).map_err(|e| e.to_string())?;
        if read != (entry.key, entry.value) {
            return Err(format!("entry {i} is {read:?}"));
        }
    }
    Ok(())
}

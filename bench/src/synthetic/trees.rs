//! Trees with full nodes over any number of entries.

use std::io;

use compare::nodes::{bytes_of, Entry, Node, Sizes};

use super::{Build, BLOCK, XID};

/// So many entries of the longest kind fit a node.
const FAN: usize = 100;
/// What the description of a tree with variable sizes states.
const VARIABLE: Sizes = Sizes { key: 0, value: 0 };

/// So many nodes has a tree of `entries`.
pub fn nodes(entries: u64) -> u64 {
    let here = entries.div_ceil(FAN as u64).max(1);
    here + if here > 1 { nodes(here) } else { 0 }
}

/// A tree's nodes, level by level, the root last.
pub struct Tree {
    levels: Vec<Vec<Vec<Entry>>>,
    /// None where sizes are variable.
    sizes: Option<Sizes>,
    subtype: u64,
    /// What names each node: its id, or its block in a physical tree.
    names: Vec<u64>,
}

impl Tree {
    /// The nodes take their names from `names`, which may have more.
    pub fn of(entries: Vec<Entry>, sizes: Option<Sizes>, subtype: u64, names: impl IntoIterator<Item = u64>) -> Self {
        let names: Vec<u64> = names.into_iter().take(nodes(entries.len() as u64) as usize).collect();
        let mut levels = Vec::new();
        let mut children = cut(entries);
        let mut named = 0;
        while children.len() > 1 {
            let naming = |(name, child): (&u64, &Vec<Entry>)| (child[0].0.clone(), Some(bytes_of(&[*name])));
            let parents = cut(names[named..].iter().zip(&children).map(naming).collect());
            named += children.len();
            levels.push(std::mem::replace(&mut children, parents));
        }
        levels.push(children);
        Tree { levels, sizes, subtype, names }
    }

    /// What names the root.
    pub fn root(&self) -> u64 {
        *self.names.last().expect("a tree has a root")
    }
}

impl Build<'_> {
    /// Writes the nodes of a physical tree into the blocks that name them.
    pub fn physical_tree(&mut self, tree: &Tree) -> io::Result<()> {
        self.tree(tree, tree.names.iter().copied())
    }

    /// Writes the nodes into blocks of `addresses`, which may have more.
    pub fn tree(&mut self, tree: &Tree, addresses: impl IntoIterator<Item = u64>) -> io::Result<()> {
        let mut block = vec![0; BLOCK];
        let levels = (0..).zip(&tree.levels);
        let nodes = levels.flat_map(|(level, nodes)| nodes.iter().map(move |entries| (level, entries)));
        for ((&id, address), (level, entries)) in tree.names.iter().zip(addresses).zip(nodes) {
            let node = Node {
                id,
                xid: XID,
                subtype: tree.subtype,
                level,
                leaf: level == 0,
                fixed: tree.sizes.is_some(),
                root: (level as usize + 1 == tree.levels.len()).then_some(tree.sizes.unwrap_or(VARIABLE)),
                entries,
            };
            node.write(&mut block, &mut self.rng);
            self.put(address, &block)?;
        }
        Ok(())
    }
}

fn cut(entries: Vec<Entry>) -> Vec<Vec<Entry>> {
    entries.chunks(FAN).map(<[Entry]>::to_vec).collect()
}

#[cfg(test)]
mod tests {
    use super::*;

    #[test]
    fn nodes_are_counted_as_they_are_built() {
        for entries in [1, 100, 101, 10_000, 10_001, 20_000] {
            let list = vec![(vec![0; 16], Some(vec![0; 8])); entries];
            let tree = Tree::of(list, Some(Sizes { key: 16, value: 8 }), 0, 0..);
            let built: usize = tree.levels.iter().map(Vec::len).sum();
            assert_eq!((built as u64, tree.root() + 1), (nodes(entries as u64), built as u64), "{entries} entries");
        }
    }
}

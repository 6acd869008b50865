// Nodes held against bytes that are laid out here by hand, and the limits of what is built.
use space_check::node::{build_into, Description, NodeBuilder, NodeHeader, Sizes, Unbuilt, GHOST, SIZES};

const HEADER: NodeHeader = NodeHeader { oid: 0x401, xid: 7, obj_type: 0x8000_0002, subtype: 9, level: 0, root: true };
const INNER: NodeHeader = NodeHeader { root: false, obj_type: 0x8000_0003, ..HEADER };
const QUEUE: Sizes = Sizes::Fixed { key: 16, value: 8 };

/// Fields that all differ, so that none can stand for another.
const DESCRIPTION: Description = Description {
    flags: 0x0a0b_0c00,
    node_size: 0x1112_1314,
    key_size: 0x2122_2324,
    val_size: 0x3132_3334,
    longest_key: 0x4142_4344,
    longest_val: 0x5152_5354,
    key_count: 0x6162_6364_6566_6768,
    node_count: 0x7172_7374_7576_7778,
};
const PACKED: Description = Description { flags: Description::NONALIGNED, ..DESCRIPTION };

/// Zeros, but for the bytes that are named with their place.
fn laid_out(parts: &[(usize, &[u8])]) -> Vec<u8> {
    let mut node = vec![0; 4096];
    for (at, bytes) in parts {
        node[*at..*at + bytes.len()].copy_from_slice(bytes);
    }
    node
}

/// Where two nodes differ first, rather than thousands of bytes.
fn assert_same(built: &[u8], expected: &[u8]) {
    assert_eq!(built.len(), expected.len());
    let differs = (0..built.len()).find(|&at| built[at] != expected[at]);
    assert_eq!(differs.map(|at| (at, built[at], expected[at])), None, "place, built, expected");
}

#[test]
fn a_variable_root() {
    let mut node = vec![0xee; 4096];
    let mut builder = NodeBuilder::new(HEADER, Sizes::Variable, DESCRIPTION);
    builder.entry("abc", "12345").ghost("k").entry("", "").build(&mut node).unwrap();
    // 4,000 bytes for 16 slots of 8, the keys' 16 and the value's 8; 3,848 are left
    let expected = laid_out(&[
        (0, &0x26ea_fb38_6732_a988_u64.to_le_bytes()),
        (8, &[1, 4, 0, 0, 0, 0, 0, 0, 7, 0, 0, 0, 0, 0, 0, 0]),
        (24, &[2, 0, 0, 0x80, 9, 0, 0, 0]),
        (32, &[3, 0, 0, 0, 3, 0, 0, 0]),
        (40, &[0, 0, 128, 0, 16, 0, 0x08, 0x0f, 0xff, 0xff, 0, 0, 0xff, 0xff, 0, 0]),
        (56, &[0, 0, 3, 0, 8, 0, 5, 0]),
        (64, &[8, 0, 1, 0, 0xff, 0xff, 0, 0]),
        (72, &[16, 0, 0, 0, 8, 0, 0, 0]),
        (56 + 128, b"abc"),
        (56 + 128 + 8, b"k"),
        (4056 - 8, b"12345"),
        (4056, &[0x00, 0x0c, 0x0b, 0x0a, 0x14, 0x13, 0x12, 0x11, 0x24, 0x23, 0x22, 0x21, 0x34, 0x33, 0x32, 0x31]),
        (4072, &[0x44, 0x43, 0x42, 0x41, 0x54, 0x53, 0x52, 0x51]),
        (4080, &[0x68, 0x67, 0x66, 0x65, 0x64, 0x63, 0x62, 0x61, 0x78, 0x77, 0x76, 0x75, 0x74, 0x73, 0x72, 0x71]),
    ]);
    assert_same(&node, &expected);
    assert_same(&builder.node(4096).unwrap(), &expected);
}

#[test]
fn a_fixed_index_node_without_padding() {
    let header = NodeHeader { level: 0x0102, ..INNER };
    // a value counts 8 here, so that 272 slots are reserved for the 269 entries that 4,040 bytes could hold
    let mut builder = NodeBuilder::new(header, Sizes::Fixed { key: 3, value: 99 }, PACKED);
    let node = builder.entry("abc", [0x11; 8]).entry("def", [0x22; 8]).node(4096).unwrap();
    let expected = laid_out(&[
        (0, &0x0fec_04f3_947b_c7be_u64.to_le_bytes()),
        (8, &[1, 4, 0, 0, 0, 0, 0, 0, 7, 0, 0, 0, 0, 0, 0, 0]),
        (24, &[3, 0, 0, 0x80, 9, 0, 0, 0]),
        (32, &[4, 0, 2, 1, 2, 0, 0, 0]),
        (40, &[0, 0, 0x40, 0x04, 6, 0, 0x72, 0x0b, 0xff, 0xff, 0, 0, 0xff, 0xff, 0, 0]),
        (56, &[0, 0, 8, 0, 3, 0, 16, 0]),
        (56 + 1088, b"abcdef"),
        (4096 - 16, &[0x22; 8]),
        (4096 - 8, &[0x11; 8]),
    ]);
    assert_same(&node, &expected);
}

/// Why there is no node of 4,096 bytes, where there is none; then what was lent is as it was.
fn refused(builder: &NodeBuilder) -> Option<Unbuilt> {
    let mut node = vec![0xee; 4096];
    let unbuilt = builder.build(&mut node).err();
    assert_eq!(unbuilt.is_some(), node == [0xee; 4096]);
    unbuilt
}

#[test]
fn slots_run_out_before_bytes_do() {
    let mut builder = NodeBuilder::new(HEADER, QUEUE, DESCRIPTION);
    for _ in 0..144 {
        builder.ghost([5; 16]);
    }
    assert_eq!(refused(&builder), None);
    assert_eq!(refused(builder.ghost([5; 16])), Some(Unbuilt::NoRoom));
}

#[test]
fn sizes_of_nothing() {
    let sizes = Sizes::Fixed { key: 0, value: 0 };
    // 1,000 slots fill a root to the byte; elsewhere those for 1,010 entries, rounded up, pass the node's end
    let mut root = NodeBuilder::new(HEADER, sizes, DESCRIPTION);
    for _ in 0..1000 {
        root.entry("", "");
    }
    assert_eq!(refused(&root), None);
    assert_eq!(refused(root.entry("", "")), Some(Unbuilt::NoRoom));
    assert_eq!(refused(&NodeBuilder::new(INNER, sizes, DESCRIPTION)), Some(Unbuilt::NoRoom));
}

#[test]
fn sizes_that_no_entry_fits_with() {
    let mut builder = NodeBuilder::new(INNER, Sizes::Fixed { key: u32::MAX, value: u32::MAX }, DESCRIPTION);
    assert_eq!(refused(&builder), None);
    assert_eq!(refused(builder.ghost("")), Some(Unbuilt::NoRoom));
}

#[test]
fn padding_takes_room() {
    let one = |description, key: usize, value: usize| {
        refused(NodeBuilder::new(INNER, Sizes::Variable, description).entry(vec![1; key], vec![2; value]))
    };
    // beside 16 slots of 8 there are 3,912 bytes
    assert_eq!(one(DESCRIPTION, 3904, 8), None);
    assert_eq!(one(DESCRIPTION, 3904, 1), None);
    assert_eq!(one(DESCRIPTION, 3905, 1), Some(Unbuilt::NoRoom));
    assert_eq!(one(PACKED, 3905, 7), None);
    assert_eq!(one(PACKED, 3905, 8), Some(Unbuilt::NoRoom));
}

/// A request as C makes it, on a node of some length, which a refusal leaves as it was.
fn asked(length: usize, info: &[u8], data: &[u8], lengths: &[u64]) -> u32 {
    let mut node = vec![0xee; length];
    let answer = build_into(&mut node, &HEADER, Sizes::Variable, info, data, lengths);
    assert!(answer == 0 || node.iter().all(|&byte| byte == 0xee), "{length} bytes, {lengths:?}");
    answer
}

#[test]
fn the_sizes_of_nodes() {
    for size in [0, 1, 8, 55, 56, 95, 96, 2048, 4095, 5000, 12_288, 65_535, 65_537, 69_632, 131_072] {
        assert_eq!(asked(size, &[0; 40], &[], &[]), 26, "{size}");
    }
    for size in SIZES {
        assert_eq!(asked(size, &[0; 40], &[], &[]), 0, "{size}");
    }
    let builder = NodeBuilder::new(HEADER, QUEUE, DESCRIPTION);
    assert_eq!(builder.node(usize::MAX), Err(Unbuilt::NoRoom));
    assert!(SIZES.iter().all(|&size| builder.node(size).map(|node| node.len()) == Ok(size)));
}

#[test]
fn slices_that_are_no_list_of_entries() {
    assert_eq!(asked(4096, &[0; 39], &[], &[]), 17);
    assert_eq!(asked(4096, &[0; 41], &[], &[]), 0);
    assert_eq!(asked(4096, &[0; 40], &[1; 9], &[4, 4, 1]), 17);
    assert_eq!(asked(4096, &[0; 40], &[1; 9], &[4, 6]), 17);
    assert_eq!(asked(4096, &[0; 40], &[1; 9], &[4, 5]), 0);
    // they add up to 2^64, and to more: in whole numbers, so not to 0
    assert_eq!(asked(4096, &[0; 40], &[1; 9], &[u64::MAX, 1]), 17);
    assert_eq!(asked(4096, &[0; 40], &[1; 9], &[u64::MAX - 1, 2, 0, 0, 2, GHOST]), 17);
    // of a value this is a ghost, of a key a length
    assert_eq!(asked(4096, &[0; 40], &[1; 9], &[9, GHOST]), 0);
    assert_eq!(asked(4096, &[0; 40], &[1; 9], &[GHOST, GHOST]), 17);
    // before the node's size is asked
    assert_eq!(asked(5000, &[0; 40], &[], &[0]), 17);
}

#[test]
fn what_is_not_looked_at() {
    let build = |info: &[u8], data: &[u8]| {
        let mut node = vec![0; 4096];
        assert_eq!(build_into(&mut node, &HEADER, Sizes::Variable, info, data, &[1, 2]), 0);
        node
    };
    let node = build(&[7; 40], b"key");
    assert_same(&build(&[[7; 40], [9; 40]].concat(), b"keyvalue"), &node);
}

#[test]
fn a_builder_goes_on() {
    let mut builder = NodeBuilder::new(INNER, QUEUE, DESCRIPTION);
    let empty = builder.node(4096).unwrap();
    let one = builder.entry([1; 16], [2; 8]).node(4096).unwrap();
    assert_eq!((empty[36], one[36]), (0, 1));
    // over a node that is there, nothing of it is left
    let mut again = one.clone();
    NodeBuilder::new(INNER, QUEUE, DESCRIPTION).build(&mut again).unwrap();
    assert_same(&again, &empty);
}

#[test]
fn why_a_node_is_not_built() {
    let numbers: Vec<u64> = Unbuilt::ALL.iter().map(|case| case.number()).collect();
    assert_eq!(numbers, [17, 26]);
    let unbuilt: Box<dyn std::error::Error> = Box::new(Unbuilt::NoRoom);
    assert!(unbuilt.to_string().starts_with("the entries have no room"), "{unbuilt}");
}

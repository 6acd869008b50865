//! The original's crate `apfs`, without what needs its missing `fs.rs`; of its writing, what builds a node.

#[path = "../assemble.rs"]
mod assemble;
use assemble::{assemble, Cut};

const FILES: [&str; 11] = [
    "btree.rs",
    "btree_write.rs",
    "bytes.rs",
    "checksum.rs",
    "dev.rs",
    "error.rs",
    "nx.rs",
    "obj.rs",
    "omap.rs",
    "spaceman.rs",
    WRITE,
];
const WRITE: &str = "write/mod.rs";
const LAST: &str = "    put_u64(apsb, 256, now); // apfs_last_mod_time\n}\n";

fn main() {
    println!("cargo:rerun-if-changed=../assemble.rs");
    let cuts = [
        Cut { file: "nx.rs", from: "use crate::fs::Volume;\n", upto: "", instead: "" },
        Cut { file: "nx.rs", from: "    /// Opens volume `index`", upto: "}\n\n/// Scans the checkpoint", instead: "" },
        // All but the import of the checksum, `seal`, `put_u32` and `put_u64`.
        Cut { file: WRITE, from: "mod fs;\n", upto: "use crate::checksum;\n", instead: "" },
        Cut { file: WRITE, from: "use crate::dev::", upto: "/// Stores a fresh checksum", instead: "" },
        Cut { file: WRITE, from: "static TRACE: ", upto: LAST, instead: "" },
        Cut { file: WRITE, from: LAST, upto: "", instead: "" },
    ];
    assemble("apfs", &FILES, &cuts);
}

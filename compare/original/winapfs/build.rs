//! The original's `space_check_container`, without what it claims of the volumes' files and without the other commands of its
//! file.

#[path = "../assemble.rs"]
mod assemble;
use assemble::{assemble, Cut};

const FILE: &str = "dump.rs";
const COUNTED: &str = "self.overlap_count += 1;";
const COUNT_CLAIMANT: &str = "self.overlap_count += 1;\n                crate::count_claimant(k);";
const HAND_OUT: &str = "crate::hand_out(&marked, &claims.owner, &claims.kinds, &ip_used);\n    println!(\"overlaps ";

fn main() {
    println!("cargo:rerun-if-changed=../assemble.rs");
    let cuts = [
        // Commands that open a source or a volume.
        Cut { file: FILE, from: "{open_source, ", upto: "", instead: "{" },
        Cut { file: FILE, from: "pub fn dump(", upto: "struct NodeReader<'a>", instead: "" },
        Cut { file: FILE, from: "/// `dev-omap-check`", upto: "/// One owner per block", instead: "" },
        Cut { file: FILE, from: "/// `dev-space-check`", upto: "/// [`space_check`]", instead: "" },
        // In the loop over the volumes their opening, which isn't among the sources, and the two claims that need an open one.
        Cut { file: FILE, from: "let v = c.volume(i)?;", upto: "", instead: "crate::open_volume(c, vsb.omap_oid)?;" },
        Cut {
            file: FILE,
            from: "for (_, _, val) in v.omap_entries()? {",
            upto: "for p in physical_tree_nodes(&c, vsb.extentref_tree_oid)? {",
            instead: "",
        },
        Cut {
            file: FILE,
            from: "        v.scan_all(",
            upto: "    }\n    // Blocks waiting in the main",
            instead: "",
        },
        // One line more where an overlap is counted: the kind that came second is told.
        Cut { file: FILE, from: COUNTED, upto: "", instead: COUNT_CLAIMANT },
        // And one: what the block map is made of, handed out after the last claim.
        Cut { file: FILE, from: "println!(\"overlaps ", upto: "", instead: HAND_OUT },
    ];
    assemble("winapfs", &[FILE], &cuts);
}

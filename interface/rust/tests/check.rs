// The 16-block container of document 01's listing, which is also the listing program's input.
use space_check::places::{CLAIMANTS, FREE_RING, LATER_LOST};
use space_check::{block_size, blocks, check, figures, figures_into, Cell, FIGURES};
use space_check::{Kind, Lost, Problem, ProblemKind, Refusal, Verdict};

const CONTAINER: &[u8] = include_bytes!("../../../crates/listing/stdin");
const BLOCKS: usize = 16;

/// Where its chunk bitmap begins: block 7, of which bits 0 to 9 are set.
const CHUNK_BITMAP: usize = 7 * 4096;

#[test]
fn a_consistent_container() {
    let mut map = vec![0xff; BLOCKS + 1];
    let report = check(CONTAINER, &mut map).unwrap();
    let expected = include_str!("../../../crates/listing/stdout");
    assert_eq!(report.listing("stdin").to_string(), expected);
    // its list of unused bitmap blocks is empty
    assert_eq!((report.verdict, report.free_ring), (Verdict::Consistent, 0));
    assert_eq!(map[BLOCKS], 0xff, "a byte past the block count");
    assert_eq!(Cell(map[9]).owner(), Some(Kind::ObjectMapNode));
    assert!(Cell(map[6]).is_pool_used() && Cell(map[6]).is_marked());
    assert_eq!(Cell(map[10]), Cell(0));
}

#[test]
fn a_lost_and_a_leaked_block() {
    let mut image = CONTAINER.to_vec();
    // the object map's root, 9, is free by the bitmap, and 10 is not
    image[CHUNK_BITMAP + 1] = 0x05;
    let mut map = vec![0; blocks(&image)];
    let report = check(&image, &mut map).unwrap();
    assert_eq!((report.verdict, report.leaked, report.lost_blocks()), (Verdict::Inconsistent, 1, 1));
    assert_eq!(report.lost[6], Lost { kind: Kind::ObjectMapNode, count: 1, first: Some(9) });
    assert!(Cell(map[9]).is_lost() && Cell(map[10]).is_leaked());
    let listing = report.listing("disk").to_string();
    assert!(listing.contains("in use but marked free: 1 blocks\n  object map node: 1 (first at 0x9)\n"), "{listing}");
    assert!(listing.ends_with("result     inconsistent\n"), "{listing}");
}

#[test]
fn overlaps_by_claimant() {
    let mut image = CONTAINER.to_vec();
    // by the superblock, block 2, the descriptor area is blocks 0 to 2, with the map at place 1, and the data area 1 to 5
    let superblock = &mut image[2 * 4096..3 * 4096];
    for (at, number) in [(104, 3), (108, 5), (112, 0), (120, 1), (136, 1)] {
        superblock[at] = number;
    }
    superblock[..8].copy_from_slice(&0x3b16_0135_0296_924f_u64.to_le_bytes());
    let mut map = vec![0; BLOCKS];
    let report = check(&image, &mut map).unwrap();
    assert_eq!((report.verdict, report.overlaps.total, report.lost_blocks()), (Verdict::Inconsistent, 4, 0));
    assert_eq!(report.claimants.iter().map(|claimant| claimant.kind).collect::<Vec<_>>(), Kind::ALL);
    let counts: Vec<u64> = report.claimants.iter().map(|claimant| claimant.count).collect();
    assert_eq!(counts, [0, 1, 2, 0, 1, 0, 0, 0, 0, 0, 0]);
    let listing = report.listing("disk").to_string();
    let overlaps = "overlaps   4 blocks claimed by two different things
  checkpoint descriptor area: 1
  checkpoint data area: 2
  internal-pool bitmap ring: 1
  block 0x0: container superblock and checkpoint descriptor area
";
    assert!(listing.contains(overlaps), "{listing}");
}

/// The container with a list of unused blocks in the ring of the pool's bitmap. The ring is block 5 alone, which is in use; the
/// list's table, in the manager's bytes 354 and 355, says that 0 follows 0.
fn with_free_list(head: u16, tail: u16, checksum: u64) -> Vec<u8> {
    let mut image = CONTAINER.to_vec();
    let manager = &mut image[3 * 4096..4 * 4096];
    manager[320..322].copy_from_slice(&head.to_le_bytes());
    manager[322..324].copy_from_slice(&tail.to_le_bytes());
    manager[332..336].copy_from_slice(&354_u32.to_le_bytes());
    manager[..8].copy_from_slice(&checksum.to_le_bytes());
    image
}

#[test]
fn a_list_of_unused_bitmap_blocks() {
    let mut map = vec![0xff; BLOCKS];
    let in_use = Problem { kind: ProblemKind::FreeInUse, block: 5 };
    let repeated = Problem { kind: ProblemKind::FreeRepeated, block: 5 };
    let report = check(&with_free_list(0, 0, 0x005f_c198_7fa0_2614), &mut map).unwrap();
    assert_eq!((report.verdict, report.free_ring, report.problems.first), (Verdict::Inconsistent, 1, vec![in_use]));
    // the tail is never met
    let report = check(&with_free_list(0, 1, 0x040f_c198_7bef_2614), &mut map).unwrap();
    assert_eq!((report.verdict, report.free_ring), (Verdict::Inconsistent, 1));
    assert_eq!(report.problems.first, [in_use, repeated]);
    let listing = report.listing("disk").to_string();
    assert!(listing.contains(", 2 problems\n  problem 7 at 0x5\n  problem 8 at 0x5\nbitmaps"), "{listing}");
    assert_eq!(check(&with_free_list(1, 1, 0x040f_c548_7bef_2263), &mut map), Err(Refusal::RingIndex));
    assert_eq!(map, [0; BLOCKS]);
}

#[test]
fn arrays_of_other_lengths() {
    let mut map = vec![0; BLOCKS];
    let whole = figures(CONTAINER, &mut map);
    // the numbers of version 0.1.0 are those before the later kinds, those of 0.3.0 the ones before the claimants, those of
    // 0.4.0 the ones before the free ring
    for length in [0, 1, 28, LATER_LOST, CLAIMANTS, FREE_RING, FIGURES, FIGURES + 4] {
        let (mut array, mut map_again) = (vec![u64::MAX; length], vec![0xff; BLOCKS]);
        figures_into(CONTAINER, &mut map_again, &mut array);
        let kept = vec![u64::MAX; length.saturating_sub(FIGURES)];
        assert_eq!(array, [&whole[..length.min(FIGURES)], &kept].concat(), "{length} numbers");
        assert_eq!(map_again, map, "{length} numbers");
    }
}

#[test]
fn a_short_map() {
    let mut map = [0xff; BLOCKS - 1];
    assert_eq!(check(CONTAINER, &mut map), Err(Refusal::ShortMap));
    assert_eq!(map, [0xff; BLOCKS - 1]);
}

#[test]
fn how_long_a_map() {
    assert_eq!((blocks(CONTAINER), block_size(CONTAINER)), (BLOCKS, 4096));
    assert_eq!((blocks(&[]), block_size(&[])), (0, 0));
    // an image cut short asks for no more than it could hold, and is refused for what is missing
    let cut = &CONTAINER[..5 * 4096 - 1];
    assert_eq!(blocks(cut), 4);
    assert_eq!(check(cut, &mut [0; 4]), Err(Refusal::MissingBlocks));
}

#[test]
fn nothing() {
    assert_eq!(check(&[], &mut []), Err(Refusal::ShortImage));
}

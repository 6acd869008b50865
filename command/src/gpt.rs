//! Partition tables of the GPT form (UEFI specification, "GUID Partition Table Disk Layout").

/// In the first sector of such a disk an MBR has a partition of this type, for programs that know MBRs alone. It begins at
/// sector 1.
const PROTECTIVE: u8 = 0xee;
const MBR_ENTRIES: [usize; 4] = [446, 462, 478, 494];
const MBR_TYPE: usize = 4;
const MBR_START: usize = 8;
const MBR_MAGIC_AT: usize = 510;
const MBR_MAGIC: &[u8] = &[0x55, 0xaa];

const SIGNATURE: &[u8] = b"EFI PART";
const SECTORS: [usize; 2] = [512, 4096];

/// The least length of a header, and where its fields stand.
const HEADER: usize = 92;
const HEADER_LENGTH: usize = 12;
const HEADER_SUM: usize = 16;
const ENTRIES: usize = 72;
const ENTRY_COUNT: usize = 80;
const ENTRY_LENGTH: usize = 84;
const ENTRIES_SUM: usize = 88;

/// The least length of an entry, and where its fields stand after the partition's type.
const ENTRY: usize = 128;
const FIRST: usize = 32;
const LAST: usize = 40;

/// All entries of a table that is read have no more bytes: 64 times what tools make.
const MOST_BYTES: usize = 1 << 20;

/// 7C3457EF-0000-11AA-AA11-00306543ECAC, as it stands on a disk.
const APFS: [u8; 16] = [0xef, 0x57, 0x34, 0x7c, 0x00, 0x00, 0xaa, 0x11, 0xaa, 0x11, 0x00, 0x30, 0x65, 0x43, 0xec, 0xac];
const UNUSED: [u8; 16] = [0; 16];

#[derive(Clone, Debug, PartialEq, Eq)]
pub struct Partition {
    /// From 1, as other tools count.
    pub number: u32,
    pub is_apfs: bool,
    /// Its first byte, and the one after its last.
    pub start: u64,
    pub end: u64,
}

#[derive(Debug, PartialEq, Eq)]
pub struct Table {
    pub partitions: Vec<Partition>,
    /// The table at the disk's end was taken, since the one at its start is damaged.
    pub is_backup: bool,
}

/// Whether a disk is one of a GPT. Tables that older use has left behind don't count.
pub fn is_there(disk: &[u8]) -> bool {
    let magic = disk.get(MBR_MAGIC_AT..).map_or(false, |rest| rest.starts_with(MBR_MAGIC));
    let protective = |&at: &usize| disk[at + MBR_TYPE] == PROTECTIVE && u32_at(disk, at + MBR_START) == Some(1);
    magic && MBR_ENTRIES.iter().any(protective)
}

/// The disk's table, where it has one whose checksums are right.
pub fn read(disk: &[u8]) -> Option<Table> {
    let found = |is_backup: bool| {
        let at = |sector: usize| if is_backup { disk.len().checked_sub(sector) } else { Some(sector) };
        SECTORS.iter().find_map(|&sector| table(disk, at(sector)?, sector))
    };
    let first = found(false).map(|partitions| Table { partitions, is_backup: false });
    first.or_else(|| Some(Table { partitions: found(true)?, is_backup: true }))
}

/// The partitions of the table whose header begins at a byte.
fn table(disk: &[u8], at: usize, sector: usize) -> Option<Vec<Partition>> {
    let header = header(disk.get(at..at.checked_add(sector)?)?)?;
    let length = usize::try_from(u32_at(header, ENTRY_LENGTH)?).ok()?;
    let count = usize::try_from(u32_at(header, ENTRY_COUNT)?).ok()?;
    let start = usize::try_from(u64_at(header, ENTRIES)?).ok()?.checked_mul(sector)?;
    let bytes = count.checked_mul(length).filter(|&bytes| length >= ENTRY && bytes <= MOST_BYTES)?;
    let entries = disk.get(start..start.checked_add(bytes)?)?;
    if crc32fast::hash(entries) != u32_at(header, ENTRIES_SUM)? {
        return None;
    }
    let used = (1..).zip(entries.chunks(length)).filter(|(_, entry)| !entry.starts_with(&UNUSED));
    used.map(|(number, entry)| partition(number, entry, sector as u64)).collect()
}

/// A sector's header, where its checksum, taken with its own field as 0, is right.
fn header(sector: &[u8]) -> Option<&[u8]> {
    let length = usize::try_from(u32_at(sector, HEADER_LENGTH)?).ok()?;
    let header = sector.get(..length)?;
    if !header.starts_with(SIGNATURE) || length < HEADER {
        return None;
    }
    let mut sum = crc32fast::Hasher::new();
    sum.update(&header[..HEADER_SUM]);
    sum.update(&[0; 4]);
    sum.update(&header[HEADER_SUM + 4..]);
    (sum.finalize() == u32_at(header, HEADER_SUM)?).then_some(header)
}

fn partition(number: u32, entry: &[u8], sector: u64) -> Option<Partition> {
    let start = u64_at(entry, FIRST)?.checked_mul(sector)?;
    let end = u64_at(entry, LAST)?.checked_add(1)?.checked_mul(sector)?;
    Some(Partition { number, is_apfs: entry.starts_with(&APFS), start, end })
}

fn u32_at(bytes: &[u8], at: usize) -> Option<u32> {
    Some(u32::from_le_bytes(bytes.get(at..at + 4)?.try_into().ok()?))
}

fn u64_at(bytes: &[u8], at: usize) -> Option<u64> {
    Some(u64::from_le_bytes(bytes.get(at..at + 8)?.try_into().ok()?))
}

//! Where the container lies in what was opened.

use crate::arguments::Arguments;
use crate::gpt::{self, Partition, Table};

pub struct Container<'a> {
    pub bytes: &'a [u8],
    pub offset: u64,
    pub partition: Option<u32>,
    /// What the operator should know of how it was found.
    pub note: Option<&'static str>,
}

impl<'a> Container<'a> {
    /// By the options; without any, the only APFS partition of a disk with a GPT, and the whole of any other.
    pub fn find(disk: &'a [u8], arguments: &Arguments) -> Result<Container<'a>, String> {
        if let Some(offset) = arguments.offset {
            return Container::within(disk, offset, u64::MAX);
        }
        if !gpt::is_there(disk) {
            return match arguments.partition {
                Some(_) => Err("it has no GPT: --offset names a container's place without one".into()),
                None => Container::within(disk, 0, u64::MAX),
            };
        }
        let table =
            gpt::read(disk).ok_or("its GPT is damaged at both ends: --offset names a container's place without one")?;
        match arguments.partition {
            Some(number) => Container::numbered(disk, &table, number),
            None => Container::only(disk, &table),
        }
    }

    fn within(disk: &'a [u8], offset: u64, end: u64) -> Result<Container<'a>, String> {
        let length = disk.len();
        let start = usize::try_from(offset).ok().filter(|&start| start <= length);
        let start = start.ok_or_else(|| format!("byte {offset} lies past its end, at {length}"))?;
        // a partition may be longer than what is there of its disk: the check tells what is missing
        let end = usize::try_from(end).unwrap_or(length).min(length).max(start);
        Ok(Container { bytes: &disk[start..end], offset, partition: None, note: None })
    }

    fn partition(disk: &'a [u8], table: &Table, at: &Partition) -> Result<Container<'a>, String> {
        if at.end <= at.start {
            return Err(format!("partition {} ends before it begins", at.number));
        }
        let note = table.is_backup.then_some("the GPT at the disk's start is damaged: took the one at its end");
        Ok(Container { partition: Some(at.number), note, ..Container::within(disk, at.start, at.end)? })
    }

    fn numbered(disk: &'a [u8], table: &Table, number: u32) -> Result<Container<'a>, String> {
        let found = table.partitions.iter().find(|partition| partition.number == number);
        let found = found.ok_or_else(|| format!("no partition {number}; {}", listed(table)))?;
        Container::partition(disk, table, found)
    }

    fn only(disk: &'a [u8], table: &Table) -> Result<Container<'a>, String> {
        let apfs: Vec<&Partition> = table.partitions.iter().filter(|partition| partition.is_apfs).collect();
        match apfs[..] {
            [only] => Container::partition(disk, table, only),
            [] => Err(format!("no APFS partition; {}", listed(table))),
            _ => Err(format!("several APFS partitions: --partition names one; {}", listed(table))),
        }
    }
}

fn listed(table: &Table) -> String {
    let numbers = table.partitions.iter().map(|p| format!("{}{}", p.number, if p.is_apfs { " (APFS)" } else { "" }));
    let numbers: Vec<String> = numbers.collect();
    if numbers.is_empty() {
        return "its GPT is empty".into();
    }
    format!("its GPT has {}", numbers.join(", "))
}

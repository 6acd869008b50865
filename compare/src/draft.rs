//! An image under way: fields of its objects read and written, objects sealed again.

use std::cmp::Reverse;
use std::ops::Range;

use crate::fields::{checkpoint_map, mapping, object, put, superblock, Field};
use crate::fletcher::{seal, verifies};
use crate::image::Image;
use crate::rng::Rng;
use crate::survey::{Object, Role, Survey};

pub struct Draft<'a> {
    pub image: Image,
    /// The objects of the undamaged container.
    pub survey: &'a Survey,
    pub rng: &'a mut Rng,
}

impl<'a> Draft<'a> {
    /// Notes a damage: its way, and what it made.
    pub fn note(&mut self, way: &str, made: &str) {
        self.image.ways.push(way.to_string());
        self.image.made.push(format!("{way}: {made}"));
    }

    /// The first object of a role.
    pub fn first(&self, role: Role) -> Option<&'a Object> {
        self.survey.with_role(role).first().copied()
    }

    /// The superblocks that verify, in the order in which they are tried.
    pub fn superblocks(&self) -> Vec<&'a Object> {
        let mut found = self.survey.with_role(Role::Superblock);
        found.retain(|o| self.block(o.blocks[0]).is_some_and(verifies));
        found.sort_by_key(|o| Reverse(self.get(o, object::XID)));
        found
    }

    /// Where byte `i` of an object stands in the image.
    pub fn place(&self, object: &Object, i: usize) -> usize {
        object.blocks[i / self.survey.block_size] as usize * self.survey.block_size + i % self.survey.block_size
    }

    /// Bytes past the image's end, which another damage may have cut, read as 0.
    fn byte(&self, object: &Object, i: usize) -> u8 {
        self.image.bytes.get(self.place(object, i)).copied().unwrap_or(0)
    }

    pub fn get(&self, object: &Object, field: Field) -> u64 {
        (0..field.width).rev().fold(0, |n, k| n << 8 | u64::from(self.byte(object, field.at + k)))
    }

    pub fn set(&mut self, object: &Object, field: Field, value: u64) {
        let mut bytes = [0; 8];
        put(&mut bytes, 0, field.width, value);
        self.store(object, field.at, &bytes[..field.width]);
    }

    pub fn store(&mut self, object: &Object, at: usize, bytes: &[u8]) {
        for (k, &byte) in bytes.iter().enumerate() {
            let place = self.place(object, at + k);
            if let Some(b) = self.image.bytes.get_mut(place) {
                *b = byte;
            }
        }
    }

    pub fn reseal(&mut self, object: &Object) {
        let mut bytes: Vec<u8> = (0..object.length).map(|i| self.byte(object, i)).collect();
        seal(&mut bytes);
        self.store(object, 0, &bytes[..8]);
    }

    /// Sets fields of an object and seals it.
    pub fn rewrite(&mut self, object: &Object, fields: &[(Field, u64)]) {
        fields.iter().for_each(|&(field, value)| self.set(object, field, value));
        if object.role.sealed() {
            self.reseal(object);
        }
    }

    /// Where a whole block stands, where the image still has it.
    fn place_of_block(&self, address: u64) -> Option<Range<usize>> {
        let start = usize::try_from(address).ok()?.checked_mul(self.survey.block_size)?;
        let end = start.checked_add(self.survey.block_size)?;
        (end <= self.image.bytes.len()).then_some(start..end)
    }

    pub fn block(&self, address: u64) -> Option<&[u8]> {
        Some(&self.image.bytes[self.place_of_block(address)?])
    }

    /// A whole block to write, with the numbers to write it by.
    pub fn block_and_rng(&mut self, address: u64) -> Option<(&mut [u8], &mut Rng)> {
        let place = self.place_of_block(address)?;
        Some((&mut self.image.bytes[place], self.rng))
    }

    /// Makes the container longer, the map too, and gives its first new block. No bitmap marks the new ones.
    pub fn grow(&mut self, blocks: u64) -> Option<u64> {
        let (count, size) = (self.survey.count, self.survey.block_size);
        if self.image.bytes.len() < count as usize * size {
            return None;
        }
        let holders = self.superblocks().into_iter().chain(self.first(Role::BlockZero));
        holders.for_each(|holder| self.rewrite(holder, &[(superblock::BLOCK_COUNT, count + blocks)]));
        self.image.bytes.resize(self.image.bytes.len() + blocks as usize * size, 0);
        self.image.map_length += blocks as usize;
        Some(count)
    }

    /// The places of all entries that map `id`, each with the map block that holds it.
    pub fn mapping_entries(&self, id: u64) -> Vec<(&'a Object, usize)> {
        let mut found = Vec::new();
        for object in self.survey.with_role(Role::CheckpointMap) {
            let room = (object.length - checkpoint_map::ENTRIES) / checkpoint_map::ENTRY;
            let count = (self.get(object, checkpoint_map::COUNT) as usize).min(room);
            let places = (0..count).map(|i| checkpoint_map::ENTRIES + i * checkpoint_map::ENTRY);
            found.extend(places.filter(|&at| self.get(object, mapping::ID.shifted(at)) == id).map(|at| (object, at)));
        }
        found
    }
}

//! Targeted damage: a field by name set to a boundary or random value, bits and bytes changed, recipes.

use crate::draft::Draft;
use crate::fields::{mapping, Field};
use crate::recipes::RECIPES;
use crate::survey::{Object, Role};

/// Sizes that something is compared with somewhere.
const SIZES: [u64; 24] = [
    8, 15, 16, 17, 31, 32, 33, 40, 101, 102, 126, 127, 340, 344, 348, 507, 508, 4092, 4096, 4100, 0xffff, 0x1_0000,
    0xf_ffff, 0x10_0000,
];

/// A manager of more bytes than this costs seconds: most such values are made smaller.
const DEAR_SIZE: u64 = 1 << 24;

impl<'a> Draft<'a> {
    /// One damage of whichever kind.
    pub fn damage(&mut self) {
        match self.rng.below(100) {
            0..60 => self.damage_field(),
            60..72 => self.damage_bits(),
            72..78 => self.damage_bytes(),
            _ => self.cook(),
        }
    }

    /// A recipe, or a field where the container has no place for it: what it began is undone then.
    fn cook(&mut self) {
        let (name, recipe) = *self.rng.pick(RECIPES);
        let before = self.image.clone();
        match recipe(self) {
            Some(made) => self.note(name, &made),
            None => {
                self.image = before;
                self.damage_field();
            }
        }
    }

    /// An object of a role chosen first, so that rare roles are damaged as often as frequent ones.
    fn any_object(&mut self, fit: impl Fn(&Object) -> bool) -> Option<&'a Object> {
        let mut roles = Role::ALL;
        self.rng.shuffle(&mut roles);
        for role in roles {
            let objects: Vec<&Object> = self.survey.with_role(role).into_iter().filter(|o| fit(o)).collect();
            if !objects.is_empty() {
                return Some(*self.rng.pick(&objects));
            }
        }
        None
    }

    fn damage_field(&mut self) {
        let Some(object) = self.any_object(|o| !o.fields.is_empty()) else { return };
        let field = *self.rng.pick(&object.fields);
        let old = self.get(object, field);
        let mut value = self.value(field, old);
        if object.role == Role::CheckpointMap
            && field.name == mapping::SIZE.name
            && value > DEAR_SIZE
            && !self.rng.chance(3)
        {
            value %= 1 << 16;
        }
        self.set(object, field, value);
        let sealed = object.role.sealed() && self.rng.chance(90);
        if sealed {
            self.reseal(object);
        }
        let seal = if sealed || !object.role.sealed() { "" } else { ", checksum left broken" };
        self.note(
            &format!("{}.{}", object.role.name(), field.name),
            &format!("block {} byte {} from {old:#x} to {value:#x}{seal}", object.blocks[0], field.at),
        );
    }

    /// A value for a field: small, a boundary, near the old one, an address or an id in use, or anything.
    fn value(&mut self, field: Field, old: u64) -> u64 {
        let highest = u64::MAX >> (64 - 8 * field.width);
        let top = highest / 2 + 1;
        let (count, size) = (self.survey.count, self.survey.block_size as u64);
        let value = match self.rng.below(15) {
            0 => self.rng.below(4),
            1 => *self.rng.pick(&[highest, highest - 1, top, top - 1, top | old]),
            2 => highest - self.rng.below(64),
            3 => old.wrapping_add(self.rng.between(1, 8)),
            4 => old.wrapping_sub(self.rng.between(1, 8)),
            5 => old ^ 1 << self.rng.below(8 * field.width as u64),
            6 => count.wrapping_add(self.rng.below(3)).wrapping_sub(1),
            7 => self.rng.pick(&self.survey.objects).blocks[0],
            8 => self.rng.below(count),
            9 => self.rng.number(),
            10 => self.rng.below(64),
            11 => *self.rng.pick(&self.survey.ids),
            12 => size - self.rng.below(128),
            13 => size * 8 * self.rng.between(1, 2) - 1 + self.rng.below(3),
            _ => *self.rng.pick(&SIZES),
        };
        value & highest
    }

    /// Bits of a bitmap: a few flipped, or a run cleared or set.
    fn damage_bits(&mut self) {
        let Some(object) = self.any_object(|o| o.bits > 0) else { return };
        let bits = object.bits.min(object.length as u64 * 8);
        let way = format!("{}.bits", object.role.name());
        if self.rng.chance(60) {
            let flipped: Vec<u64> = (0..self.rng.between(1, 3)).map(|_| self.rng.below(bits)).collect();
            flipped.iter().for_each(|&i| self.change_bit(object, i, |byte, bit| byte ^ bit));
            self.note(&way, &format!("block {} bits {flipped:?} flipped", object.blocks[0]));
            return;
        }
        let (from, set) = (self.rng.below(bits), self.rng.chance(30));
        let to = self.rng.between(from + 1, bits);
        (from..to).for_each(|i| self.change_bit(object, i, |byte, bit| if set { byte | bit } else { byte & !bit }));
        self.note(
            &way,
            &format!("block {} bits {from} to {to} {}", object.blocks[0], if set { "set" } else { "cleared" }),
        );
    }

    fn change_bit(&mut self, object: &Object, i: u64, change: impl Fn(u8, u8) -> u8) {
        let at = self.place(object, (i / 8) as usize);
        if let Some(byte) = self.image.bytes.get_mut(at) {
            *byte = change(*byte, 1 << (i % 8));
        }
    }

    /// Random bytes somewhere in an object, sealed again or not.
    fn damage_bytes(&mut self) {
        let Some(object) = self.any_object(|_| true) else { return };
        // Most of what counts stands near an object's beginning.
        let reach = if self.rng.chance(70) { object.length.min(400) } else { object.length };
        let at = self.rng.below(reach as u64) as usize;
        let field =
            Field { name: "bytes", at, width: self.rng.between(1, 8).min((object.length - at) as u64) as usize };
        let value = self.rng.number();
        self.set(object, field, value);
        let sealed = object.role.sealed() && self.rng.chance(60);
        if sealed {
            self.reseal(object);
        }
        let seal = if sealed { ", sealed" } else { "" };
        self.note(
            &format!("{}.bytes", object.role.name()),
            &format!("block {} bytes {at} to {}{seal}", object.blocks[0], at + field.width),
        );
    }
}

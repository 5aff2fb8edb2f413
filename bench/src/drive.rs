//! Where things stand on a drive and what is read from it (document 01, "The disk"), with refusals 1 to 7 and
//! 10 to 12. Names of one letter are document 01's.
use crate::engine::{Geometry, Needs};
use std::ops::Range;

/// The refusal of this number where its condition holds.
pub fn check(holds: bool, number: u32) -> Result<(), u32> {
    if holds { Err(number) } else { Ok(()) }
}

pub fn entry(bytes: &[u8], index: usize) -> usize {
    u32::from_le_bytes(bytes[4 * index..][..4].try_into().unwrap()) as usize
}

pub fn put_entry(bytes: &mut [u8], index: usize, value: usize) {
    bytes[4 * index..][..4].copy_from_slice(&(value as u32).to_le_bytes());
}

/// Sizes, and the addresses of bitmap, root and data area.
#[derive(Clone, Copy)]
pub struct Drive {
    pub b: usize,
    pub f: usize,
    pub k: usize,
    pub p: usize,
    pub h: usize,
    pub m: usize,
    pub bitmap: usize,
    pub root: usize,
    pub d: usize,
    pub t: usize,
}

/// The addresses of the nodes that a walk read, by level.
pub type Nodes = [Option<usize>; 5];

impl Drive {
    /// The drive of a geometry within the limits.
    #[inline(always)]
    pub fn of(g: Geometry) -> Option<Drive> {
        let [b, k, p, h, m] = [g.block_size, g.height, g.publics, g.hidden, g.slots].map(|x| x as usize);
        if !b.is_power_of_two() || !(32..=4096).contains(&b) || !(2..=4).contains(&k) {
            return None;
        }
        let f: usize = 1 << (b.ilog2() - 2);
        let bitmap = 1 + p.div_ceil(f);
        let root = bitmap + (m * (k + 1)).div_ceil(8 * b);
        let (d, t) = (root + 1, root + 1 + m * (k + 1));
        let fits = p >= 1 && h >= 1 && m > p && m > h && h <= (f - 1) * f.pow(k as u32 - 1) && t < 1 << 31;
        fits.then_some(Drive { b, f, k, p, h, m, bitmap, root, d, t })
    }

    /// Refusals 1 and 2, or the drive of a geometry on a disk of so many bytes.
    #[inline(always)]
    pub fn sized(g: Geometry, bytes: usize) -> Result<Drive, u32> {
        check(bytes < 24, 1)?;
        let v = Drive::of(g).ok_or(1u32)?;
        check(bytes != v.t * v.b, 2).map(|()| v)
    }

    /// Refusals 1 to 3, or the drive on a disk and its head.
    #[inline(always)]
    pub fn open(disk: &[u8]) -> Result<(Drive, usize), u32> {
        check(disk.len() < 24, 1)?;
        let n = |i| entry(disk, i) as u32;
        let g = Geometry { block_size: n(0), height: n(1), publics: n(2), hidden: n(3), slots: n(4) };
        let (v, head) = (Drive::sized(g, disk.len())?, entry(disk, 5));
        check(head >= v.m, 3).map(|()| (v, head))
    }

    pub fn block<'a>(&self, disk: &'a [u8], address: usize) -> &'a [u8] {
        &disk[address * self.b..][..self.b]
    }

    pub fn start(&self, slot: usize) -> usize {
        self.d + slot * (self.k + 1)
    }

    pub fn slot_of(&self, address: usize) -> usize {
        (address - self.d) / (self.k + 1)
    }

    /// Whether an address is A + place of some slot.
    pub fn is_at(&self, place: usize, address: usize) -> bool {
        (self.d..self.t).contains(&address) && (address - self.d) % (self.k + 1) == place
    }

    /// Whether an address is one of a level: A + level of some slot, or A + k for level 0.
    pub fn is_well_formed(&self, level: usize, address: usize) -> bool {
        self.is_at(if level == 0 { self.k } else { level }, address)
    }

    /// Bitmap block, byte and weight of a slot's bit.
    pub fn bit(&self, slot: usize) -> (usize, usize, u8) {
        let bit = slot * (self.k + 1);
        (self.bitmap + bit / (8 * self.b), bit % (8 * self.b) / 8, 1 << (bit % 8))
    }

    pub fn marked(&self, disk: &[u8], slot: usize) -> bool {
        let (address, byte, weight) = self.bit(slot);
        self.block(disk, address)[byte] & weight != 0
    }

    /// Whose slot the one at A is, if anyone's: the last entry of its leaf.
    #[inline(always)]
    pub fn owner(&self, disk: &[u8], a: usize) -> usize {
        entry(self.block(disk, a + 1), self.f - 1)
    }

    /// Block and place of a public number's map entry.
    pub fn map_place(&self, number: usize) -> (usize, usize) {
        (1 + number / self.f, number % self.f)
    }

    /// The map entries of the public numbers, those that are 0 left out.
    pub fn mapped(&self, disk: &[u8]) -> impl Iterator<Item = usize> {
        let map = &disk[self.b..];
        (0..self.p).map(move |number| entry(map, number)).filter(|at| *at != 0)
    }

    /// The bytes of the bitmap on a disk, padding too.
    pub fn bits(&self) -> Range<usize> {
        self.bitmap * self.b..self.root * self.b
    }

    /// The place, in its node of level + 1, of the entry that leads a hidden number to a level.
    pub fn branch(&self, number: usize, level: usize) -> usize {
        match level {
            0 => number % (self.f - 1),
            _ => (number / (self.f - 1)) >> (self.f.ilog2() as usize * (level - 1)) & (self.f - 1),
        }
    }

    /// Where a number's data stands, none for an unmapped one, and the nodes read; or refusal 12.
    #[inline(always)]
    pub fn walk(&self, disk: &[u8], number: usize) -> Result<(Option<usize>, Nodes), u32> {
        let (mut nodes, mut node) = ([None; 5], self.root);
        for level in (0..self.k).rev() {
            nodes[level + 1] = Some(node);
            node = entry(self.block(disk, node), self.branch(number, level));
            if node == 0 {
                return Ok((None, nodes));
            }
            check(!self.is_well_formed(level, node), 12)?;
        }
        Ok((Some(node), nodes))
    }

    /// Whether the walk for a number ends at a data address.
    pub fn leads_to(&self, disk: &[u8], number: usize, address: usize) -> bool {
        self.walk(disk, number).is_ok_and(|(end, _)| end == Some(address))
    }

    /// The round, counted from a head, that comes by the slot where a hidden number's block stands.
    pub fn round_of(&self, disk: &[u8], head: usize, number: usize) -> Option<usize> {
        let (end, _) = self.walk(disk, number).ok()?;
        Some((self.slot_of(end?) + self.m - head) % self.m + 1)
    }

    /// Makes a node of a level point to what is below it in the slot at A; a leaf also names its owner.
    pub fn link(&self, node: &mut [u8], level: usize, number: usize, a: usize) {
        put_entry(node, self.branch(number, level - 1), if level == 1 { a + self.k } else { a + level - 1 });
        if level == 1 {
            put_entry(node, self.f - 1, number);
        }
    }

    /// Refusals 10 and 11 of a number and the length of its data or blank.
    pub fn check_hidden(&self, number: usize, size: usize) -> Result<(), u32> {
        check(number >= self.h, 10)?;
        check(size != self.b, 11)
    }

    /// Refusals 4 to 6 of a number and the length of its data or blank, or the number's map entry.
    #[inline(always)]
    pub fn place(&self, disk: &[u8], number: usize, size: usize) -> Result<usize, u32> {
        check(number >= self.p, 4)?;
        check(size != self.b, 5)?;
        let (address, place) = self.map_place(number);
        let at = entry(self.block(disk, address), place);
        check(at != 0 && !(self.is_at(0, at) && self.marked(disk, self.slot_of(at))), 6).map(|()| at)
    }

    /// Refusals 4 to 7 of a write, or what it takes and the number's map entry.
    pub fn plan(&self, disk: &[u8], head: usize, number: usize, size: usize) -> Result<(Needs, usize), u32> {
        let old = self.place(disk, number, size)?;
        let rounds = 1 + (0..self.m).find(|i| !self.marked(disk, (head + i) % self.m)).ok_or(7u32)?;
        let last = (head + rounds - 1) % self.m;
        let two_blocks = old != 0 && self.bit(self.slot_of(old)).0 != self.bit(last).0;
        let stores = rounds * (self.k + 3) + if two_blocks { 3 } else { 2 };
        let [rounds, stores, random_blocks] = [rounds, stores, rounds * self.k].map(|x| x as u32);
        Ok((Needs { answer: 0, rounds, stores, random_blocks }, old))
    }
}

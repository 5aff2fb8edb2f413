//! The whole-tree check of document 02, K1, in plain Rust: a node goes through its entries, and each entry
//! goes on to its node, one level lower. The proved check is measured and held against it.
use crate::drive::{Drive, check, entry};
use std::ops::Range;

/// Refusals 1 to 3; then 13, 14 or 15 at the first entry that gets one, from the first root entry on.
pub fn check_tree(disk: &[u8]) -> Result<(), u32> {
    let (v, _) = Drive::open(disk)?;
    v.check_node(disk, v.root, v.k, 0)
}

impl Drive {
    /// How many hidden numbers lie below an entry that leads to a level; of a whole tree it can have 40 bits.
    pub fn width(&self, level: usize) -> usize {
        if level == 0 { 1 } else { (self.f - 1) * self.f.pow(level as u32 - 1) }
    }

    /// The entries of a node of a level, `first` being the least number below it. A leaf's last entry is its
    /// slot's owner and passed over.
    fn check_node(&self, disk: &[u8], address: usize, level: usize, first: usize) -> Result<(), u32> {
        let (node, width) = (self.block(disk, address), self.width(level - 1));
        for place in 0..if level == 1 { self.f - 1 } else { self.f } {
            let start = first + place * width;
            self.check_entry(disk, entry(node, place), level - 1, start..start + width)?;
        }
        Ok(())
    }

    /// An entry that leads to a level, with the numbers below it; then the node that it leads to.
    fn check_entry(&self, disk: &[u8], address: usize, level: usize, below: Range<usize>) -> Result<(), u32> {
        if address == 0 {
            return Ok(());
        }
        check(!self.is_well_formed(level, address), 13)?;
        check(below.start >= self.h, 14)?;
        let a = self.start(self.slot_of(address));
        let owner = self.owner(disk, a);
        check(!below.contains(&owner) || !self.leads_to(disk, owner, a + self.k), 15)?;
        if level == 0 { Ok(()) } else { self.check_node(disk, address, level, below.start) }
    }
}

//! A public volume on a drive of the proved mapper, written without offers: what `fill` and `spread` measure.
//! How many rounds a write takes depends on P, M and the numbers written alone, so its blocks are small.
use crate::drive::entry;
use crate::engine::{Geometry, Write, Written, ample, fresh};
use crate::proved::PROVED;
use crate::random::Random;

/// Which numbers are written.
#[derive(Clone, Copy)]
pub enum Pattern {
    /// Number 0, again and again.
    Hot,
    /// Nine of ten writes at random in the first tenth, the others at random among all.
    Tenth,
    /// At random.
    Uniform,
}

impl Pattern {
    pub fn number(self, r: &mut Random, publics: u32) -> u32 {
        let mut below = |n: u32| r.below(u64::from(n)) as u32;
        match self {
            Pattern::Hot => 0,
            Pattern::Tenth if below(10) < 9 => below(publics / 10),
            Pattern::Tenth | Pattern::Uniform => below(publics),
        }
    }
}

/// A drive with the buffers that its writes lend.
pub struct Volume {
    pub publics: u32,
    disk: Vec<u8>,
    block: Vec<u8>,
    blank: Vec<u8>,
    random: Vec<u8>,
    list: Vec<u32>,
}

impl Volume {
    pub fn new(publics: u32, slots: u32) -> Self {
        let g = Geometry { block_size: 64, height: 2, publics, hidden: 100, slots };
        let (random, list) = ample(g);
        let block = |byte| vec![byte; g.block_size as usize];
        let (random, list) = (vec![165; random], vec![0; list]);
        Volume { publics, disk: fresh(&PROVED, g), block: block(1), blank: block(0), random, list }
    }

    pub fn head(&self) -> u32 {
        entry(&self.disk, 5) as u32
    }

    pub fn write(&mut self, number: u32) -> Written {
        let call = Write { number, data: &self.block, offer: None, random: &self.random };
        let written = (PROVED.write)(&mut self.disk, &call, &mut self.list);
        assert_eq!(written.answer, 0, "a good write");
        written
    }

    /// Writes a number's own block again, if it has one.
    pub fn rewrite(&mut self, number: u32) -> Option<Written> {
        let shown = (PROVED.public_read)(&self.disk, number, &self.blank).expect("a good read");
        if shown == self.blank {
            return None;
        }
        self.block.copy_from_slice(shown);
        Some(self.write(number))
    }
}

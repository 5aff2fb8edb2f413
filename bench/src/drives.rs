//! Random small drives: aged by calls, damaged, full, foreign or with a deep tree; and what makes calls
//! refuse a drive.
use crate::drive::{Drive, put_entry};
use crate::engine::{Engine, Geometry, Write, ample};
use crate::random::Random;

#[derive(Clone, Copy, PartialEq, Eq)]
pub enum Kind {
    /// Formatted here, and changed by calls only.
    Aged,
    /// Formatted here; entries and bits are damaged between the calls.
    Damaged,
    /// Every public number written, most hidden numbers placed, and one or two slots to spare.
    Full,
    /// Map, bitmap, root, nodes and the header's rest are another's.
    Foreign,
    /// Hidden numbers placed at random, in up to some 70 leaves.
    Deep,
}

pub const KINDS: [Kind; 5] = [Kind::Aged, Kind::Damaged, Kind::Full, Kind::Foreign, Kind::Deep];

/// The most hidden numbers of a tree.
pub fn capacity(block_size: u32, height: u32) -> u64 {
    let fanout = u64::from(block_size / 4);
    (fanout - 1) * fanout.pow(height - 1)
}

/// A geometry within the limits: now and then with large blocks, with several map and bitmap blocks, or with
/// as many hidden numbers as the tree holds.
pub fn geometry(r: &mut Random, kind: Kind) -> Geometry {
    let large = r.one_in(100);
    let block_size = if large { r.pick(&[512, 4096]) } else { r.pick(&[32, 32, 32, 64, 128]) };
    let height = 2 + r.below(3) as u32;
    let most = if !large && r.one_in(8) { 100 } else { 9 };
    let publics = 1 + r.below(most) as u32;
    let most = if !large && kind == Kind::Deep { r.pick(&[9, 60, 60, 500]) } else { most };
    let capacity = capacity(block_size, height).min(most) as u32;
    let hidden = (1 + r.below(most) as u32).min(capacity);
    let (publics, hidden) = match kind {
        Kind::Full => (publics.max(hidden), publics.max(hidden).min(capacity)),
        _ => (publics, hidden),
    };
    let spare = if kind == Kind::Full { 1 + r.below(2) } else { 1 + r.below(6) };
    Geometry { block_size, height, publics, hidden, slots: publics.max(hidden) + spare as u32 }
}

/// A geometry with one number at a limit, past it, or anything. The most slots are where all blocks near
/// 2^31.
pub fn bent_geometry(r: &mut Random, mut g: Geometry) -> Geometry {
    let capacity = capacity(g.block_size, g.height).min(1 << 31) as u32;
    let any = r.word() as u32;
    let bits = 8 * u64::from(g.block_size);
    let most_slots = (bits << 31) / ((bits + 1) * u64::from(g.height + 1));
    match r.below(7) {
        0 => g.block_size = r.pick(&[0, 16, 48, 4096, 8192, any]),
        1 => g.height = r.pick(&[0, 1, 5, any]),
        2 => g.publics = r.pick(&[0, g.slots - 1, g.slots, any]),
        3 => g.hidden = r.pick(&[0, g.slots - 1, g.slots, any]),
        4 => (g.hidden, g.slots) = (capacity + r.below(2) as u32, capacity + 2),
        5 => g.slots = (most_slots + 2 - r.below(12)) as u32,
        _ => g.slots = r.pick(&[0, 1 << 29, 1 << 30, 1 << 31, u32::MAX, any]),
    }
    g
}

/// An entry that may lead somewhere: 0, a place in a slot, any address, or anything.
pub fn any_entry(r: &mut Random, v: &Drive) -> usize {
    let slot = v.start(r.below(v.m as u64) as usize);
    match r.below(8) {
        0 => 0,
        1..=5 => slot + r.below(v.k as u64 + 1) as usize,
        6 => r.below(v.t as u64 + 2) as usize,
        _ => r.word() as u32 as usize,
    }
}

/// Changes one entry of the map, the root or a node, an owner, or a byte of the bitmap.
pub fn damage(r: &mut Random, g: Geometry, disk: &mut [u8]) {
    let v = Drive::of(g).expect("a geometry within the limits");
    let slot = v.start(r.below(v.m as u64) as usize);
    let level = 1 + r.below(v.k as u64 - 1) as usize;
    let place = r.below(v.f as u64) as usize;
    let value = any_entry(r, &v);
    match r.below(6) {
        0 => put_entry(&mut disk[v.b..], r.below(v.p as u64) as usize, value),
        1 => put_entry(&mut disk[v.root * v.b..], if r.one_in(2) { 0 } else { place }, value),
        2 => put_entry(&mut disk[(slot + level) * v.b..], r.pick(&[0, 0, 1, place]), value),
        3 => put_entry(&mut disk[(slot + 1) * v.b..], v.f - 1, r.below(v.h as u64 + 2) as usize),
        4 => disk[v.bitmap * v.b + r.below((v.m * (v.k + 1)).div_ceil(8) as u64) as usize] = r.word() as u8,
        _ => put_entry(disk, 5, r.below(v.m as u64) as usize),
    }
}

/// A drive on which every entry that a call can meet is any entry, and every bit any bit.
fn foreign(r: &mut Random, v: &Drive, disk: &mut [u8]) {
    let rest = r.bytes(v.b - 24);
    disk[24..v.b].copy_from_slice(&rest);
    put_entry(disk, 5, r.below(v.m as u64) as usize);
    let dense = r.below(3);
    for byte in &mut disk[v.bitmap * v.b..v.root * v.b] {
        *byte = match dense {
            0 => r.word() as u8,
            1 => r.word() as u8 | r.word() as u8 | r.word() as u8,
            _ => r.word() as u8 & r.word() as u8,
        };
    }
    for index in 0..v.p {
        let value = if r.one_in(3) { 0 } else { v.start(r.below(v.m as u64) as usize) };
        put_entry(&mut disk[v.b..], index, value);
    }
    for address in v.root..v.t {
        let node = &mut disk[address * v.b..][..v.b];
        for index in 0..v.f {
            put_entry(node, index, any_entry(r, v));
        }
        put_entry(node, v.f - 1, r.below(v.h as u64 + 1) as usize);
    }
    // Each slot's leaf is made to stand on its owner's path as often as not.
    for slot in 0..v.m {
        let (a, owner) = (v.start(slot), r.below(v.h as u64) as usize);
        if r.one_in(2) {
            for level in 1..v.k {
                v.link(&mut disk[(a + level) * v.b..][..v.b], level, owner, a);
            }
            v.link(&mut disk[v.root * v.b..][..v.b], v.k, owner, a);
        }
    }
}

/// Writes public numbers, each with an offer of the hidden number beside it, if there is one.
pub fn fill(
    engine: &Engine,
    g: Geometry,
    disk: &mut [u8],
    lines: impl IntoIterator<Item = (u32, Option<u32>)>,
) {
    let (random, list) = ample(g);
    let (block, random, mut list) = (vec![1; g.block_size as usize], vec![2; random], vec![0; list]);
    for (number, offered) in lines {
        let offer = offered.map(|hidden| (hidden, &block[..]));
        let call = Write { number, data: &block, offer, random: &random };
        (engine.write)(disk, &call, &mut list);
    }
}

/// A drive of a kind, on random bytes, before its first call.
pub fn drive(r: &mut Random, engine: &Engine, kind: Kind, g: Geometry) -> Vec<u8> {
    let v = Drive::of(g).expect("a geometry within the limits");
    let mut disk = r.bytes(v.t * v.b);
    (engine.format)(&mut disk, g).expect("a drive formatted");
    match kind {
        Kind::Aged | Kind::Damaged => {}
        Kind::Full => fill(engine, g, &mut disk, (0..g.publics).map(|n| (n, Some(n % g.hidden)))),
        Kind::Foreign => foreign(r, &v, &mut disk),
        Kind::Deep => {
            let writes = 1 + r.below(2 * u64::from(g.slots));
            let mut any = |n| r.below(u64::from(n)) as u32;
            fill(engine, g, &mut disk, (0..writes).map(|_| (any(g.publics), Some(any(g.hidden)))));
        }
    }
    disk
}

/// Makes a drive one that calls refuse: a header number bent, a wrong length, the head outside, or every slot
/// allocated.
pub fn spoil(r: &mut Random, g: Geometry, disk: &mut Vec<u8>) {
    let v = Drive::of(g).expect("a geometry within the limits");
    match r.below(5) {
        0 => {
            let bent = bent_geometry(r, g);
            let numbers = [bent.block_size, bent.height, bent.publics, bent.hidden, bent.slots];
            numbers.into_iter().enumerate().for_each(|(i, x)| put_entry(disk, i, x as usize));
        }
        1 => disk.truncate(r.pick(&[0, 4, 23, 24, v.b, v.t * v.b - 1])),
        2 => disk.resize(r.pick(&[v.t * v.b + 1, (v.t + 1) * v.b]), 0),
        3 => put_entry(disk, 5, r.pick(&[v.m, v.m + 1, u32::MAX as usize])),
        _ => (0..v.m).for_each(|slot| {
            let (address, byte, weight) = v.bit(slot);
            disk[address * v.b + byte] |= weight;
        }),
    }
}

//! Random calls on a drive of a geometry: mostly good ones, now and then with a number outside, a buffer of
//! another length or a bent line.
use crate::calls::{Call, LentLine};
use crate::drives::bent_geometry;
use crate::engine::Geometry;
use crate::lines::{any_number, any_offer};
use crate::plain::PLAIN;
use crate::random::Random;
use std::rc::Rc;

/// One block of random bytes, or now and then less or more.
fn any_block(r: &mut Random, b: usize) -> Vec<u8> {
    let size = if r.one_in(20) { r.pick(&[0, b - 1, b + 1, 2 * b]) } else { b };
    r.bytes(size)
}

/// As much as is needed, or more, or now and then too little.
fn any_room(r: &mut Random, needed: usize) -> usize {
    match r.below(16) {
        0 => needed.saturating_sub(1),
        1 => 0,
        2..=5 => needed + 1 + r.below(40) as usize,
        _ => needed,
    }
}

/// An offered number and its block.
type Offered = (u32, Vec<u8>);

pub fn any_offered(r: &mut Random, g: Geometry) -> Offered {
    let hidden = any_block(r, g.block_size as usize);
    (any_number(r, g.hidden), hidden)
}

/// A write without a line, with an offer, if there is one.
pub fn any_write(r: &mut Random, g: Geometry, disk: &[u8], offer: Option<Offered>) -> Call {
    let (number, data, random, list) = any_lent(r, g, disk);
    Call::Write { number, data, offer, random, list }
}

/// A write with a line.
pub fn any_line_write(r: &mut Random, g: Geometry, disk: &[u8], line: &LentLine) -> Call {
    let (number, data, random, list) = any_lent(r, g, disk);
    Call::WriteLine { number, data, line: line.clone(), random, list }
}

/// What a write lends but for what it carries: its number, its data, random bytes and a list.
fn any_lent(r: &mut Random, g: Geometry, disk: &[u8]) -> (u32, Vec<u8>, Vec<u8>, Vec<u32>) {
    let b = g.block_size as usize;
    let number = any_number(r, g.publics);
    let needs = (PLAIN.needs)(disk, number);
    let random = any_room(r, needs.random_blocks as usize * b);
    let room = any_room(r, needs.stores as usize);
    let (data, random) = (any_block(r, b), r.bytes(random));
    (number, data, random, (0..room).map(|_| r.word() as u32).collect())
}

/// A call that lends a line.
pub fn any_line_call(r: &mut Random, g: Geometry, disk: &[u8], line: &LentLine) -> Call {
    match r.below(8) {
        0..=2 => Call::Enter(any_offer(r, g, line), line.clone()),
        3..=5 => any_line_write(r, g, disk, line),
        _ => {
            let blank = any_block(r, g.block_size as usize);
            let number = if r.one_in(2) { any_number(r, g.hidden) } else { any_waiting(r, g, line) };
            Call::HiddenReadLine(number, blank, line.clone())
        }
    }
}

/// The number of an offer that waits, or any.
fn any_waiting(r: &mut Random, g: Geometry, line: &LentLine) -> u32 {
    match line.held() {
        [] => any_number(r, g.hidden),
        held => r.pick(held).number,
    }
}

/// A write without a line or with it.
pub fn either_write(r: &mut Random, g: Geometry, disk: &[u8], line: &LentLine) -> Call {
    if r.one_in(2) {
        return any_line_write(r, g, disk, line);
    }
    let offer = (!r.one_in(4)).then(|| any_offered(r, g));
    any_write(r, g, disk, offer)
}

/// A write that is cut after some store, or has a bound past all.
fn any_cut(r: &mut Random, g: Geometry, disk: &[u8], line: &LentLine) -> Call {
    let write = either_write(r, g, disk, line);
    let stores = u64::from(write.needs(disk).stores);
    let bound = if r.one_in(8) { r.pick(&[1 << 32, usize::MAX]) } else { r.below(stores + 2) as usize };
    Call::Cut(Rc::new(write), bound)
}

pub fn any_call(r: &mut Random, g: Geometry, disk: &[u8], line: &LentLine) -> Call {
    let b = g.block_size as usize;
    match r.below(100) {
        0 if r.one_in(6) => Call::Format(g),
        0 | 1 => Call::Format(bent_geometry(r, g)),
        2..=9 => Call::PublicRead(any_number(r, g.publics), any_block(r, b)),
        10..=17 => Call::HiddenRead(any_number(r, g.hidden), any_block(r, b)),
        18..=21 => Call::Needs(any_number(r, g.publics)),
        22..=25 => Call::CheckTree,
        26 => Call::Identify,
        27 => Call::DriveSize(bent_geometry(r, g)),
        28 => Call::WaitRounds,
        29..=55 => {
            let offer = (!r.one_in(4)).then(|| any_offered(r, g));
            any_write(r, g, disk, offer)
        }
        56 | 57 => any_cut(r, g, disk, line),
        58 | 59 => Call::Recover,
        _ => any_line_call(r, g, disk, line),
    }
}

//! Random lines of waiting offers: entered one by one and handed back by the calls, and bent now and then.
use crate::calls::LentLine;
use crate::drive::Drive;
use crate::engine::{Geometry, MOST_OFFERS, Offer};
use crate::plain::PLAIN;
use crate::random::Random;

/// So many bytes of lent blocks: a few whole blocks, now and then none, or a short one behind them.
pub fn any_blocks(r: &mut Random, b: usize) -> Vec<u8> {
    let count = if r.one_in(8) { 0 } else { 1 + r.below(4) as usize };
    let rest = if r.one_in(4) { r.pick(&[1, b / 2, b - 1]) } else { 0 };
    r.bytes(count * b + rest)
}

/// A number below n, or now and then one past it.
pub fn any_number(r: &mut Random, n: u32) -> u32 {
    if r.one_in(15) { r.pick(&[n, n + 1, u32::MAX]) } else { r.below(u64::from(n)) as u32 }
}

/// A place among the lent blocks, or now and then outside: just past them, or so far that its bytes' offset
/// has more than 32 bits.
fn any_place(r: &mut Random, b: usize, bytes: usize) -> u32 {
    let count = (bytes / b) as u64;
    if count == 0 || r.one_in(10) {
        let far = (1u64 << 32) / b as u64;
        return r.pick(&[count, count + 1, far, far + 1, u64::from(u32::MAX)]) as u32;
    }
    r.below(count) as u32
}

/// An offer for a drive and the lent blocks, now and then one that 10 or 11 meets.
pub fn any_offer(r: &mut Random, g: Geometry, line: &LentLine) -> Offer {
    let number = any_number(r, g.hidden);
    Offer { number, place: any_place(r, g.block_size as usize, line.blocks.len()) }
}

/// A line of any length in which nothing waits. What it holds is anything.
pub fn any_line(r: &mut Random, g: Geometry) -> LentLine {
    let lent = r.pick(&[0, 1, 2, 3, 5, 8, 16, 16, 17, 40]);
    let blocks = any_blocks(r, g.block_size as usize);
    let mut line = LentLine { offers: Vec::new(), waiting: 0, blocks };
    line.offers = (0..lent).map(|_| any_offer(r, g, &line)).collect();
    line
}

/// A line to be carried by many writes: any, or one that waits long, of the owners of the slots before the
/// first that is not live, the nearest first. Each of these, placed, leaves the slot that the rounds then
/// come to last.
pub fn carried_line(r: &mut Random, g: Geometry, disk: &[u8]) -> LentLine {
    let mut line = any_line(r, g);
    if r.one_in(2) {
        let (v, head) = Drive::open(disk).expect("a drive that is not refused");
        let free = head + (PLAIN.wait_rounds)(disk).rounds as usize - 1;
        let owner = |i| v.owner(disk, v.start((free + v.m - i) % v.m)) as u32;
        line.offers = (1..v.m.min(MOST_OFFERS)).map(|i| Offer { number: owner(i), place: 0 }).collect();
    }
    line.waiting = r.below(line.offers.len() as u64 + 1) as u32;
    line
}

/// Bends a line: other blocks, another length, another count, also one past the line's length or past 16, all
/// offers anew, or one that has another's number.
pub fn bend(r: &mut Random, g: Geometry, line: &mut LentLine) {
    let lent = line.offers.len() as u64;
    match r.below(8) {
        0 => line.blocks = any_blocks(r, g.block_size as usize),
        1 => *line = LentLine { waiting: line.waiting, ..any_line(r, g) },
        2 => line.waiting = r.pick(&[lent as u32, lent as u32 + 1, 17, 20, u32::MAX]),
        3 => line.waiting = r.below(lent + 1) as u32,
        4 | 5 => line.offers = (0..lent).map(|_| any_offer(r, g, line)).collect(),
        _ if lent == 0 => {}
        6 => line.offers[r.below(lent) as usize] = any_offer(r, g, line),
        _ => {
            let (one, another) = (r.below(lent) as usize, r.below(lent) as usize);
            line.offers[one].number = line.offers[another].number;
        }
    }
}

//! Lines of waiting offers in plain Rust, written from document 02, K3: which offers of a lent line count on
//! a drive, which of them leave, how one enters, and the block that waits under a number.
use crate::drive::{Drive, check};
use crate::engine::{Entered, MOST_OFFERS, Offer};

/// An offer that counts: its number and its block.
pub type Turn<'a> = (usize, &'a [u8]);

/// How many offers are handed over: the first so many of the lent ones, at most 16.
pub fn handed_over(lent: &[Offer], waiting: u32) -> usize {
    lent.len().min(waiting as usize).min(MOST_OFFERS)
}

/// An offer's block, or refusal 10 or 11 on this drive. A block that is not wholly lent is outside.
fn offered<'a>(v: &Drive, blocks: &'a [u8], offer: Offer) -> Result<&'a [u8], u32> {
    let block = blocks.chunks_exact(v.b).nth(offer.place as usize).unwrap_or(&[]);
    v.check_hidden(offer.number as usize, block.len()).map(|()| block)
}

/// The place of a number's first offer, the one that counts.
fn turn_of(line: &[Offer], number: u32) -> Option<usize> {
    line.iter().position(|offer| offer.number == number)
}

/// The offers that count on a drive, in their turn: of each number the first, if 10 and 11 do not meet it.
pub fn turns<'a>(v: &Drive, blocks: &'a [u8], line: &[Offer]) -> Vec<Turn<'a>> {
    let firsts = line.iter().enumerate().filter(|(i, offer)| turn_of(line, offer.number) == Some(*i));
    firsts.filter_map(|(_, offer)| Some((offer.number as usize, offered(v, blocks, *offer).ok()?))).collect()
}

/// Every offer of the numbers placed leaves, the others move up in their order: how many are left. What lies
/// past these keeps its value.
pub fn leave(line: &mut [Offer], placed: &[Turn]) -> usize {
    let mut left = 0;
    for i in 0..line.len() {
        let offer = line[i];
        if placed.iter().all(|(number, _)| *number != offer.number as usize) {
            line[left] = offer;
            left += 1;
        }
    }
    left
}

/// The block that waits under a number: that of its first offer, if it counts on this drive.
pub fn waiting_for<'a>(v: &Drive, blocks: &'a [u8], line: &[Offer], number: u32) -> Option<&'a [u8]> {
    turn_of(line, number).and_then(|i| offered(v, blocks, line[i]).ok())
}

/// Refusals 1 to 3, 10, 11 and 16, or the place that an offer gets in a line with so much room: its number's
/// turn, or the end.
fn place(disk: &[u8], offer: Offer, blocks: &[u8], line: &[Offer], room: usize) -> Result<usize, u32> {
    let (v, _) = Drive::open(disk)?;
    offered(&v, blocks, offer)?;
    let turn = turn_of(line, offer.number);
    check(turn.is_none() && line.len() == room.min(MOST_OFFERS), 16)?;
    Ok(turn.unwrap_or(line.len()))
}

pub fn enter(disk: &[u8], offer: Offer, blocks: &[u8], lent: &mut [Offer], waiting: u32) -> Entered {
    let held = handed_over(lent, waiting);
    match place(disk, offer, blocks, &lent[..held], lent.len()) {
        Ok(at) => {
            lent[at] = offer;
            Entered { answer: 0, waiting: held.max(at + 1) as u32 }
        }
        Err(answer) => Entered { answer, waiting: held as u32 },
    }
}

//! What the mappers in Rust share of a write: refusals 1 to 9, what the hidden half of each round does, and
//! the reports. Each of them makes the rounds in its own way.
use crate::drive::{Drive, Nodes, check};
use crate::engine::{LineWrite, LineWritten, NONE, Needs, Offer, PLACED, WAITING, Write, Written};
use crate::line::{Turn, handed_over, leave, turns};

/// The public half of a write, and the random bytes.
pub struct Public<'a> {
    pub number: usize,
    pub data: &'a [u8],
    pub random: &'a [u8],
}

/// A write that is not refused: its drive and head, what it takes, the number's map entry before it, the
/// offers that wait, the first first, and what has become of them.
pub struct Allowed<'a> {
    pub v: Drive,
    pub head: usize,
    pub needs: Needs,
    pub old: usize,
    waiting: &'a [Turn<'a>],
    placed: usize,
    damaged: bool,
}

/// What the hidden half of a round does with its slot: writes it back, stores a number's path with new data
/// or the slot's own, or fills it with random bytes.
pub enum Half<'a> {
    Back,
    Path(usize, Nodes, Option<&'a [u8]>),
    Fill,
}

impl<'a> Allowed<'a> {
    /// Refusals 1 to 9 of a write, or the write with nothing that waits.
    fn of(disk: &[u8], public: &Public, room: usize) -> Result<Self, u32> {
        let (v, head) = Drive::open(disk)?;
        let (needs, old) = v.plan(disk, head, public.number, public.data.len())?;
        check(public.random.len() < needs.random_blocks as usize * v.b, 8)?;
        check(room < needs.stores as usize, 9)?;
        Ok(Allowed { v, head, needs, old, waiting: &[], placed: 0, damaged: false })
    }

    /// The hidden half at A, or refusal 12 for a damaged walk. A number that owns the slot and is the first
    /// that waits has one walk.
    fn choice(&self, disk: &[u8], a: usize) -> Result<Half<'a>, u32> {
        let owner = self.v.owner(disk, a);
        let mut read = None;
        if owner < self.v.h {
            let (end, nodes) = self.v.walk(disk, owner)?;
            if end == Some(a + self.v.k) {
                return Ok(Half::Path(owner, nodes, None));
            }
            read = Some(nodes);
        }
        let Some(&(number, data)) = self.waiting.first() else { return Ok(Half::Fill) };
        let nodes = match read {
            Some(nodes) if number == owner => nodes,
            _ => self.v.walk(disk, number)?.1,
        };
        Ok(Half::Path(number, nodes, Some(data)))
    }

    /// What the hidden half does at A; with it the first that waits is placed, or damage is met.
    pub fn half(&mut self, disk: &[u8], a: usize) -> Half<'a> {
        let half = self.choice(disk, a).unwrap_or(Half::Back);
        match half {
            Half::Back => self.damaged = true,
            Half::Path(_, _, Some(_)) => {
                self.waiting = &self.waiting[1..];
                self.placed += 1;
            }
            _ => {}
        }
        half
    }

    /// The outcome after the last round.
    fn outcome(&self) -> u32 {
        match self.placed {
            0 if self.damaged => 12,
            0 if self.waiting.is_empty() => NONE,
            0 => WAITING,
            _ => PLACED,
        }
    }
}

/// A write with none or one that waits.
#[inline(always)]
pub fn write(
    disk: &mut [u8],
    call: &Write,
    list: &mut [u32],
    make_rounds: impl FnOnce(&mut [u8], &Public, &mut Allowed, &mut [u32]),
) -> Written {
    let public = Public { number: call.number as usize, data: call.data, random: call.random };
    let mut allowed = match Allowed::of(disk, &public, list.len()) {
        Ok(allowed) => allowed,
        Err(answer) => return Written::refused(answer),
    };
    let offer = call.offer.map(|(number, data)| (number as usize, data));
    let bad_offer = offer.and_then(|(number, data)| allowed.v.check_hidden(number, data.len()).err());
    let good_offer = offer.filter(|_| bad_offer.is_none());
    allowed.waiting = good_offer.as_slice();
    make_rounds(disk, &public, &mut allowed, list);
    let Needs { rounds, stores, .. } = allowed.needs;
    Written { answer: 0, rounds, stores, outcome: bad_offer.unwrap_or(allowed.outcome()) }
}

/// A write with a line of those that wait.
#[inline(always)]
pub fn write_line(
    disk: &mut [u8],
    call: &LineWrite,
    lent: &mut [Offer],
    list: &mut [u32],
    make_rounds: impl FnOnce(&mut [u8], &Public, &mut Allowed, &mut [u32]),
) -> LineWritten {
    let line = {
        let held = handed_over(lent, call.waiting);
        &mut lent[..held]
    };
    let public = Public { number: call.number as usize, data: call.data, random: call.random };
    let mut allowed = match Allowed::of(disk, &public, list.len()) {
        Ok(allowed) => allowed,
        Err(answer) => return LineWritten::refused(answer, line.len() as u32),
    };
    let turns = turns(&allowed.v, call.blocks, line);
    allowed.waiting = &turns;
    make_rounds(disk, &public, &mut allowed, list);
    let left = leave(line, &turns[..allowed.placed]);
    let Needs { rounds, stores, .. } = allowed.needs;
    let [placed, waiting] = [allowed.placed, left].map(|n| n as u32);
    LineWritten { answer: 0, rounds, stores, outcome: allowed.outcome(), placed, waiting }
}

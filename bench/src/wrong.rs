//! Mappers that are wrong with offers that wait, each in one thing, made of plain Rust's: the differential
//! test is to find them.
use crate::drive::{Drive, put_entry};
use crate::engine::{
    Engine, Entered, LineWrite, LineWritten, MOST_OFFERS, NONE, Offer, PLACED, Shown, WAITING, Wait, Write,
    Written,
};
use crate::line::{handed_over, turns};
use crate::plain::PLAIN;

/// To be found beside plain Rust's, by a difference.
pub const WRONG: [Engine; 14] = [
    Engine { name: "good before first", write_line: good_before_first, ..PLAIN },
    Engine { name: "seconds do not leave", write_line: seconds_stay, ..PLAIN },
    LAST_FIRST,
    Engine { name: "damaged passed over", write_line: damaged_passed_over, ..PLAIN },
    Engine { name: "placed counted by offers", write_line: counted_by_offers, ..PLAIN },
    Engine { name: "rest cleared", write_line: rest_cleared, ..PLAIN },
    Engine { name: "12 before the line", hidden_read_line: damage_before_line, ..PLAIN },
    Engine { name: "last shown", hidden_read_line: last_shown, ..PLAIN },
    Engine { name: "old place kept", enter: place_kept, ..PLAIN },
    Engine { name: "16 before 10 and 11", enter: room_first, ..PLAIN },
    MARKS_TOLD,
    Engine { name: "owners told", wait_rounds: owners_told, ..PLAIN },
    Engine { name: "ends of walks told", wait_rounds: ends_told, ..PLAIN },
    Engine { name: "refusals told as no rounds", wait_rounds: refusals_untold, ..PLAIN },
];

const MARKS_TOLD: Engine = Engine { name: "marks told", wait_rounds: marks_told, ..PLAIN };
const LAST_FIRST: Engine = Engine { name: "last first", write_line: last_first, ..PLAIN };

/// To be found alone, by how long offers wait: the words in which they are found, and the mapper. Those that
/// tell no round are held to the bound alone.
pub const LATE: [(&str, Engine); 7] = [
    ("where the most is", Engine { name: "counted from 0", wait_rounds: one_less_told, ..PLAIN }),
    ("none is placed", MARKS_TOLD),
    ("which is placed in", LAST_FIRST),
    ("an offer is placed", Engine { name: "own slot taken", write: own_slot_taken, ..PLAIN }),
    ("rounds, and after", Engine { name: "head left behind", write: head_left_behind, ..PLAIN }),
    ("not by round", Engine { name: "last first, silent", wait_rounds: silent, ..LAST_FIRST }),
    (
        "not by round",
        Engine { name: "passed over, silent", wait_rounds: silent, write: passed_over, ..PLAIN },
    ),
];

/// Whether an offer is none of these numbers'.
fn is_others(offer: &Offer, numbers: &[u32]) -> bool {
    !numbers.contains(&offer.number)
}

/// A write that carries other offers than those handed over; of these it leaves what a rule says, by the
/// numbers placed.
fn carry(
    disk: &mut [u8],
    call: &LineWrite,
    lent: &mut [Offer],
    list: &mut [u32],
    mut others: Vec<Offer>,
    rule: impl Fn(&[Offer], &[u32]) -> Vec<Offer>,
) -> LineWritten {
    let held = handed_over(lent, call.waiting);
    let numbers = others.iter().map(|offer| offer.number).collect::<Vec<_>>();
    let call = LineWrite { waiting: others.len() as u32, ..*call };
    let written = (PLAIN.write_line)(disk, &call, &mut others, list);
    let waits = |number: &u32| others[..written.waiting as usize].iter().any(|o| o.number == *number);
    let placed = numbers.into_iter().filter(|number| !waits(number)).collect::<Vec<_>>();
    let left = rule(&lent[..held], &placed);
    lent[..left.len()].copy_from_slice(&left);
    LineWritten { waiting: left.len() as u32, ..written }
}

/// What is right to leave.
fn without(line: &[Offer], placed: &[u32]) -> Vec<Offer> {
    line.iter().filter(|offer| is_others(offer, placed)).copied().collect()
}

/// A good second offer counts for a bad first one.
fn good_before_first(disk: &mut [u8], call: &LineWrite, lent: &mut [Offer], list: &mut [u32]) -> LineWritten {
    let mut others = lent[..handed_over(lent, call.waiting)].to_vec();
    if let Ok((v, _)) = Drive::open(disk) {
        others.retain(|offer| !turns(&v, call.blocks, &[*offer]).is_empty());
    }
    carry(disk, call, lent, list, others, without)
}

/// Of a number placed, only the first offer leaves.
fn seconds_stay(disk: &mut [u8], call: &LineWrite, lent: &mut [Offer], list: &mut [u32]) -> LineWritten {
    let others = lent[..handed_over(lent, call.waiting)].to_vec();
    carry(disk, call, lent, list, others, |line, placed| {
        let is_second = |i: usize| line[..i].iter().any(|offer| offer.number == line[i].number);
        let stays = |i: &usize| is_others(&line[*i], placed) || is_second(*i);
        (0..line.len()).filter(stays).map(|i| line[i]).collect()
    })
}

/// The line is gone through from its end.
fn last_first(disk: &mut [u8], call: &LineWrite, lent: &mut [Offer], list: &mut [u32]) -> LineWritten {
    let others = lent[..handed_over(lent, call.waiting)].iter().rev().copied().collect();
    carry(disk, call, lent, list, others, without)
}

/// An offer whose walk is damaged lets the next one go first.
fn damaged_passed_over(
    disk: &mut [u8],
    call: &LineWrite,
    lent: &mut [Offer],
    list: &mut [u32],
) -> LineWritten {
    let mut others = lent[..handed_over(lent, call.waiting)].to_vec();
    if let Ok((v, _)) = Drive::open(disk) {
        others.retain(|offer| offer.number as usize >= v.h || v.walk(disk, offer.number as usize).is_ok());
    }
    carry(disk, call, lent, list, others, without)
}

/// As placed are counted all offers that left.
fn counted_by_offers(disk: &mut [u8], call: &LineWrite, lent: &mut [Offer], list: &mut [u32]) -> LineWritten {
    let held = handed_over(lent, call.waiting) as u32;
    let written = (PLAIN.write_line)(disk, call, lent, list);
    LineWritten { placed: held - written.waiting, ..written }
}

/// The places of the offers that left are cleared.
fn rest_cleared(disk: &mut [u8], call: &LineWrite, lent: &mut [Offer], list: &mut [u32]) -> LineWritten {
    let held = handed_over(lent, call.waiting);
    let written = (PLAIN.write_line)(disk, call, lent, list);
    lent[written.waiting as usize..held].fill(Offer::default());
    written
}

/// A damaged walk is told whatever waits.
fn damage_before_line<'a>(
    disk: &'a [u8],
    number: u32,
    blank: &'a [u8],
    blocks: &'a [u8],
    lent: &[Offer],
    waiting: u32,
) -> Shown<'a> {
    (PLAIN.hidden_read)(disk, number, blank)?;
    (PLAIN.hidden_read_line)(disk, number, blank, blocks, lent, waiting)
}

/// Of several offers of a number the last is shown.
fn last_shown<'a>(
    disk: &'a [u8],
    number: u32,
    blank: &'a [u8],
    blocks: &'a [u8],
    lent: &[Offer],
    waiting: u32,
) -> Shown<'a> {
    let held = lent[..handed_over(lent, waiting)].iter().rev().copied().collect::<Vec<_>>();
    (PLAIN.hidden_read_line)(disk, number, blank, blocks, &held, waiting)
}

/// A second offer for a waiting number leaves the first.
fn place_kept(disk: &[u8], offer: Offer, blocks: &[u8], lent: &mut [Offer], waiting: u32) -> Entered {
    let before = lent.to_vec();
    let entered = (PLAIN.enter)(disk, offer, blocks, lent, waiting);
    if entered.waiting as usize == handed_over(lent, waiting) {
        lent.copy_from_slice(&before);
    }
    entered
}

/// A full line is told before a bad offer.
fn room_first(disk: &[u8], offer: Offer, blocks: &[u8], lent: &mut [Offer], waiting: u32) -> Entered {
    let (held, room) = (handed_over(lent, waiting), lent.len().min(MOST_OFFERS));
    let entered = (PLAIN.enter)(disk, offer, blocks, lent, waiting);
    let is_new = lent[..held].iter().all(|other| other.number != offer.number);
    let full = held == room && is_new && matches!(entered.answer, 10 | 11);
    Entered { answer: if full { 16 } else { entered.answer }, ..entered }
}

/// Rounds up to the first slot that is not taken for live, by its start.
fn told_by(disk: &[u8], is_live: impl Fn(&Drive, usize) -> bool) -> Wait {
    let of = |(v, head): (Drive, usize)| Wait::of((0..v.m).map(|i| is_live(&v, v.start((head + i) % v.m))));
    Drive::open(disk).map_or_else(Wait::refused, of)
}

/// A slot is taken for live if it is marked.
fn marks_told(disk: &[u8]) -> Wait {
    told_by(disk, |v, a| v.marked(disk, v.slot_of(a)))
}

/// A slot is taken for live if it has an owner.
fn owners_told(disk: &[u8]) -> Wait {
    told_by(disk, |v, a| v.owner(disk, a) < v.h)
}

/// A slot is taken for live if any number's walk ends there.
fn ends_told(disk: &[u8]) -> Wait {
    told_by(disk, |v, a| (0..v.h).any(|number| v.leads_to(disk, number, a + v.k)))
}

/// A disk that is refused is told as a drive with no slot to place in.
fn refusals_untold(disk: &[u8]) -> Wait {
    Wait { answer: 0, ..(PLAIN.wait_rounds)(disk) }
}

/// Rounds are counted from 0.
fn one_less_told(disk: &[u8]) -> Wait {
    let told = (PLAIN.wait_rounds)(disk);
    Wait { rounds: told.rounds.saturating_sub(1), ..told }
}

/// No round is told.
fn silent(_: &[u8]) -> Wait {
    Wait::refused(1)
}

/// An offer for the number that owns the head's live slot is placed there at once.
fn own_slot_taken(disk: &mut [u8], call: &Write, list: &mut [u32]) -> Written {
    let (Ok((v, head)), Some((number, data))) = (Drive::open(disk), call.offer) else {
        return (PLAIN.write)(disk, call, list);
    };
    let (a, number) = (v.start(head), number as usize);
    let owns = v.owner(disk, a) == number && v.leads_to(disk, number, a + v.k);
    if !owns || v.check_hidden(number, data.len()).is_err() {
        return (PLAIN.write)(disk, call, list);
    }
    let written = (PLAIN.write)(disk, &Write { offer: None, ..*call }, list);
    if written.answer != 0 {
        return written;
    }
    disk[(a + v.k) * v.b..][..v.b].copy_from_slice(data);
    Written { outcome: PLACED, ..written }
}

/// The head stays where an offer waits on.
fn head_left_behind(disk: &mut [u8], call: &Write, list: &mut [u32]) -> Written {
    let head = Drive::open(disk).map(|(_, head)| head);
    let written = (PLAIN.write)(disk, call, list);
    if let (Ok(head), WAITING) = (head, written.outcome) {
        put_entry(disk, 5, head);
    }
    written
}

/// Where the head is odd an offer is passed over.
fn passed_over(disk: &mut [u8], call: &Write, list: &mut [u32]) -> Written {
    if !Drive::open(disk).is_ok_and(|(_, head)| head % 2 == 1) {
        return (PLAIN.write)(disk, call, list);
    }
    let written = (PLAIN.write)(disk, &Write { offer: None, ..*call }, list);
    let waits = written.outcome == NONE && call.offer.is_some();
    Written { outcome: if waits { WAITING } else { written.outcome }, ..written }
}

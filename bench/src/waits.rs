//! How long offers wait (document 02, K12), held of the writes on a drive that passes the tree check: the
//! first offer that counts is placed in just the round told before the write, and one at place w of a line
//! that every write carries is placed by round w x H + 1, which is w x (H + 1) at most. The offer of a write
//! without a line is a line of one.
use crate::calls::{Call, Given};
use crate::drive::Drive;
use crate::engine::{PLACED, Wait};
use crate::line::turns;
use crate::met::Met;

/// That a drive tells a round from 1 to H + 1, and a disk that is refused none.
pub fn holds_told(disk: &[u8], told: Wait) -> Result<(), String> {
    let most = Drive::open(disk).map_or(0, |(v, _)| v.h as u32 + 1);
    let good = if told.answer == 0 { (1..=most).contains(&told.rounds) } else { told.rounds == 0 };
    if good { Ok(()) } else { Err(format!("{told:?}, where the most is {most}")) }
}

/// What stands before a write: the drive and its head, the round told, the numbers of the offers carried and
/// those of them that count, both in their order.
pub struct Before {
    v: Drive,
    head: usize,
    told: Wait,
    numbers: Vec<u32>,
    counting: Vec<u32>,
}

/// What a good write leaves: its rounds, whether it placed any, and the numbers of the offers that wait.
struct After<'a> {
    disk: &'a [u8],
    rounds: u32,
    placed: bool,
    left: Vec<u32>,
}

impl Before {
    /// Of a call that is a write, on a drive that is not refused.
    pub fn of(call: &Call, disk: &[u8], told: Wait) -> Option<Self> {
        let (v, head) = Drive::open(disk).ok()?;
        let (numbers, counting) = match call {
            Call::Write { offer, .. } => {
                let counts =
                    |(number, data): &&(u32, Vec<u8>)| v.check_hidden(*number as usize, data.len()).is_ok();
                let number = |(number, _): &(u32, Vec<u8>)| *number;
                (offer.iter().map(number).collect(), offer.iter().filter(counts).map(number).collect())
            }
            Call::WriteLine { line, .. } => {
                let turns = turns(&v, &line.blocks, line.held());
                let numbers = line.held().iter().map(|offer| offer.number).collect();
                (numbers, turns.iter().map(|(number, _)| *number as u32).collect())
            }
            _ => return None,
        };
        Some(Before { v, head, told, numbers, counting })
    }

    fn after<'a>(&self, given: &Given, disk: &'a [u8]) -> Option<After<'a>> {
        match given {
            Given::Wrote(written, _) => {
                let placed = written.outcome == PLACED;
                let left = if placed { Vec::new() } else { self.numbers.clone() };
                Some(After { disk, rounds: written.rounds, placed, left })
            }
            Given::WroteLine(written, offers, _) => {
                let left = offers[..written.waiting as usize].iter().map(|offer| offer.number).collect();
                Some(After { disk, rounds: written.rounds, placed: written.placed > 0, left })
            }
            _ => None,
        }
    }

    /// The round of the write that came by the slot where a number's block stands, if one did.
    fn round_of(&self, number: u32, after: &After) -> Option<u32> {
        let round = self.v.round_of(after.disk, self.head, number as usize)? as u32;
        (round <= after.rounds).then_some(round)
    }

    /// That the first offer that counts is placed in the round told, and none where the write has fewer.
    fn holds_round(&self, after: &After, met: &mut Met) -> Result<(), String> {
        let Wait { answer: 0, rounds: told } = self.told else { return Ok(()) };
        let due = self.counting.first().filter(|_| told <= after.rounds);
        if after.placed != due.is_some() {
            let how = if after.placed { "an offer is placed" } else { "none is placed" };
            return Err(format!("told round {told}, and {how} in {} rounds", after.rounds));
        }
        let Some(&number) = due else {
            if !self.counting.is_empty() {
                met.count("of waits", "told for later");
            }
            return Ok(());
        };
        let round = self.round_of(number, after);
        if after.left.contains(&number) || round != Some(told) {
            let placed = round.map_or("no round".to_string(), |round| format!("round {round}"));
            return Err(format!("told round {told} for offer {number}, which is placed in {placed}"));
        }
        met.count("of waits", "in the round told");
        Ok(())
    }

    /// That after rounds that could place none so many fewer are told.
    fn holds_rest(&self, after: &After, told: Wait) -> Result<(), String> {
        let (before, past) = (self.told.rounds, after.rounds);
        let tells = self.told.answer == 0 && told.answer == 0;
        if tells && before > past && told.rounds != before - past {
            return Err(format!("told {before} rounds, and after {past} of them {} more", told.rounds));
        }
        Ok(())
    }
}

/// The offers in front of a number's first one.
fn front(numbers: &[u32], number: u32) -> &[u32] {
    let end = numbers.iter().position(|other| *other == number);
    &numbers[..end.unwrap_or(numbers.len())]
}

/// An offer that counted in every write of a row: its place, from 1, where the row began, and the rounds and
/// writes since.
struct Waiting {
    number: u32,
    place: u32,
    rounds: u32,
    writes: u32,
}

impl Waiting {
    /// The round by which it is placed.
    fn last(&self, v: &Drive) -> u32 {
        self.place * v.h as u32 + 1
    }

    /// Goes on by a write; that it is placed by its last round.
    fn goes_on(&mut self, before: &Before, after: &After) -> Result<(), String> {
        let Waiting { number, place, .. } = *self;
        let waits = after.left.contains(&number);
        let round = if waits { Some(after.rounds) } else { before.round_of(number, after) };
        let round = round.ok_or_else(|| format!("offer {number} left, and is not placed by a round"))?;
        (self.rounds, self.writes) = (self.rounds + round, self.writes + 1);
        let last = self.last(&before.v);
        if self.rounds < last || (self.rounds == last && !waits) {
            return Ok(());
        }
        let how = if waits { "waits after" } else { "is placed in" };
        Err(format!("offer {number} at place {place} {how} round {}, not by round {last}", self.rounds))
    }

    /// Counts how an offer that is placed has waited.
    fn count(&self, before: &Before, after: &After, met: &mut Met) {
        let is_last = self.rounds == self.last(&before.v);
        let in_front = front(&before.numbers, self.number);
        let shown = [
            (self.writes > 1, "placed by a later write"),
            (is_last && self.place == 1, "in round H + 1"),
            (is_last && self.place > 1, "in round w x H + 1"),
            (in_front.iter().any(|number| after.left.contains(number)), "before one in front"),
        ];
        shown.into_iter().filter(|(holds, _)| *holds).for_each(|(_, label)| met.count("of waits", label));
    }
}

/// A row of writes on a drive: the numbers of the offers that the last one left, and those that have waited.
#[derive(Default)]
pub struct Row {
    left: Vec<u32>,
    waiting: Vec<Waiting>,
}

impl Row {
    /// Whether an offer has waited and goes on waiting.
    pub fn waits(&self) -> bool {
        !self.waiting.is_empty()
    }

    /// The row ends for an offer that does not count in a write, or no longer stands behind just those that
    /// it stood behind; it begins for one that counts.
    fn begin(&mut self, before: &Before) {
        let Row { left, waiting } = self;
        let in_front = |number| front(&before.numbers, number);
        waiting.retain(|one| {
            before.counting.contains(&one.number) && in_front(one.number) == front(left, one.number)
        });
        for &number in &before.counting {
            if waiting.iter().all(|other| other.number != number) {
                let place = in_front(number).len() as u32 + 1;
                waiting.push(Waiting { number, place, rounds: 0, writes: 0 });
            }
        }
    }

    /// Goes on by a good write, after which so many rounds are told, and holds its waits.
    pub fn go_on(
        &mut self,
        before: &Before,
        given: &Given,
        disk: &[u8],
        told: Wait,
        met: &mut Met,
    ) -> Result<(), String> {
        let Some(after) = before.after(given, disk) else { return Ok(()) };
        self.begin(before);
        self.waiting.iter_mut().try_for_each(|one| one.goes_on(before, &after))?;
        before.holds_round(&after, met)?;
        before.holds_rest(&after, told)?;
        let waits = |one: &Waiting| after.left.contains(&one.number);
        self.waiting.iter().filter(|one| !waits(one)).for_each(|one| one.count(before, &after, met));
        self.waiting.retain(waits);
        self.left = after.left;
        Ok(())
    }
}

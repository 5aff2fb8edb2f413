//! Writes that are cut (document 02, K5), held on several mappers: one bound after another, each recovered.
//! On a drive that may be cut every number shows its old block or its new one after the recovery, by the
//! stores that were made: the number written is new once its map block is stored, a hidden number placed once
//! the root of its round is.
use crate::calls::{Call, Given, LentLine};
use crate::drive::Drive;
use crate::engine::{Cut, Engine, PLACED, Shown};
use crate::held::Held;
use crate::line::{Turn, turns};
use crate::met::Met;
use crate::random::Random;
use crate::recoveries::{may_be_cut, recover_again};
use std::rc::Rc;

/// A write of no more stores is cut after each of them; of a longer one some so many bounds are tried.
const MOST: usize = 40;

/// A write on a drive, and what the whole of it gave and left.
struct Whole<'a> {
    engine: &'a Engine,
    v: Drive,
    head: usize,
    disk: &'a [u8],
    call: &'a Rc<Call>,
    answer: u32,
    rounds: usize,
    stores: &'a [u32],
    placed: Vec<Turn<'a>>,
    left: &'a [u8],
    /// Whether the drive may be cut.
    promises: bool,
}

/// The number that a write is of, its block, and the line that it carries along, if it does.
fn parts(call: &Call) -> (u32, &[u8], Option<&LentLine>) {
    match call {
        Call::Write { number, data, .. } => (*number, data, None),
        Call::WriteLine { number, data, line, .. } => (*number, data, Some(line)),
        _ => unreachable!("only writes are cut"),
    }
}

/// The bounds that are tried: all as far as one store more than there are, or some and the last of these.
fn any_bounds(r: &mut Random, stores: usize) -> Vec<usize> {
    let mut is_tried = |bound| stores <= MOST || bound + 6 > stores || r.below(stores as u64) < MOST as u64;
    (0..=stores + 1).filter(|bound| is_tried(*bound)).collect()
}

/// That a read shows what is due, by its bytes.
fn same(volume: &str, number: u32, due: Shown, shown: Shown) -> Result<(), String> {
    match shown {
        _ if shown == due => Ok(()),
        Ok(_) => Err(format!("{volume} number {number} shows another block than is due")),
        Err(answer) => Err(format!("{volume} number {number} is refused with {answer}")),
    }
}

impl<'a> Whole<'a> {
    fn of(engine: &'a Engine, call: &'a Rc<Call>, disk: &'a [u8], given: &'a Given, left: &'a [u8]) -> Self {
        let (v, head) = Drive::open(disk).expect("a drive that is not refused");
        let (answer, rounds, stores, list, placed) = match (&**call, given) {
            (Call::Write { offer, .. }, Given::Wrote(written, list)) => {
                let placed = offer.iter().filter(|_| written.outcome == PLACED);
                let placed = placed.map(|(number, block)| (*number as usize, &block[..])).collect();
                (written.answer, written.rounds, written.stores, list, placed)
            }
            (Call::WriteLine { line, .. }, Given::WroteLine(written, _, list)) => {
                let mut placed = turns(&v, &line.blocks, line.held());
                placed.truncate(written.placed as usize);
                (written.answer, written.rounds, written.stores, list, placed)
            }
            _ => unreachable!("only writes are cut"),
        };
        let (rounds, stores, promises) = (rounds as usize, &list[..stores as usize], may_be_cut(disk));
        Whole { engine, v, head, disk, call, answer, rounds, stores, placed, left, promises }
    }

    /// Whether so many stores make the number written new.
    fn is_new(&self, bound: usize) -> bool {
        self.answer == 0 && self.rounds * (self.v.k + 3) <= bound
    }

    /// The hidden numbers that so many stores make new.
    fn new_ones(&self, bound: usize) -> Result<Vec<Turn<'a>>, String> {
        let Whole { v, head, left, .. } = self;
        let mut new = Vec::new();
        for turn in &self.placed {
            let round = v.round_of(left, *head, turn.0).ok_or("an offer placed is not found")?;
            if (round - 1) * (v.k + 3) + v.k + 2 <= bound {
                new.push(*turn);
            }
        }
        Ok(new)
    }

    /// What a cut gives and leaves: the first stores of the whole write, none of them at another place than
    /// its own. `less` is the disk that one store less leaves, if it is at hand.
    fn holds_cut(&self, bound: usize, given: &Given, less: Option<&[u8]>, disk: &[u8]) -> Result<(), String> {
        let Given::Cut(cut, list) = given else { unreachable!() };
        let due = Cut::of(self.answer, self.stores.len() as u32, bound);
        if *cut != due {
            return Err(format!("{cut:?}, not {due:?}"));
        }
        let made = &self.stores[..due.stores as usize];
        if list[..made.len()] != *made {
            return Err("its stores are not the first of the whole write".to_string());
        }
        if due.cut == 0 && disk != self.left {
            return Err("it leaves another disk than the whole write".to_string());
        }
        if let (Some(less), Some(address), 1) = (less, made.last(), due.cut) {
            let (start, end) = (*address as usize * self.v.b, (*address as usize + 1) * self.v.b);
            if disk[..start] != less[..start] || disk[end..] != less[end..] {
                return Err(format!("store {bound} changes more than block {address}"));
            }
        }
        Ok(())
    }

    /// What the recovered disk shows.
    fn holds_shown(&self, bound: usize, disk: &[u8]) -> Result<(), String> {
        let Engine { public_read, hidden_read, hidden_read_line, .. } = *self.engine;
        let ((number, data, line), blank) = (parts(self.call), vec![90; self.v.b]);
        for other in 0..self.v.p as u32 {
            let is_new = other == number && self.is_new(bound);
            let due = if is_new { Ok(data) } else { public_read(self.disk, other, &blank) };
            same("public", other, due, public_read(disk, other, &blank))?;
        }
        let new = self.new_ones(bound)?;
        for other in 0..self.v.h as u32 {
            let placed = new.iter().find(|(number, _)| *number == other as usize);
            let due = placed.map_or_else(|| hidden_read(self.disk, other, &blank), |(_, block)| Ok(block));
            same("hidden", other, due, hidden_read(disk, other, &blank))?;
            if let Some(LentLine { offers, waiting, blocks }) = line {
                let [due, shown] = [self.disk, disk]
                    .map(|disk| hidden_read_line(disk, other, &blank, blocks, offers, *waiting));
                same("waiting", other, due, shown)?;
            }
        }
        Ok(())
    }

    /// The last store of a cut, in words.
    fn last_store(&self, bound: usize) -> &'static str {
        let Drive { bitmap, root, d, k, .. } = self.v;
        let made = &self.stores[..bound.min(self.stores.len())];
        let Some(&address) = made.last() else { return "nothing" };
        let bits = made.iter().rev().take_while(|address| (bitmap..root).contains(&(**address as usize)));
        match address as usize {
            _ if bound > made.len() => "more than all",
            0 => "header",
            address if address < bitmap => "map block",
            address if address < root => {
                if bits.count() == 1 {
                    "new bit"
                } else {
                    "old bit"
                }
            }
            address if address == root => "root",
            address => match (address - d) % (k + 1) {
                0 => "block A",
                place if place == k => "hidden data",
                _ => "node",
            },
        }
    }

    /// Counts a cut on a drive that may be cut. The disk is the one before the recovery.
    fn count(&self, bound: usize, disk: &[u8], met: &mut Met) -> Result<(), String> {
        met.count("cut after", self.last_store(bound));
        if self.answer != 0 {
            return Ok(());
        }
        let (number, new) = (parts(self.call).0, self.new_ones(bound)?.len());
        met.count("of cuts", if self.is_new(bound) { "number new" } else { "number old" });
        match self.placed.len() {
            0 => {}
            _ if new == 0 => met.count("of cuts", "offer old"),
            all if new == all => met.count("of cuts", "offer new"),
            _ => met.count("of cuts", "first of a line new"),
        }
        if (self.engine.public_read)(disk, number, &vec![0; self.v.b]) == Err(6) {
            met.count("of cuts", "6 until recovery");
        }
        Ok(())
    }
}

/// One cut, held and recovered: the disk that it leaves, and the recovered one, unless that is refused.
struct Tried {
    bound: usize,
    left: Vec<u8>,
    recovered: Option<Vec<u8>>,
}

/// Cuts a write after so many stores and recovers; `before` is the cut before this one.
fn try_cut(
    r: &mut Random,
    held: &Held,
    whole: &Whole,
    bound: usize,
    before: Option<Tried>,
    met: &mut Met,
) -> Result<Tried, String> {
    let (cut, mut drives) = (Call::Cut(whole.call.clone(), bound), held.again(whole.disk.to_vec()));
    let told = |what: String| format!("{}: {what}", cut.told());
    let given = drives.call(&cut, met)?;
    let left = drives.disks[0].clone();
    let less = before.filter(|less| less.bound + 1 == bound).map(|less| less.left);
    whole.holds_cut(bound, &given, less.as_deref(), &left).map_err(told)?;
    let answer = recover_again(r, &mut drives, met).map_err(told)?;
    if whole.promises {
        answer.map_err(|answer| told(format!("the recovery is refused with {answer}")))?;
        whole.holds_shown(bound, &drives.disks[0]).map_err(told)?;
        whole.count(bound, &left, met).map_err(told)?;
    }
    Ok(Tried { bound, left, recovered: drives.disks.pop().filter(|_| answer.is_ok()) })
}

/// Cuts a write on a drive after one store after another and recovers each, all held; gives one of the
/// recovered drives, unless it is refused.
pub fn hold_cuts(r: &mut Random, held: &Held, call: Call, met: &mut Met) -> Result<Option<Vec<u8>>, String> {
    let (call, disk) = (Rc::new(call), &held.disks[0]);
    let mut written = held.again(disk.clone());
    let given = written.call(&call, met)?;
    let whole = Whole::of(&held.engines[0], &call, disk, &given, &written.disks[0]);
    let bounds = any_bounds(r, whole.stores.len());
    let (chosen, mut before, mut recovered) = (r.pick(&bounds), None, None);
    for bound in bounds {
        let mut tried = try_cut(r, held, &whole, bound, before, met)?;
        if bound == chosen {
            recovered = tried.recovered.take();
        }
        before = Some(tried);
    }
    Ok(recovered)
}

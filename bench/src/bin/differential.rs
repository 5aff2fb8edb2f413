//! `differential [SECONDS [SEED]]`: holds the three mappers against each other, over recoveries of a drive
//! with many slots, document 02's K11 calls and then random small drives until the seconds (20) are up.
//! Answers, shown parts, lists and lines with their tails and disks are to be equal after every call; a drive
//! that passes the tree check is to go on passing it, no offer is to wait longer there than it may (K12), and
//! a write that is cut after any store is to be recovered to old or new blocks (K5); and every refusal, every
//! outcome and what lines, waits, cuts and recoveries can meet is to be met. First it finds mappers that are
//! wrong with these. Ends with status 1 on the first difference, which it prints, where one was not met, or
//! where a wrong mapper is not found. A drive is made from its seed alone: the one that is printed, given as
//! SEED, is the first.
use pddm_bench::any_calls::{any_call, any_line_call, any_line_write, any_offered, any_write, either_write};
use pddm_bench::arguments::Arguments;
use pddm_bench::calls::{Call, Given, LentLine};
use pddm_bench::cuts::hold_cuts;
use pddm_bench::drive::Drive;
use pddm_bench::drives::{KINDS, Kind, damage, drive, geometry, spoil};
use pddm_bench::engine::{Engine, Geometry, fresh};
use pddm_bench::held::Held;
use pddm_bench::inplace::IN_PLACE;
use pddm_bench::lines::{any_blocks, any_line, any_offer, bend, carried_line};
use pddm_bench::met::Met;
use pddm_bench::plain::PLAIN;
use pddm_bench::proved::PROVED;
use pddm_bench::random::Random;
use pddm_bench::recoveries::{bend_free, bend_map, hold_windows, recover_again};
use pddm_bench::tree_damage::{damage_tree, move_node};
use pddm_bench::waits::Row;
use pddm_bench::workload::{CALLS, Caller, GEOMETRY};
use pddm_bench::wrong::{LATE, WRONG};
use pddm_bench::wrong_cuts::{TORN, WRONG_CUTS, WRONG_WINDOWS};
use std::process::ExitCode;
use std::time::{Duration, Instant};

/// The first is the one that the others are held against.
const ENGINES: [Engine; 3] = [PLAIN, PROVED, IN_PLACE];

/// Random drives that are made even when the time is up: enough to meet every refusal and outcome, and to
/// find a wrong mapper.
const LEAST: u64 = 1000;

/// The most writes of a row.
const ROW: u32 = 60;

/// How often the random drives say how far they are.
const PROGRESS: Duration = Duration::from_secs(5);

/// One random drive on several mappers, and the line that is lent with it and handed back between the calls.
struct Stand<'a> {
    r: Random,
    kind: Kind,
    g: Geometry,
    bitmap_blocks: usize,
    held: Held<'a>,
    line: LentLine,
}

impl<'a> Stand<'a> {
    fn new(engines: &'a [Engine], seed: u64) -> Self {
        let mut r = Random::new(seed);
        let kind = KINDS[seed as usize % KINDS.len()];
        let g = geometry(&mut r, kind);
        let held = Held::new(engines, drive(&mut r, &PLAIN, kind, g), kind != Kind::Foreign);
        let line = any_line(&mut r, g);
        let v = Drive::of(g).expect("a geometry within the limits");
        Stand { r, kind, g, bitmap_blocks: v.root - v.bitmap, held, line }
    }

    /// Any call on a disk of another state, held, with the line.
    fn call_on(&mut self, disk: Vec<u8>, met: &mut Met) -> Result<(), String> {
        let call = any_call(&mut self.r, self.g, &disk, &self.line);
        let given = Held::new(self.held.engines, disk, false).call(&call, met)?;
        given.hand_back(&mut self.line);
        Ok(())
    }

    /// Any call on the drive, held, with the line.
    fn call(&mut self, met: &mut Met) -> Result<(), String> {
        let call = any_call(&mut self.r, self.g, &self.held.disks[0], &self.line);
        let given = self.held.call(&call, met)?;
        given.hand_back(&mut self.line);
        Ok(())
    }

    /// A call with the line on a drive of another geometry.
    fn call_elsewhere(&mut self, met: &mut Met) -> Result<(), String> {
        let Stand { r, kind, held, line, .. } = self;
        let g = geometry(r, *kind);
        let disk = drive(r, &PLAIN, *kind, g);
        let call = any_line_call(r, g, &disk, line);
        if !line.held().is_empty() {
            met.count("of lines", "another geometry");
        }
        let given = Held::new(held.engines, disk, *kind != Kind::Foreign).call(&call, met)?;
        given.hand_back(line);
        Ok(())
    }

    /// The tree check on the drive with its tree damaged on purpose; and calls where it still passes.
    fn hold_damage(&mut self, met: &mut Met) -> Result<(), String> {
        let Stand { r, g, held, line, .. } = self;
        let mut disk = held.disks[0].clone();
        let damage = damage_tree(r, &mut disk);
        let mut held = Held::new(held.engines, disk, false);
        if let Given::Checked(answer) = held.call(&Call::CheckTree, met)? {
            met.count(damage, answer.err().unwrap_or(0));
        }
        let calls = if held.passes { 4 } else { 0 };
        for _ in 0..calls {
            let call = any_call(r, *g, &held.disks[0], line);
            held.call(&call, met)?.hand_back(line);
            held.call(&Call::CheckTree, met)?;
        }
        Ok(())
    }

    /// A row of writes that carry one offer along, or a line, until none waits that has waited; now and then
    /// with another entered or replaced between them, or other blocks lent.
    fn carry(&mut self, met: &mut Met) -> Result<(), String> {
        let Stand { r, g, held, line, .. } = self;
        let offer = r.one_in(3).then(|| any_offered(r, *g));
        if offer.is_none() {
            *line = carried_line(r, *g, &held.disks[0]);
        }
        for _ in 0..ROW {
            if r.one_in(8) {
                let call = Call::Enter(any_offer(r, *g, line), line.clone());
                held.call(&call, met)?.hand_back(line);
            }
            if r.one_in(16) {
                line.blocks = any_blocks(r, g.block_size as usize);
            }
            let call = match &offer {
                Some(offer) => any_write(r, *g, &held.disks[0], Some(offer.clone())),
                None => any_line_write(r, *g, &held.disks[0], line),
            };
            let given = held.call(&call, met)?;
            let is_over = given.changes() && !held.row.waits();
            given.hand_back(line);
            if is_over {
                break;
            }
        }
        Ok(())
    }

    /// A write that is cut after one store after another, of three the one with the most stores; now and then
    /// with nodes moved and with what a drive is free to have changed. The drive goes on from one of the cuts,
    /// recovered.
    fn cut(&mut self, met: &mut Met) -> Result<(), String> {
        let Stand { r, g, held, line, .. } = self;
        let mut disk = held.disks[0].clone();
        if r.one_in(2) {
            (0..20).for_each(|_| move_node(r, &mut disk));
            bend_free(r, &mut disk);
        }
        let writes = [(); 3].map(|()| either_write(r, *g, &disk, line));
        let call = writes.into_iter().max_by_key(|write| write.needs(&disk).stores).unwrap();
        if let Some(recovered) = hold_cuts(r, &held.again(disk), call, met)? {
            met.count("of cuts", "gone on from");
            *held = held.again(recovered);
        }
        Ok(())
    }

    /// A recovery of the drive with map entries and bits changed.
    fn recover(&mut self, met: &mut Met) -> Result<(), String> {
        let Stand { r, held, .. } = self;
        let mut disk = held.disks[0].clone();
        bend_map(r, &mut disk);
        recover_again(r, &mut held.again(disk), met).map(|_| ())
    }

    /// A call, now and then with the line bent before it, on a spoilt or damaged drive, or elsewhere; or a
    /// row, a write cut, a recovery.
    fn turn(&mut self, met: &mut Met) -> Result<(), String> {
        let Stand { r, kind, g, held, line, bitmap_blocks } = self;
        if r.one_in(4) {
            bend(r, *g, line);
        }
        if r.one_in(12) {
            let mut disk = held.disks[0].clone();
            spoil(r, *g, &mut disk);
            return self.call_on(disk, met);
        }
        if r.one_in(24) {
            return self.call_elsewhere(met);
        }
        if held.passes && r.one_in(if *kind == Kind::Full { 6 } else { 24 }) {
            return self.carry(met);
        }
        let is_long = *bitmap_blocks > 1 || (PLAIN.needs)(&held.disks[0], 0).rounds > 1;
        if r.one_in(if is_long { 60 } else { 200 }) {
            return self.cut(met);
        }
        if r.one_in(80) {
            return self.recover(met);
        }
        if *kind == Kind::Deep && r.one_in(2) {
            return self.hold_damage(met);
        }
        if *kind == Kind::Damaged && r.one_in(6) {
            let mut disk = held.disks[0].clone();
            damage(r, *g, &mut disk);
            *held = Held::new(held.engines, disk, false);
        }
        self.call(met)
    }
}

/// Calls on one random drive, each held.
fn hold_drive(engines: &[Engine], seed: u64, met: &mut Met) -> Result<(), String> {
    let mut stand = Stand::new(engines, seed);
    for turn in 0..40 + stand.r.below(80) {
        stand.turn(met).map_err(|what| format!("drive seed {seed}, call {turn}, {what}"))?;
    }
    Ok(())
}

/// The first random drive on which mappers are found in these words.
fn find(engines: &[Engine], words: &str) -> Result<u64, String> {
    let found = |seed: &u64| {
        let held = hold_drive(engines, *seed, &mut Met::default());
        held.is_err_and(|what| what.contains(words))
    };
    let name = engines[engines.len() - 1].name;
    (1..=LEAST).find(found).ok_or(format!("nothing of wrong mapper '{name}'"))
}

/// Finds each wrong mapper: beside the right one, or alone.
fn find_wrong() -> Result<(), String> {
    for wrong in WRONG.into_iter().chain(WRONG_CUTS) {
        let seed = find(&[PLAIN, wrong], "")?;
        println!("wrong mapper '{}': found on drive seed {seed}", wrong.name);
    }
    for wrong in WRONG_WINDOWS {
        let found = hold_windows(&[PLAIN, wrong]);
        let what = found.err().ok_or(format!("nothing of wrong mapper '{}'", wrong.name))?;
        println!("wrong mapper '{}': found: {what}", wrong.name);
    }
    for (words, wrong) in LATE.into_iter().chain(TORN) {
        let seed = find(&[wrong], words)?;
        println!("wrong mapper '{}' alone: found on drive seed {seed}: '{words}'", wrong.name);
    }
    Ok(())
}

/// The calls of K11, each held, on one drive for each mapper.
fn hold_workload() -> Result<(), String> {
    let disks = ENGINES.map(|engine| fresh(&engine, GEOMETRY)).to_vec();
    let mut held = Held { engines: &ENGINES, disks, passes: true, row: Row::default() };
    let mut callers = ENGINES.map(|_| Caller::new(GEOMETRY));
    for i in 0..CALLS {
        let parts = ENGINES.iter().zip(&mut callers).zip(&mut held.disks);
        let replies: Vec<_> = parts.map(|((engine, caller), disk)| caller.call(engine, disk, i)).collect();
        if let Some(who) = replies.iter().position(|reply| *reply != replies[0] || !reply.is_good()) {
            return Err(format!("call {i} of K11: {} refused it or replied otherwise", ENGINES[who].name));
        }
        if (i + 1) % 20_000 == 0 {
            let after = |what| format!("after call {i} of K11: {what}");
            held.hold_disks().map_err(after)?;
            for call in [Call::CheckTree, Call::WaitRounds] {
                held.call(&call, &mut Met::default()).map_err(after)?;
            }
            println!("K11: {} of {CALLS} calls, all equal", i + 1);
        }
    }
    Ok(())
}

/// Random drives from a seed on until the time is up, and no fewer than the least.
fn hold_drives(seed: u64, end: Instant) -> Result<Met, String> {
    let (mut met, mut drives, mut next) = (Met::default(), 0, Instant::now() + PROGRESS);
    while drives < LEAST || Instant::now() < end {
        hold_drive(&ENGINES, seed + drives, &mut met)?;
        drives += 1;
        if Instant::now() >= next {
            next += PROGRESS;
            println!("{drives} drives, {} calls, all equal", met.calls);
        }
    }
    println!("{drives} drives (aged, damaged, full, foreign and deep in turn) from seed {seed} on");
    println!("{} calls, {} rounds", met.calls, met.rounds);
    Ok(met)
}

fn main() -> ExitCode {
    let start = Instant::now();
    let mut arguments = Arguments::new("differential [SECONDS [SEED]]");
    let seconds = arguments.number("SECONDS", 20, 1..=86_400);
    let seed = arguments.number("SEED", 1, 0..=1 << 48);
    arguments.end();
    let end = start + Duration::from_secs(seconds);
    match find_wrong()
        .and_then(|()| hold_windows(&ENGINES))
        .and_then(|()| hold_workload())
        .and_then(|()| hold_drives(seed, end))
    {
        Err(what) => println!("differs: {what}"),
        Ok(met) if met.report() => {
            println!("all equal, every refusal and outcome met");
            return ExitCode::SUCCESS;
        }
        Ok(_) => println!("all equal, but not every refusal and outcome met"),
    }
    ExitCode::FAILURE
}

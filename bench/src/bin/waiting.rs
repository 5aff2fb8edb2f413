//! `waiting`: how long an offer waits, in rounds and public writes, on drives of 2,048 slots with all hidden
//! numbers placed, public numbers at random: one offer on drives with several H, and lines of 16. Beside what
//! is measured stands the bound of document 02, K12: H + 1, and w × (H + 1) at place w of a line. Prints the
//! tables of docs/MANUAL.md. Ends with status 1 and a line that says so where an offer waits longer, or is
//! placed in another round than the one told before its first write.
use pddm_bench::arguments::Arguments;
use pddm_bench::drive::{Drive, entry};
use pddm_bench::engine::{Geometry, LineWrite, MOST_OFFERS, Offer, PLACED, Wait, Write, ample, fresh};
use pddm_bench::plot::grouped;
use pddm_bench::proved::PROVED;
use pddm_bench::random::Random;
use std::process::ExitCode;

const SLOTS: u32 = 2048;
const PUBLICS: u32 = 1000;

/// H of the drives of the first table, and how many offers each gets.
const ALONE: [u32; 7] = [1, 256, 512, 1024, 1536, 1843, 2047];
const OFFERS: usize = 2000;

/// H of the drives of the second, how many lines each gets, and the places that are shown.
const WITH_LINES: [u32; 2] = [1536, 2047];
const LINES: usize = 200;
const PLACES: [usize; 5] = [1, 2, 4, 8, MOST_OFFERS];

/// How long an offer waited: the round in which it was placed, and the rounds and writes up to the end of the
/// write that placed it.
#[derive(Clone, Copy, Default)]
struct Waited {
    round: u32,
    rounds: u32,
    writes: u32,
}

/// A drive with the buffers that its writes lend. An offer at place i of the line, from 0, takes the i-th of
/// the lent blocks.
struct Owner {
    v: Drive,
    disk: Vec<u8>,
    blocks: Vec<u8>,
    random: Vec<u8>,
    list: Vec<u32>,
}

impl Owner {
    /// All public numbers are written and all hidden numbers placed, both in order.
    fn new(hidden: u32) -> Result<Self, String> {
        let g = Geometry { block_size: 64, height: 3, publics: PUBLICS, hidden, slots: SLOTS };
        let v = Drive::of(g).expect("a geometry within the limits");
        let (random, list) = ample(g);
        let (disk, blocks) = (fresh(&PROVED, g), vec![1; MOST_OFFERS * v.b]);
        let mut owner = Owner { v, disk, blocks, random: vec![165; random], list: vec![0; list] };
        for n in 0..hidden.max(PUBLICS) {
            owner.carry_told(&[n % hidden], || n % PUBLICS)?;
        }
        (PROVED.check_tree)(&owner.disk)
            .map_err(|answer| format!("H {hidden}: the check answers {answer}"))?;
        Ok(owner)
    }

    /// A write that carries offers along, a single one without a line: its rounds. Those placed leave.
    fn write(&mut self, number: u32, alone: bool, offers: &mut Vec<Offer>) -> Result<u32, String> {
        let Owner { v, disk, blocks, random, list } = self;
        let data = &blocks[..v.b];
        let (answer, rounds, waiting) = if alone {
            let call = Write { number, data, offer: Some((offers[0].number, data)), random };
            let written = (PROVED.write)(disk, &call, list);
            (written.answer, written.rounds, usize::from(written.outcome != PLACED))
        } else {
            let call = LineWrite { number, data, blocks, waiting: offers.len() as u32, random };
            let written = (PROVED.write_line)(disk, &call, offers, list);
            (written.answer, written.rounds, written.waiting as usize)
        };
        offers.truncate(waiting);
        if answer == 0 { Ok(rounds) } else { Err(format!("H {}: a write is refused by {answer}", v.h)) }
    }

    /// In which of so many rounds from a head on a number was placed, by the slot in which its block stands.
    fn round_of(&self, number: u32, head: usize, rounds: u32) -> Result<u32, String> {
        let (end, _) =
            self.v.walk(&self.disk, number as usize).map_err(|answer| format!("a walk gets {answer}"))?;
        let round = end.map(|end| ((self.v.slot_of(end) + self.v.m - head) % self.v.m + 1) as u32);
        let round = round.filter(|round| *round <= rounds);
        round.ok_or(format!("H {}: offer {number} is said to be placed, and no round did it", self.v.h))
    }

    /// That an offer is placed by the round promised; this one placed it, or is the first that still can.
    fn holds(&self, offer: Offer, round: u32) -> Result<(), String> {
        let (Offer { number, place }, h) = (offer, self.v.h as u32);
        let most = (place + 1) * (h + 1);
        if round <= most {
            return Ok(());
        }
        Err(format!("H {h}: offer {number} at place {} waits longer than to round {most}", place + 1))
    }

    /// Offers hidden numbers with write after write until all are placed: how long each waited.
    fn carry(&mut self, numbers: &[u32], mut public: impl FnMut() -> u32) -> Result<Vec<Waited>, String> {
        let offer = |(place, &number): (usize, &u32)| Offer { number, place: place as u32 };
        let mut offers = numbers.iter().enumerate().map(offer).collect::<Vec<_>>();
        let (mut all, mut now) = (vec![Waited::default(); numbers.len()], Waited::default());
        while !offers.is_empty() {
            let (head, before, past) = (entry(&self.disk, 5), offers.clone(), now.rounds);
            let rounds = self.write(public(), numbers.len() == 1, &mut offers)?;
            (now.rounds, now.writes) = (past + rounds, now.writes + 1);
            for offer in before {
                let placed = !offers.contains(&offer);
                let round = if placed { self.round_of(offer.number, head, rounds)? } else { rounds + 1 };
                self.holds(offer, past + round)?;
                if placed {
                    all[offer.place as usize] = Waited { round: past + round, ..now };
                }
            }
        }
        Ok(all)
    }

    /// The same; the first is to be placed in the round told before.
    fn carry_told(&mut self, numbers: &[u32], public: impl FnMut() -> u32) -> Result<Vec<Waited>, String> {
        let Wait { answer, rounds: told } = (PROVED.wait_rounds)(&self.disk);
        let all = self.carry(numbers, public)?;
        let (round, h) = (all[0].round, self.v.h);
        if (answer, told) == (0, round) {
            return Ok(all);
        }
        let told = format!("round {told} was told, with answer {answer}");
        Err(format!("H {h}: offer {} is placed in round {round}, {told}", numbers[0]))
    }
}

/// So many different hidden numbers.
fn any_numbers<const N: usize>(r: &mut Random, hidden: u32) -> [u32; N] {
    let mut numbers = [hidden; N];
    for i in 0..N {
        while numbers[i] == hidden || numbers[..i].contains(&numbers[i]) {
            numbers[i] = r.below(u64::from(hidden)) as u32;
        }
    }
    numbers
}

/// How long the offers of many lines of so many waited, public numbers at random.
fn measured<const N: usize>(hidden: u32, lines: usize) -> Result<Vec<Vec<Waited>>, String> {
    let (mut owner, mut r) = (Owner::new(hidden)?, Random::new(7));
    let line = |_| {
        let numbers: [u32; N] = any_numbers(&mut r, hidden);
        owner.carry_told(&numbers, || r.below(u64::from(PUBLICS)) as u32)
    };
    (0..lines).map(line).collect()
}

/// The mean, with two places where it is small, and the most of the numbers of some waits.
fn told<'a>(waits: impl Iterator<Item = &'a Waited>, number: impl Fn(&Waited) -> u32) -> String {
    let all = waits.map(number).collect::<Vec<_>>();
    let mean = f64::from(all.iter().sum::<u32>()) / all.len() as f64;
    let mean = if mean < 100.0 { format!("{mean:.2}") } else { grouped(mean.round() as u32) };
    format!("{mean} | {}", grouped(*all.iter().max().unwrap()))
}

fn print_alone() -> Result<(), String> {
    println!("one offer at a time, {} on each drive:\n", grouped(OFFERS as u32));
    println!(
        "| H, all placed | Of all slots | Its round, mean | Most | Bound, H + 1 | Rounds, mean | Most | \
         Writes, mean | Most |"
    );
    println!("|---|---|---|---|---|---|---|---|---|");
    for hidden in ALONE {
        let waits = measured::<1>(hidden, OFFERS)?;
        let told = |number: fn(&Waited) -> u32| told(waits.iter().flatten(), number);
        println!(
            "| {} | {} % | {} | {} | {} | {} |",
            grouped(hidden),
            100 * hidden / SLOTS,
            told(|waited| waited.round),
            grouped(hidden + 1),
            told(|waited| waited.rounds),
            told(|waited| waited.writes)
        );
    }
    Ok(())
}

fn print_lines() -> Result<(), String> {
    println!("\nlines of {MOST_OFFERS}, {LINES} on each drive:\n");
    println!(
        "| H, all placed | Place w | Its round, mean | Most | Bound, w × (H + 1) |\n|---|---|---|---|---|"
    );
    for hidden in WITH_LINES {
        let waits = measured::<MOST_OFFERS>(hidden, LINES)?;
        for place in PLACES {
            let told = told(waits.iter().map(|line| &line[place - 1]), |waited| waited.round);
            let most = grouped(place as u32 * (hidden + 1));
            println!("| {} | {place} | {told} | {most} |", grouped(hidden));
        }
    }
    Ok(())
}

fn main() -> ExitCode {
    Arguments::new("waiting").end();
    println!("{} slots, P {}, public numbers at random", grouped(SLOTS), grouped(PUBLICS));
    match print_alone().and_then(|()| print_lines()) {
        Ok(()) => {
            println!("\nnone waits longer, each first one is placed in the round told");
            ExitCode::SUCCESS
        }
        Err(what) => {
            println!("\nnot as promised: {what}");
            ExitCode::FAILURE
        }
    }
}

//! `spread [SLOTS [PERCENT [SEED]]]`: the longest write of a volume that is filled in order and then written
//! in several patterns, without and with the spreading rewrite (docs/MANUAL.md): after every so many writes
//! one placed number, taken in golden-ratio steps, is written again. P is so many hundredths of M. The rule
//! asks for nothing hidden: it counts public writes. Then the same for callers who are unplugged now and
//! again and begin their counts anew, at 0 or by the head.
use pddm_bench::arguments::Arguments;
use pddm_bench::random::Random;
use pddm_bench::volume::{Pattern, Volume};

const LAPS: u64 = 40;

/// 2^32 divided by the golden ratio.
const STEP: u32 = 2_654_435_769;

/// How a caller spreads.
#[derive(Clone, Copy)]
struct Rule {
    /// Writes from one rewrite to the next; 0 is without.
    every: u32,
    /// Whether from the first write on, or only after the filling.
    at_once: bool,
    /// Writes from one unplugging to the next; 0 is never.
    session: u32,
    /// Whether a session's counts begin by the head, or at 0.
    by_head: bool,
}

const WITHOUT: Rule = Rule { every: 0, at_once: true, session: 0, by_head: false };

/// The drive that is measured, and the seed of the numbers written.
#[derive(Clone, Copy)]
struct Drive {
    publics: u32,
    slots: u32,
    seed: u64,
}

struct Caller {
    volume: Volume,
    rule: Rule,
    /// Writes asked for, and those since a rewrite.
    asked: u32,
    since: u32,
    phase: u32,
    rounds: u64,
    stores: u64,
    most: u32,
}

impl Caller {
    fn new(volume: Volume, rule: Rule) -> Self {
        Caller { volume, rule, asked: 0, since: 0, phase: 0, rounds: 0, stores: 0, most: 0 }
    }

    fn plug_in(&mut self) {
        let head = if self.rule.by_head { self.volume.head() } else { 0 };
        (self.since, self.phase) = (head % self.rule.every, head.wrapping_mul(STEP));
    }

    /// The number that is to be written again after this write, if one is.
    fn next(&mut self) -> Option<u32> {
        self.since += 1;
        if self.since != self.rule.every {
            return None;
        }
        self.since = 0;
        self.phase = self.phase.wrapping_add(STEP);
        Some((u64::from(self.phase) * u64::from(self.volume.publics) >> 32) as u32)
    }

    fn count(&mut self, rounds: u32, stores: u32) {
        self.rounds += u64::from(rounds);
        self.stores += u64::from(stores);
        self.most = self.most.max(rounds);
    }

    fn write(&mut self, number: u32) {
        if self.rule.session != 0 && self.asked % self.rule.session == 0 {
            self.plug_in();
        }
        self.asked += 1;
        let written = self.volume.write(number);
        self.count(written.rounds, written.stores);
        if let Some(again) = self.next().and_then(|number| self.volume.rewrite(number)) {
            self.count(again.rounds, again.stores);
        }
    }
}

/// The most rounds of a call, and the stores for each write asked after the filling.
fn measured(drive: Drive, pattern: Pattern, rule: Rule) -> (u32, f64) {
    let Drive { publics, slots, seed } = drive;
    let (volume, mut r) = (Volume::new(publics, slots), Random::new(seed));
    let mut caller = Caller::new(volume, if rule.at_once { rule } else { WITHOUT });
    (0..publics).for_each(|number| caller.write(number));
    (caller.rule, caller.since) = (rule, 0);
    (caller.asked, caller.rounds, caller.stores) = (0, 0, 0);
    while caller.rounds < LAPS * u64::from(slots) {
        caller.write(pattern.number(&mut r, publics));
    }
    (caller.most, caller.stores as f64 / f64::from(caller.asked))
}

/// The longest call by rule and pattern, and how many more stores than without there are for a write asked.
fn rules(drive: Drive) {
    let sixteenth = Rule { every: 16, ..WITHOUT };
    let named = [
        ("none", WITHOUT),
        ("every 8th", Rule { every: 8, ..WITHOUT }),
        ("every 16th", sixteenth),
        ("every 32nd", Rule { every: 32, ..WITHOUT }),
        ("every 16th, begun after the filling", Rule { at_once: false, ..sixteenth }),
        ("16th by the head", Rule { session: 1, by_head: true, ..sixteenth }),
    ];
    let patterns = [Pattern::Hot, Pattern::Tenth, Pattern::Uniform];
    let without = patterns.map(|pattern| measured(drive, pattern, WITHOUT).1);
    println!(
        "| rewrite | one number | more stores | 90 % on a tenth | more stores | at random | more stores |"
    );
    println!("|---|---|---|---|---|---|---|");
    for (name, rule) in named {
        let told = patterns.iter().zip(without).map(|(&pattern, without)| {
            let (most, stores) = measured(drive, pattern, rule);
            format!(" {most} | {:.1} % |", 100.0 * (stores / without - 1.0))
        });
        println!("| {name} |{}", told.collect::<String>());
    }
}

/// The longest call of callers who are unplugged after so many writes, all at one number.
fn sessions(drive: Drive) {
    println!("\n| writes a session | every 16th, counts begun at 0 | begun by the head |\n|---|---|---|");
    for session in [1, 5, 17, 40, 160, 1600] {
        let [zero, head] = [false, true].map(|by_head| {
            measured(drive, Pattern::Hot, Rule { every: 16, at_once: true, session, by_head }).0
        });
        println!("| {session} | {zero} | {head} |");
    }
}

fn main() {
    let mut arguments = Arguments::new("spread [SLOTS [PERCENT [SEED]]]");
    let slots = arguments.number("SLOTS", 32_768, 1000..=10_000_000) as u32;
    let percent = arguments.number("PERCENT", 50, 10..=95) as u32;
    let seed = arguments.number("SEED", 7, 0..=u64::MAX);
    arguments.end();
    let publics = (u64::from(slots) * u64::from(percent) / 100) as u32;
    println!("{slots} slots, P {publics}, {LAPS} laps of the head; rounds of the longest call\n");
    let drive = Drive { publics, slots, seed };
    rules(drive);
    sessions(drive);
}

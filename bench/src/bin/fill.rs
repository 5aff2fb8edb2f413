//! `fill [SLOTS]`: how many rounds a write takes as the public volume fills the drive: every number placed in
//! order, then 40 writes a slot to settle and 20 that are measured. Prints the table of docs/MANUAL.md.
use pddm_bench::arguments::Arguments;
use pddm_bench::random::Random;
use pddm_bench::volume::{Pattern, Volume};

/// P in hundredths of M.
const FILLS: [u32; 8] = [25, 50, 60, 70, 75, 80, 90, 95];

/// Writes for each slot: those that settle the drive, those that are measured.
const SETTLED: u32 = 40;
const MEASURED: u32 = 20;

/// The rounds of each write measured, least first.
fn measured(publics: u32, slots: u32, pattern: Pattern) -> Vec<u32> {
    let (mut volume, mut r) = (Volume::new(publics, slots), Random::new(7));
    let settled = (0..SETTLED * slots).map(|_| pattern.number(&mut r, publics));
    for number in (0..publics).chain(settled) {
        volume.write(number);
    }
    let rounds = |_| volume.write(pattern.number(&mut r, publics)).rounds;
    let mut all: Vec<u32> = (0..MEASURED * slots).map(rounds).collect();
    all.sort_unstable();
    all
}

/// Mean, the rounds that 99.9 % of the writes do with, and the most.
fn told(all: &[u32]) -> String {
    let mean = f64::from(all.iter().sum::<u32>()) / all.len() as f64;
    format!("{mean:.2} | {} | {}", all[all.len() * 999 / 1000], all[all.len() - 1])
}

fn main() {
    let mut arguments = Arguments::new("fill [SLOTS]");
    let slots = arguments.number("SLOTS", 16_384, 1000..=10_000_000) as u32;
    arguments.end();
    println!("{slots} slots, {MEASURED} writes a slot; rounds of a write\n");
    println!("| P/M | at random: mean | 99.9 % | most | 90 % on a tenth: mean | 99.9 % | most |");
    println!("|---|---|---|---|---|---|---|");
    for fill in FILLS {
        let publics = (u64::from(slots) * u64::from(fill) / 100) as u32;
        let [uniform, tenth] =
            [Pattern::Uniform, Pattern::Tenth].map(|pattern| told(&measured(publics, slots, pattern)));
        println!("| 0.{fill} | {uniform} | {tenth} |");
    }
}

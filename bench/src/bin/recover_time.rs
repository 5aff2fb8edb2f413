//! `recover_time [TURNS]`: how long a recovery takes on a drive with every public number placed, proved and
//! in plain Rust: medians of so many turns. Takes some 450 MB of memory.
use pddm_bench::arguments::Arguments;
use pddm_bench::drives::fill;
use pddm_bench::engine::{Engine, Geometry, fresh};
use pddm_bench::inplace::IN_PLACE;
use pddm_bench::plain::PLAIN;
use pddm_bench::proved::PROVED;
use pddm_bench::recoveries::WINDOW;
use std::time::Instant;

const RECOVERIES: [Engine; 2] = [PROVED, PLAIN];

/// P and M: public volumes of 256 MiB and of some 4 GB in blocks of 4,096 bytes. Those here are small.
const SIZES: [(u32, u32); 2] = [(65_536, 131_072), (1_000_000, 2_097_152)];

/// Numbers are placed in scattered order; this is prime to both counts of them.
const STEP: u64 = 618_033;

/// A drive with all its public numbers placed.
fn full(publics: u32, slots: u32) -> Vec<u8> {
    let g = Geometry { block_size: 32, height: 2, publics, hidden: 1, slots };
    let mut disk = fresh(&IN_PLACE, g);
    let scattered = (0..u64::from(publics)).map(|i| (i * STEP % u64::from(publics)) as u32);
    fill(&IN_PLACE, g, &mut disk, scattered.map(|number| (number, None)));
    disk
}

/// Seconds of a recovery by each mapper, the median of so many turns; turns go round. The drive needs none,
/// and is left as it is.
fn medians(disk: &mut [u8], turns: u64) -> [f64; 2] {
    let before = disk.to_vec();
    let mut seconds = RECOVERIES.map(|_| Vec::new());
    for _ in 0..turns {
        for (engine, seconds) in RECOVERIES.iter().zip(&mut seconds) {
            let start = Instant::now();
            assert_eq!((engine.recover)(disk), Ok(()), "{}", engine.name);
            seconds.push(start.elapsed().as_secs_f64());
        }
    }
    assert!(disk == before, "a recovery changed a drive that needs none");
    seconds.map(|mut all| {
        all.sort_by(f64::total_cmp);
        all[all.len() / 2]
    })
}

fn main() {
    let mut arguments = Arguments::new("recover_time [TURNS]");
    let turns = arguments.number("TURNS", 15, 1..=100_000);
    arguments.end();
    println!("B 32, k 2, every public number placed, median of {turns} turns\n");
    println!("| P | M | windows | ms: proved | plain | ratio |\n|---|---|---|---|---|---|");
    for (publics, slots) in SIZES {
        let [proved, plain] = medians(&mut full(publics, slots), turns);
        let windows = slots.div_ceil(WINDOW);
        print!("| {publics} | {slots} | {windows} | {:.2} | {:.2} |", 1e3 * proved, 1e3 * plain);
        println!(" {:.1} |", proved / plain);
    }
}

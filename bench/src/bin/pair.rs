//! `pair [PLACES]`: this tree's archive beside one of before a change, in one process and in turn.
//!
//! How long a write takes also depends on where its buffers lie in memory. So both archives work on the same
//! drive with the same buffers, turn by turn, and a run goes through many places of drive, buffers and stack.
//! Of each kind of call it prints the median over the places of this archive's time in that of before, and how
//! the places lie around it.
//! Built with the other archive where the variable PDDM_BEFORE names its folder (`build.rs`).
#[cfg(before)]
mod places {
    use pddm_bench::arguments::Arguments;
    use pddm_bench::before::BEFORE;
    use pddm_bench::engine::{Engine, fresh};
    use pddm_bench::proved::PROVED;
    use pddm_bench::random::Random;
    use pddm_bench::workload::{CALLS, Caller, GEOMETRY};
    use std::hint::black_box;
    use std::ops::Range;
    use std::time::Instant;

    /// Calls of one kind, for numbers in a range.
    type Run = fn(&mut Caller, &Engine, &mut [u8], Range<u32>);

    fn mixed(caller: &mut Caller, engine: &Engine, disk: &mut [u8], calls: Range<u32>) {
        for i in calls {
            assert!(black_box(caller.call(engine, disk, i)).is_good());
        }
    }

    fn with_none(caller: &mut Caller, engine: &Engine, disk: &mut [u8], numbers: Range<u32>) {
        for n in numbers {
            assert_eq!(black_box(caller.write_alone(engine, disk, n)).answer, 0);
        }
    }

    fn with_offer(caller: &mut Caller, engine: &Engine, disk: &mut [u8], numbers: Range<u32>) {
        for n in numbers {
            assert_eq!(black_box(caller.write(engine, disk, n)).answer, 0);
        }
    }

    fn with_line<const WAITING: u32>(
        caller: &mut Caller,
        engine: &Engine,
        disk: &mut [u8],
        numbers: Range<u32>,
    ) {
        for n in numbers {
            assert_eq!(black_box(caller.write_line(engine, disk, n, WAITING)).answer, 0);
        }
    }

    /// What is measured: calls of one archive in calls of the same or of the other one.
    const PAIRS: [(&str, Engine, Run, Engine, Run); 7] = [
        ("before / itself, write with an offer", BEFORE, with_offer, BEFORE, with_offer),
        ("K11's calls, this / before", PROVED, mixed, BEFORE, mixed),
        ("write with nothing offered, this / before", PROVED, with_none, BEFORE, with_none),
        ("write with an offer, this / before", PROVED, with_offer, BEFORE, with_offer),
        ("write with an empty line / before's with nothing", PROVED, with_line::<0>, BEFORE, with_none),
        ("write with one waiting / with an offer", PROVED, with_line::<1>, PROVED, with_offer),
        ("write with sixteen waiting / with an offer", PROVED, with_line::<16>, PROVED, with_offer),
    ];

    /// The part so many quarters into sorted numbers.
    fn quarter(sorted: &[f64], quarters: usize) -> f64 {
        sorted[quarters * (sorted.len() - 1) / 4]
    }

    fn sorted(mut all: Vec<f64>) -> Vec<f64> {
        all.sort_by(f64::total_cmp);
        all
    }

    /// The median time of the first in that of the second over turns on one drive, taken in the order first,
    /// second, second, first, or the other way round.
    fn ratio(caller: &mut Caller, disk: &mut [u8], pair: [(Engine, Run); 2], begins: usize) -> f64 {
        const TURNS: u32 = 48;
        const EACH: u32 = 100;
        let mut seconds = [Vec::new(), Vec::new()];
        for turn in 0..TURNS {
            let who = (turn as usize + turn as usize / 2 + begins) % 2;
            let (engine, run) = pair[who];
            let start = Instant::now();
            run(caller, &engine, disk, turn * EACH..(turn + 1) * EACH);
            seconds[who].push(start.elapsed().as_secs_f64());
        }
        let [this, that] = seconds.map(|times| quarter(&sorted(times), 2));
        this / that
    }

    /// Runs with the stack so many frames deeper.
    #[inline(never)]
    fn deeper(frames: u64, run: &mut dyn FnMut() -> f64) -> f64 {
        let frame = black_box([0u8; 64]);
        let result = if frames == 0 { run() } else { deeper(frames - 1, run) };
        black_box(frame);
        result
    }

    /// The ratios of a pair at so many places, sorted.
    fn ratios(places: u64, aged: &[u8], memory: &mut [u8], pair: [(Engine, Run); 2]) -> Vec<f64> {
        const PAGE: u64 = 4096;
        let mut random = Random::new(1);
        let at_places = (0..places).map(|place| {
            let start = 16 * random.below(PAGE / 16) as usize;
            let _between = vec![0u8; 16 * random.below(PAGE / 16) as usize + 16];
            let mut caller = Caller::new(GEOMETRY);
            let disk = &mut memory[start..start + aged.len()];
            disk.copy_from_slice(aged);
            let begins = (place % 2) as usize;
            deeper(random.below(64), &mut || ratio(&mut caller, disk, pair, begins))
        });
        sorted(at_places.collect())
    }

    pub fn main() {
        let mut arguments = Arguments::new("pair [PLACES]");
        let places = arguments.number("PLACES", 128, 1..=100_000);
        arguments.end();
        let mut aged = fresh(&PROVED, GEOMETRY);
        mixed(&mut Caller::new(GEOMETRY), &PROVED, &mut aged, 0..CALLS);
        let mut memory = vec![0u8; aged.len() + 4096];
        println!("| {places} places | median | middle half | least to most |\n|---|---|---|---|");
        for (name, this, run, that, other) in PAIRS {
            let ratios = ratios(places, &aged, &mut memory, [(this, run), (that, other)]);
            let [least, lower, median, upper, most] = [0, 1, 2, 3, 4].map(|part| quarter(&ratios, part));
            println!("| {name} | {median:.3} | {lower:.3} to {upper:.3} | {least:.3} to {most:.3} |");
        }
    }
}

#[cfg(before)]
fn main() {
    places::main();
}

#[cfg(not(before))]
fn main() -> std::process::ExitCode {
    eprintln!("built without an archive of before: set PDDM_BEFORE to its folder, and build again");
    std::process::ExitCode::FAILURE
}

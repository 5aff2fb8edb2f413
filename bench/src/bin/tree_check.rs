//! `tree_check [KIB WHO]`: how long the tree check takes, proved and in plain Rust, as the drive grows from
//! 64 to 65,536 slots with every hidden number placed; and the smallest stack with which it runs. Takes some
//! 150 MB of memory. With KIB and WHO (0 proved, 1 plain) it makes one check on a stack of so many KiB and
//! ends with status 0 if the drive passes: so a stack is tried in a process of its own, which may break.
use pddm_bench::arguments::Arguments;
use pddm_bench::drive::Drive;
use pddm_bench::drives::fill;
use pddm_bench::engine::{Engine, Geometry, fresh};
use pddm_bench::inplace::IN_PLACE;
use pddm_bench::plain::PLAIN;
use pddm_bench::proved::PROVED;
use std::hint::black_box;
use std::process::{Command, ExitCode, Stdio};
use std::time::Instant;

const CHECKS: [Engine; 2] = [PROVED, PLAIN];

/// Turns of each check; the best one counts.
const TURNS: u32 = 20;

/// One hidden number less than there are slots.
fn geometry(block_size: u32, height: u32, slots: u32) -> Geometry {
    Geometry { block_size, height, publics: 1, hidden: slots - 1, slots }
}

/// A drive with all its hidden numbers placed, in scattered order. The slots are a power of two.
fn full(g: Geometry) -> Vec<u8> {
    let mut disk = fresh(&IN_PLACE, g);
    let scattered = (0..g.slots).map(|i| i.wrapping_mul(0x9E37_79B1) % g.slots);
    let placed = scattered.filter(|&number| number < g.hidden);
    fill(&IN_PLACE, g, &mut disk, placed.map(|number| (0, Some(number))));
    let blank = vec![0; g.block_size as usize];
    let found = |number| (PLAIN.hidden_read)(&disk, number, &blank).is_ok_and(|block| block != blank);
    assert!((0..g.hidden).all(found), "every hidden number placed");
    disk
}

/// How many entries the check meets on such a drive, those that are 0 too.
fn entries_met(v: &Drive) -> usize {
    let inner: usize = (2..v.k).map(|level| v.h.div_ceil(v.width(level))).sum();
    v.f * (1 + inner) + (v.f - 1) * v.h.div_ceil(v.width(1))
}

/// Seconds of one check in each one's best turn; a turn has so many checks, and turns go round.
fn best_seconds(disk: &[u8], checks: u32) -> [f64; 2] {
    let mut best = [f64::INFINITY; 2];
    for _ in 0..TURNS {
        for (engine, best) in CHECKS.iter().zip(&mut best) {
            let start = Instant::now();
            for _ in 0..checks {
                assert_eq!((engine.check_tree)(black_box(disk)), Ok(()), "{}", engine.name);
            }
            *best = best.min(start.elapsed().as_secs_f64() / f64::from(checks));
        }
    }
    best
}

fn growth() {
    println!("B 512, k 3, every hidden number placed, best of {TURNS} turns\n");
    println!(
        "| slots | hidden blocks | entries met | ms: proved | plain | M entries/s: proved | plain | ratio |"
    );
    println!("|---|---|---|---|---|---|---|---|");
    for slots in (6..=16).map(|power| 1 << power) {
        let g = geometry(512, 3, slots);
        let met = entries_met(&Drive::of(g).expect("a geometry within the limits"));
        let [proved, plain] = best_seconds(&full(g), (1 << 14) / slots + 1);
        let rate = |seconds: f64| met as f64 / seconds / 1e6;
        println!(
            "| {slots} | {} | {met} | {:.4} | {:.4} | {:.1} | {:.1} | {:.2} |",
            g.hidden,
            1e3 * proved,
            1e3 * plain,
            rate(proved),
            rate(plain),
            proved / plain
        );
    }
}

/// The widest nodes and the highest tree: F 1,024, k 4.
fn widest() -> Geometry {
    geometry(4096, 4, 2048)
}

/// One check on a thread with so many KiB of stack.
fn passes_on(kib: u64, engine: Engine) -> bool {
    let disk = full(widest());
    let run = move || (engine.check_tree)(&disk).is_ok();
    std::thread::Builder::new().stack_size(kib as usize * 1024).spawn(run).unwrap().join().unwrap()
}

/// Whether one check of these passes on a stack, in a process of its own.
fn survives(kib: u64, who: usize) -> bool {
    let program = std::env::current_exe().expect("the name of this program");
    let arguments = [kib.to_string(), who.to_string()];
    let status = Command::new(program).args(arguments).stderr(Stdio::null()).status();
    status.expect("this program started").success()
}

fn stacks() {
    println!("\n| B 4,096, k 4 | smallest stack of 16, 32, .., 1,024 KiB |\n|---|---|");
    for (who, engine) in CHECKS.iter().enumerate() {
        let smallest = (4..=10).map(|power| 1 << power).find(|&kib| survives(kib, who));
        let told = smallest.map_or("none of them".to_string(), |kib| kib.to_string());
        println!("| {} | {told} |", engine.name);
    }
}

fn main() -> ExitCode {
    let mut arguments = Arguments::new("tree_check [KIB WHO]");
    let kib = arguments.number("KIB", 0, 1..=1 << 20);
    let who = arguments.number("WHO", 0, 0..=1);
    arguments.end();
    if kib != 0 {
        return if passes_on(kib, CHECKS[who as usize]) { ExitCode::SUCCESS } else { ExitCode::FAILURE };
    }
    growth();
    stacks();
    ExitCode::SUCCESS
}

//! `benchmark [PASSES [PLOT]]`: how long the calls of the three mappers take, in one process and in turn.
//!
//! A pass is document 02's K11: 100,000 calls from a fresh drive. Then nanoseconds for each kind of call,
//! what a line costs, the stack of one write, and how a write's cost grows with M, k and B, which is also
//! drawn to the file PLOT as SVG. Ratios are paired: of turns that follow each other. Ends with status 1 if
//! the proved mapper takes more than K11 allows.
use pddm_bench::ENGINES;
use pddm_bench::arguments::Arguments;
use pddm_bench::drives::capacity;
use pddm_bench::engine::{Engine, Geometry, fresh};
use pddm_bench::painted::stack_of;
use pddm_bench::plot::{Panel, svg};
use pddm_bench::workload::{CALLS, Caller, GEOMETRY};
use std::hint::black_box;
use std::process::ExitCode;
use std::time::Instant;

/// What K11 allows: proved against plain.
const BOUND: f64 = 2.0;

/// Turns of each mapper, short ones, so that some are not disturbed.
const TURNS: u32 = 100;

/// A mapper with a drive of its own.
struct Stand {
    engine: Engine,
    disk: Vec<u8>,
    caller: Caller,
}

fn stands(g: Geometry) -> [Stand; 3] {
    ENGINES.map(|engine| Stand { engine, disk: fresh(&engine, g), caller: Caller::new(g) })
}

impl Stand {
    fn mixed(&mut self, calls: std::ops::Range<u32>) {
        for i in calls {
            assert!(black_box(self.caller.call(&self.engine, &mut self.disk, i)).is_good());
        }
    }

    fn public_reads(&mut self, numbers: std::ops::Range<u32>) {
        for n in numbers {
            black_box(self.caller.public_read(&self.engine, &self.disk, n)).unwrap();
        }
    }

    fn hidden_reads(&mut self, numbers: std::ops::Range<u32>) {
        for n in numbers {
            black_box(self.caller.hidden_read(&self.engine, &self.disk, n)).unwrap();
        }
    }

    fn writes_alone(&mut self, numbers: std::ops::Range<u32>) {
        for n in numbers {
            assert_eq!(black_box(self.caller.write_alone(&self.engine, &mut self.disk, n)).answer, 0);
        }
    }

    fn line_writes(&mut self, numbers: std::ops::Range<u32>, waiting: u32) {
        for n in numbers {
            let written = black_box(self.caller.write_line(&self.engine, &mut self.disk, n, waiting));
            assert_eq!(written.answer, 0);
        }
    }

    fn writes(&mut self, numbers: std::ops::Range<u32>) {
        for n in numbers {
            assert_eq!(black_box(self.caller.write(&self.engine, &mut self.disk, n)).answer, 0);
        }
    }
}

/// Seconds of each mapper's turns.
#[derive(Default)]
struct Times([Vec<f64>; 3]);

impl Times {
    /// One turn of each mapper; who begins goes round.
    fn turn(&mut self, stands: &mut [Stand; 3], mut run: impl FnMut(&mut Stand)) {
        let first = self.0[0].len();
        for i in 0..3 {
            let who = (first + i) % 3;
            let start = Instant::now();
            run(&mut stands[who]);
            self.0[who].push(start.elapsed().as_secs_f64());
        }
    }

    fn median(&self, who: usize) -> f64 {
        median(self.0[who].clone())
    }

    fn best(&self, who: usize) -> f64 {
        self.0[who].iter().copied().fold(f64::INFINITY, f64::min)
    }

    /// Nanoseconds of one call in each mapper's best turn of so many calls.
    fn best_ns(&self, calls: u32) -> [f64; 3] {
        [0, 1, 2].map(|who| self.best(who) * 1e9 / f64::from(calls))
    }

    /// The median over the turns of the proved mapper's time in another's.
    fn ratio(&self, who: usize) -> f64 {
        paired(&self.0[0], &self.0[who])
    }
}

/// The median of the ratios of two times each.
fn paired(these: &[f64], those: &[f64]) -> f64 {
    median(these.iter().zip(those).map(|(this, that)| this / that).collect())
}

fn median(mut all: Vec<f64>) -> f64 {
    all.sort_by(f64::total_cmp);
    all[all.len() / 2]
}

/// K11's calls. Returns the median ratio of proved to plain.
fn workload(passes: u64) -> f64 {
    const PARTS: u32 = 20;
    let (mut times, mut whole) = (Times::default(), Times::default());
    for pass in 1..=passes {
        let mut stands = stands(GEOMETRY);
        for part in 0..PARTS {
            let calls = part * (CALLS / PARTS)..(part + 1) * (CALLS / PARTS);
            times.turn(&mut stands, |stand| stand.mixed(calls.clone()));
        }
        let sums = times.0.each_ref().map(|turns| turns.iter().rev().take(PARTS as usize).sum::<f64>());
        whole.0.iter_mut().zip(sums).for_each(|(passes, sum)| passes.push(sum));
        let [proved, plain, in_place] = sums.map(|seconds| 1e3 * seconds);
        println!(
            "pass {pass} of {passes}: proved {proved:.1} ms, plain {plain:.1} ms, in place {in_place:.1} ms"
        );
    }
    println!("\n| K11: {CALLS} calls | median ms | best ms | proved / this, paired median | of best |");
    println!("|---|---|---|---|---|");
    for (who, engine) in ENGINES.iter().enumerate() {
        let (median, best) = (1e3 * whole.median(who), 1e3 * whole.best(who));
        let (paired, of_best) = (times.ratio(who), whole.best(0) / whole.best(who));
        println!("| {} | {median:.1} | {best:.1} | {paired:.3} | {of_best:.3} |", engine.name);
    }
    times.ratio(1)
}

/// Makes calls of one kind, for numbers in a range.
type Run = fn(&mut Stand, std::ops::Range<u32>);

/// The kinds of calls, in pairs that take turns: a write with a line beside the one without.
const KINDS: [[(&str, Run); 2]; 3] = [
    [("public read", Stand::public_reads), ("hidden read", Stand::hidden_reads)],
    [
        ("write with none", Stand::writes_alone),
        ("with an empty line", |s, numbers| s.line_writes(numbers, 0)),
    ],
    [("with an offer", Stand::writes), ("with sixteen waiting", |s, numbers| s.line_writes(numbers, 16))],
];

/// The times of a pair of kinds, each on drives of its own that K11's calls left, made anew some times: how
/// fast a drive is also depends on where it lies in memory.
fn pair(runs: [Run; 2], calls: u32) -> [Times; 2] {
    const DRIVES: u32 = 5;
    let mut times = runs.map(|_| Times::default());
    for _ in 0..DRIVES {
        let mut both = runs.map(|_| stands(GEOMETRY));
        both.iter_mut().flatten().for_each(|stand| stand.mixed(0..CALLS));
        for turn in 0..TURNS / DRIVES {
            for ((run, stands), times) in runs.iter().zip(&mut both).zip(&mut times) {
                times.turn(stands, |stand| run(stand, turn * calls..(turn + 1) * calls));
            }
        }
    }
    times
}

/// Nanoseconds of each kind of call in its best turn, and what a line costs.
fn kinds() {
    const EACH: u32 = 500;
    let times = KINDS.map(|kinds| pair(kinds.map(|(_, run)| run), EACH));
    let names = KINDS.as_flattened().iter().map(|(name, _)| *name).collect::<Vec<_>>();
    println!("\n| ns a call, best turn | {} |\n|---|---|---|---|---|---|---|", names.join(" | "));
    for (who, engine) in ENGINES.iter().enumerate() {
        let each = times.as_flattened().iter().map(|times| format!("{:.0}", times.best_ns(EACH)[who]));
        println!("| {} | {} |", engine.name, each.collect::<Vec<_>>().join(" | "));
    }
    println!("\n| paired median | empty line / none | sixteen waiting / an offer |\n|---|---|---|");
    for (who, engine) in ENGINES.iter().enumerate() {
        let [_, empty, sixteen] = times.each_ref().map(|[one, other]| paired(&other.0[who], &one.0[who]));
        println!("| {} | {empty:.3} | {sixteen:.3} |", engine.name);
    }
}

/// The stack of one write on an aged drive.
fn stack_depth(engine: Engine, g: Geometry) -> usize {
    let mut stand = Stand { engine, disk: fresh(&engine, g), caller: Caller::new(g) };
    stand.writes(0..2 * g.slots);
    stack_of(|| stand.writes(0..1))
}

fn stacks() {
    println!("\n| stack of one write, bytes | k 3 | k 4 |\n|---|---|---|");
    for engine in ENGINES {
        let [three, four] = [3, 4].map(|height| {
            let g = Geometry { height, publics: 20, hidden: 20, slots: 32, ..GEOMETRY };
            stack_depth(engine, g)
        });
        println!("| {} | {three} | {four} |", engine.name);
    }
}

/// Nanoseconds of a write with an offer in its best turn, on an aged drive, P and H half of M or what the
/// tree holds.
fn write_cost(slots: u32, height: u32, block_size: u32) -> [f64; 3] {
    const EACH: u32 = 500;
    let hidden = capacity(block_size, height).min(u64::from(slots / 2)) as u32;
    let mut stands = stands(Geometry { block_size, height, publics: slots / 2, hidden, slots });
    stands.iter_mut().for_each(|stand| stand.writes(0..slots));
    let mut times = Times::default();
    for turn in 0..TURNS {
        let start = slots + turn * EACH;
        times.turn(&mut stands, |stand| stand.writes(start..start + EACH));
    }
    times.best_ns(EACH)
}

/// The cost over one number of the geometry, as rows of the table and a panel.
fn growth(title: &str, label: &'static str, ticks: &[u32], shape: impl Fn(u32) -> (u32, u32, u32)) -> Panel {
    let mut lines = vec![Vec::new(); 3];
    for &tick in ticks {
        let (slots, height, block_size) = shape(tick);
        let cost = write_cost(slots, height, block_size);
        lines.iter_mut().zip(cost).for_each(|(line, ns)| line.push(ns));
        let [proved, plain, in_place] = cost;
        println!("| {slots} | {height} | {block_size} | {proved:.0} | {plain:.0} | {in_place:.0} |");
    }
    Panel { title: title.to_string(), label, ticks: ticks.to_vec(), lines }
}

fn growths() -> [Panel; 3] {
    println!(
        "\n| slots M | k | B | ns a write, best turn: proved | plain | in place |\n|---|---|---|---|---|---|"
    );
    let slots: Vec<u32> = (9..=16).map(|power| 1 << power).collect();
    let sizes: Vec<u32> = (5..=12).map(|power| 1 << power).collect();
    [
        growth("over M (k 3, B 512)", "slots M", &slots, |slots| (slots, 3, 512)),
        growth("over k (2,048 slots, B 4,096)", "tree levels k", &[2, 3, 4], |height| (2048, height, 4096)),
        growth("over B (2,048 slots, k 3)", "bytes a block B", &sizes, |size| (2048, 3, size)),
    ]
}

fn main() -> ExitCode {
    let mut arguments = Arguments::new("benchmark [PASSES [PLOT]]");
    let passes = arguments.number("PASSES", 5, 1..=1000);
    let plot = arguments.writable("PLOT");
    arguments.end();
    let ratio = workload(passes);
    kinds();
    stacks();
    let panels = growths();
    if let Some(file) = plot {
        let title = format!("One write with an offer, best of {TURNS} turns (P and H half of M)");
        let drawn = svg(&title, "nanoseconds a write", &ENGINES.map(|engine| engine.name), &panels);
        std::fs::write(&file, drawn).expect("the plot written");
        println!("\ndrawn to {file}");
    }
    println!("\nproved / plain {ratio:.3}, at most {BOUND} allowed");
    if ratio <= BOUND { ExitCode::SUCCESS } else { ExitCode::FAILURE }
}

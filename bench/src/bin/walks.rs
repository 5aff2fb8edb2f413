//! `walks`: how many walks a write makes for its slots' owners and for the numbers carried along (document
//! 02, K7: a round one for one number), counted on each mapper as it is compiled. Prints what is expected and
//! what was counted; ends with status 1 where they differ. Takes some 70 MB of memory.
//!
//! Blocks are pages, and the pages from the root to the last slot that the numbers are in are watched
//! (`watched`). Each walk passes a node of level 2, the root where k is 2, by its number's entry: the reads
//! that begin there are the walks. A copy of the node in moves of 8 bytes or more begins no read there, as
//! the entries stand 4 bytes past a multiple of 8; one byte by byte also reads the byte before the entry, and
//! that is taken off. What is read only below that node is not counted.
use pddm_bench::ENGINES;
use pddm_bench::arguments::Arguments;
use pddm_bench::carried::{Carried, Lent};
use pddm_bench::drive::Drive;
use pddm_bench::engine::{Engine, Geometry, Offer, PLACED, ample};
use pddm_bench::states::{
    LIVE, NOBODYS, NOBODYS_THEN_STALE, NOBODYS_TWICE, OTHER_DAMAGED, OWNER_DAMAGED, OWNER_UNMAPPED, STALE,
    State,
};
use pddm_bench::watched::{Access, PAGE, paged, watched};
use std::process::ExitCode;

/// The numbers, in leaves 1 and 3: one owns slot 0, if anyone does.
const OWNER: u32 = 1023;
const OTHER: u32 = 3 * 1023;

/// The slots that they are in: no state has one behind these.
const SLOTS: usize = 4;

/// Walks for owner and other.
type Walks = [i32; 2];

/// Walks due of a write of one round that offers nothing, the owner and the other, by what it meets at
/// slot 0.
const DUE: [(State, [Walks; 3]); 6] = [
    (NOBODYS, [[0, 0], [1, 0], [0, 1]]),
    (LIVE, [[1, 0], [1, 0], [1, 0]]),
    (STALE, [[1, 0], [1, 0], [1, 1]]),
    (OWNER_UNMAPPED, [[1, 0], [1, 0], [1, 1]]),
    (OWNER_DAMAGED, [[1, 0], [1, 0], [1, 0]]),
    (OTHER_DAMAGED, [[1, 0], [1, 0], [1, 1]]),
];

/// Of a write with a line: its rounds, the numbers, the walks due and how many are placed. In two rounds the
/// second can place the second number, by one walk more, also where it owns that slot.
const DUE_WITH_LINES: [(State, u32, &[u32], Walks, u32); 8] = [
    (STALE, 1, &[], [1, 0], 0),
    (NOBODYS, 1, &[OTHER, OWNER], [0, 1], 1),
    (STALE, 1, &[OWNER, OTHER], [1, 0], 1),
    (OTHER_DAMAGED, 1, &[OTHER, OWNER], [1, 1], 0),
    (NOBODYS_TWICE, 2, &[OTHER, OWNER], [1, 1], 2),
    (NOBODYS_THEN_STALE, 2, &[OTHER, OWNER], [1, 1], 2),
    (OWNER_UNMAPPED, 2, &[OTHER, OWNER], [2, 2], 2),
    (STALE, 2, &[OTHER, OWNER], [2, 1], 1),
];

fn geometry(height: u32) -> Geometry {
    Geometry { block_size: PAGE as u32, height, publics: 2, hidden: OTHER + 1, slots: OTHER + 2 }
}

/// The walks in some work on a drive in a state, which takes so many rounds.
fn walks(engine: &Engine, g: Geometry, state: &State, rounds: u32, work: impl FnOnce(&mut [u8])) -> Walks {
    let v = Drive::of(g).expect("a geometry within the limits");
    let mut memory = vec![0; v.t * v.b + PAGE];
    let disk = paged(&mut memory, v.t * v.b);
    state.make(engine, g, [OWNER, OTHER], rounds - 1, 1, disk);
    let is_passed = |address: usize| if v.k == 2 { address == v.root } else { v.is_well_formed(2, address) };
    let mut reads = [0; PAGE];
    let note = |_: &mut [u8], at: usize| reads[at % PAGE] += i32::from(is_passed(at / PAGE));
    watched(disk, v.root * PAGE..v.start(SLOTS) * PAGE, Access::Read, note, work);
    [OWNER, OTHER].map(|number| 4 * v.branch(number as usize, 1)).map(|at| reads[at] - reads[at - 1])
}

fn hidden_read(engine: &Engine, g: Geometry) -> Walks {
    let blank = [0; PAGE];
    walks(engine, g, &LIVE, 1, |disk| assert_ne!((engine.hidden_read)(disk, OWNER, &blank), Ok(&blank[..])))
}

/// A read of the owner through a line in which the other waits.
fn hidden_read_line(engine: &Engine, g: Geometry) -> Walks {
    let (blank, blocks, line) = ([0; PAGE], [1; PAGE], [Offer { number: OTHER, place: 0 }]);
    walks(engine, g, &LIVE, 1, |disk| {
        let shown = (engine.hidden_read_line)(disk, OWNER, &blank, &blocks, &line, 1);
        assert_ne!(shown, Ok(&blank[..]))
    })
}

/// A write of so many rounds, its outcome and how many it places.
struct Case<'a> {
    state: &'a State,
    rounds: u32,
    carried: Carried,
    outcome: u32,
    placed: u32,
}

impl Case<'_> {
    fn name(&self, height: u32) -> String {
        format!("{height} | {} | {} | {}", self.state.name, self.rounds, self.carried.told())
    }

    fn walks(&self, engine: &Engine, g: Geometry) -> Walks {
        let (lent, mut list) = (Lent::new(g), vec![0; ample(g).1]);
        walks(engine, g, self.state, self.rounds, |disk| {
            let written = lent.write(engine, disk, self.carried, &mut list);
            assert_eq!((written.answer, written.rounds), (0, self.rounds));
            assert_eq!((written.outcome, written.placed), (self.outcome, self.placed));
        })
    }
}

/// The writes with walks due: without a line and with one.
fn cases() -> impl Iterator<Item = (Case<'static>, Walks)> {
    let without = DUE.iter().flat_map(|(state, dues)| {
        let carried = [Carried::Nothing, Carried::One(OWNER), Carried::One(OTHER)];
        carried.into_iter().zip(dues).zip(state.outcomes).map(move |((carried, &due), outcome)| {
            (Case { state, rounds: 1, carried, outcome, placed: u32::from(outcome == PLACED) }, due)
        })
    });
    let with = DUE_WITH_LINES.iter().map(|(state, rounds, numbers, due, placed)| {
        let outcome = match numbers {
            [] => state.outcomes[0],
            [OWNER, ..] => state.outcomes[1],
            _ => state.outcomes[2],
        };
        let carried = Carried::Line(numbers);
        (Case { state, rounds: *rounds, carried, outcome, placed: *placed }, *due)
    });
    without.chain(with)
}

/// Prints a line of the table: whether each mapper's walks are those due.
fn line(name: &str, due: Walks, counted: impl Fn(&Engine) -> Walks) -> bool {
    let counted = ENGINES.map(|engine| counted(&engine));
    let told = [due].into_iter().chain(counted).map(|[owner, other]| format!(" {owner}, {other} |"));
    println!("| {name} |{}", told.collect::<String>());
    counted.iter().all(|&walks| walks == due)
}

fn main() -> ExitCode {
    Arguments::new("walks").end();
    println!("walks for {OWNER}, slot 0's owner, and for {OTHER}\n");
    println!(
        "| k | slot | rounds | carried | expected | {} |",
        ENGINES.map(|engine| engine.name).join(" | ")
    );
    println!("|---|---|---|---|---|---|---|---|");
    let mut good = true;
    for height in 2..=4 {
        let g = geometry(height);
        let read = |through: &str| format!("{height} | hidden read of {OWNER}{through} | - | -");
        good &= line(&read(""), [1, 0], |engine| hidden_read(engine, g));
        good &= line(&read(" through a line"), [1, 0], |engine| hidden_read_line(engine, g));
        for (case, due) in cases() {
            good &= line(&case.name(height), due, |engine| case.walks(engine, g));
        }
    }
    println!("\n{}", if good { "all as expected" } else { "not all as expected" });
    if good { ExitCode::SUCCESS } else { ExitCode::FAILURE }
}

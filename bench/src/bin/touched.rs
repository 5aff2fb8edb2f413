//! `touched`: whether a write makes every store that it lists, on the proved mapper as it is compiled and
//! linked. Document 01 wants it ("every store passes through it, unchanged blocks too"), but no contract can
//! say it: a compiler may leave out a copy that changes no byte, and bytes and list stay as proved. Prints,
//! for rounds of every kind, the blocks listed and those touched, "all" where they are the same; ends with
//! status 1 where they are not, or a block is touched in part.
//!
//! Every instruction that stores to the disk is watched (`watched`): the blocks touched are those of the
//! stores in order, stores to one block after another taken together. Each write runs twice from one drive,
//! the second time with all bits of a block turned over just as its first byte is to be stored. A byte that
//! is stored is the same in both when the block is left; one that is left out is not. So a block is whole
//! where all its bytes are the same. The disk begins with a page, then at half a page, where a block of 4,096
//! bytes lies on two.
//!
//! A write of one round meets slot 0 in its last round, one of two rounds in the one before. It carries
//! nothing along, one offer, an empty line, or a line of two, which two rounds may both place. With blocks of
//! 32 bytes the drive has two bitmap blocks, one with the number's old bit and one with its new one.
use pddm_bench::arguments::Arguments;
use pddm_bench::carried::{Carried, Lent};
use pddm_bench::drive::Drive;
use pddm_bench::engine::{Engine, Geometry, LineWritten, ample};
use pddm_bench::inplace::IN_PLACE;
use pddm_bench::proved::PROVED;
use pddm_bench::states::{
    LIVE, NOBODYS, NOBODYS_TWICE, OTHER_DAMAGED, OWNER_DAMAGED, OWNER_UNMAPPED, STALE, State,
};
use pddm_bench::watched::{Access, PAGE, paged, watched};
use std::process::ExitCode;

/// The hidden numbers: one owns slot 0, if anyone does.
const OWNER: u32 = 1;
const OTHER: u32 = 2;

/// What a hidden half does: random bytes in its slot, the offer in it, its own path stored again, or all
/// written back for damage.
const FILLED: &str = "filled";
const PLACED: &str = "placed";
const KEPT: &str = "kept";
const BACK: &str = "written back";

/// What the hidden half at slot 0 is to do where nothing is carried along, and where the other is the first;
/// and how many of a line of two are placed in two rounds.
const DUE: [(State, [&str; 2], u32); 7] = [
    (NOBODYS, [FILLED, PLACED], 1),
    (NOBODYS_TWICE, [FILLED, PLACED], 2),
    (LIVE, [KEPT, KEPT], 0),
    (STALE, [FILLED, PLACED], 1),
    (OWNER_UNMAPPED, [FILLED, PLACED], 2),
    (OWNER_DAMAGED, [BACK, BACK], 0),
    (OTHER_DAMAGED, [FILLED, BACK], 0),
];

/// The blocks touched in order, and each as it was left.
struct Touched {
    width: usize,
    room: usize,
    addresses: Vec<u32>,
    left: Vec<u8>,
}

impl Touched {
    fn new(width: usize, room: usize) -> Self {
        let (addresses, left) = (Vec::with_capacity(room), Vec::with_capacity(room * width));
        Touched { width, room, addresses, left }
    }

    /// Before a byte of the disk is stored. What does not fit is not noted.
    fn note(&mut self, disk: &mut [u8], place: usize, turned: bool) {
        let address = (place / self.width) as u32;
        if self.addresses.last() == Some(&address) || self.addresses.len() == self.room {
            return;
        }
        self.leave(disk);
        self.addresses.push(address);
        if turned {
            disk[address as usize * self.width..][..self.width].iter_mut().for_each(|byte| *byte = !*byte);
        }
    }

    fn leave(&mut self, disk: &[u8]) {
        if let Some(&address) = self.addresses.last() {
            self.left.extend_from_slice(&disk[address as usize * self.width..][..self.width]);
        }
    }

    /// The addresses; beside one of a block that was not stored whole, how much of it was.
    fn told(&self, turned: &Touched) -> String {
        assert_eq!(self.addresses, turned.addresses, "the same stores in both");
        let blocks = self.left.chunks(self.width).zip(turned.left.chunks(self.width));
        let told = self.addresses.iter().zip(blocks).map(|(address, (block, other))| {
            let stored = block.iter().zip(other).filter(|(byte, same)| byte == same).count();
            if stored == self.width { address.to_string() } else { format!("{address} ({stored} bytes)") }
        });
        told.collect::<Vec<_>>().join(" ")
    }
}

/// A drive, and what its next write lends and carries along.
struct Stand<'a> {
    engine: &'a Engine,
    g: Geometry,
    drive: &'a [u8],
    lent: Lent,
    carried: Carried,
}

/// What a write reports and lists, the disk after it, and the blocks touched.
struct Run {
    written: LineWritten,
    list: Vec<u32>,
    disk: Vec<u8>,
    touched: Touched,
}

impl Stand<'_> {
    /// The write on a copy of the drive that begins so many bytes into a page.
    fn run(&self, offset: usize, turned: bool) -> Run {
        let (bytes, (_, room)) = (self.drive.len(), ample(self.g));
        let pages = (offset + bytes).next_multiple_of(PAGE);
        let (mut memory, mut list) = (vec![0; pages + PAGE], vec![0; room]);
        let memory = paged(&mut memory, pages);
        memory[offset..][..bytes].copy_from_slice(self.drive);
        let mut touched = Touched::new(self.g.block_size as usize, 2 * room);
        let note = |memory: &mut [u8], place: usize| {
            touched.note(&mut memory[offset..][..bytes], place - offset, turned);
        };
        let written = watched(memory, 0..pages, Access::Write, note, |memory| {
            self.lent.write(self.engine, &mut memory[offset..][..bytes], self.carried, &mut list)
        });
        let disk = memory[offset..][..bytes].to_vec();
        touched.leave(&disk);
        list.truncate(written.stores as usize);
        Run { written, list, disk, touched }
    }

    /// What the hidden half did at slot 0, by the data block there and the outcome.
    fn half(&self, run: &Run) -> &'static str {
        let v = Drive::of(self.g).expect("a geometry within the limits");
        let [before, after] = [self.drive, &run.disk].map(|disk| v.block(disk, v.start(0) + v.k));
        match () {
            _ if after == self.lent.filled() => FILLED,
            _ if after == self.lent.first() => PLACED,
            _ if after != before => "neither",
            _ if run.written.outcome == 12 => BACK,
            _ => KEPT,
        }
    }
}

/// A write that meets slot 0 in a state: its rounds, what it carries along, and what is to become of it.
struct Case<'a> {
    state: &'a State,
    rounds: u32,
    carried: Carried,
    outcome: u32,
    half: &'a str,
    placed: u32,
}

impl Case<'_> {
    /// Prints a line of the table: whether the write touches what it lists. That its round at slot 0 is of
    /// this kind is taken from what it reports and leaves.
    fn holds(&self, engine: &Engine, g: Geometry) -> bool {
        let v = Drive::of(g).expect("a geometry within the limits");
        let mut drive = vec![0; v.t * v.b];
        self.state.make(engine, g, [OWNER, OTHER], self.rounds - 1, 0, &mut drive);
        let stand = Stand { engine, g, drive: &drive, lent: Lent::new(g), carried: self.carried };
        let mut listed = String::new();
        let touched = [0, PAGE / 2].map(|offset| {
            let run = stand.run(offset, false);
            let LineWritten { answer, rounds, outcome, placed, .. } = run.written;
            assert_eq!((answer, rounds, outcome), (0, self.rounds, self.outcome));
            assert_eq!((stand.half(&run), placed), (self.half, self.placed));
            listed = run.list.iter().map(u32::to_string).collect::<Vec<_>>().join(" ");
            let told = run.touched.told(&stand.run(offset, true).touched);
            if told == listed { "all".to_string() } else { told }
        });
        let (last, carried) = (if self.rounds == 1 { "yes" } else { "no" }, self.carried.told());
        print!("| {} | {} | {} | {} | {last} | {carried} |", engine.name, v.b, v.k, self.state.name);
        println!(" {} | {} | {listed} | {} |", self.half, self.placed, touched.join(" | "));
        touched.iter().all(|touched| touched == "all")
    }
}

/// The writes that meet slot 0 in each state.
fn cases() -> impl Iterator<Item = Case<'static>> {
    DUE.iter().flat_map(|(state, halves, both)| {
        let ([none, _, other], first) = (state.outcomes, u32::from(halves[1] == PLACED));
        let all = [
            (Carried::Nothing, none, halves[0], [0, 0]),
            (Carried::One(OTHER), other, halves[1], [first, first]),
            (Carried::Line(&[]), none, halves[0], [0, 0]),
            (Carried::Line(&[OTHER, OWNER]), other, halves[1], [first, *both]),
        ];
        all.into_iter().flat_map(move |(carried, outcome, half, placed)| {
            [1, 2].map(|rounds| {
                let placed = placed[rounds as usize - 1];
                Case { state, rounds, carried, outcome, half, placed }
            })
        })
    })
}

fn geometry(block_size: u32, height: u32) -> Geometry {
    let slots = if block_size == 32 { 90 } else { 10 };
    Geometry { block_size, height, publics: 2, hidden: 4, slots }
}

fn main() -> ExitCode {
    Arguments::new("touched").end();
    print!("| mapper | B | k | slot | last round | carried | hidden half | placed |");
    println!(" listed | touched | at half a page |\n|---|---|---|---|---|---|---|---|---|---|---|");
    let mut good = true;
    for block_size in [4096, 32] {
        for g in [2, 3, 4].map(|height| geometry(block_size, height)) {
            good &= cases().fold(true, |good, case| case.holds(&PROVED, g) & good);
        }
    }
    // What is left out is seen: of the mapper that stores only the bytes that it changes.
    good &= !cases().take(1).any(|case| case.holds(&IN_PLACE, geometry(4096, 2)));
    println!("\n{}", if good { "all as expected" } else { "not all as expected" });
    if good { ExitCode::SUCCESS } else { ExitCode::FAILURE }
}

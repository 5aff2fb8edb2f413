//! `bit_places`: the largest place that a bit has in its bitmap block, 32,767, on real calls from a fresh
//! drive on. With blocks of 4,096 bytes it is that of slot 21,845 where k is 2, and of slot 13,107 where k is
//! 4. On each mapper the bit is set, read and cleared; each figure is printed with what is expected and what
//! was got. Ends with status 1 where they differ. Takes some 300 MB of memory.
use pddm_bench::ENGINES;
use pddm_bench::arguments::Arguments;
use pddm_bench::drive::Drive;
use pddm_bench::engine::{Engine, Geometry, fresh};
use pddm_bench::workload::Caller;
use std::process::ExitCode;

/// k, and the slot whose bit has the largest place.
const SLOTS: [(u32, u32); 2] = [(2, 21_845), (4, 13_107)];

/// A mapper with a drive that ends with the slot, and where the byte stands whose high bit has the place: the
/// last byte of the second bitmap block.
struct Stand<'a> {
    engine: &'a Engine,
    disk: Vec<u8>,
    caller: Caller,
    byte: usize,
}

impl<'a> Stand<'a> {
    fn new(engine: &'a Engine, height: u32, slot: u32) -> Self {
        let g = Geometry { block_size: 4096, height, publics: 2, hidden: 1, slots: slot + 1 };
        let drive = Drive::of(g).expect("a geometry within the limits");
        let byte = (drive.bitmap + 2) * drive.b - 1;
        Stand { engine, disk: fresh(engine, g), caller: Caller::new(g), byte }
    }

    /// The rounds of a write.
    fn rounds(&mut self, number: u32) -> u32 {
        self.caller.write(self.engine, &mut self.disk, number).rounds
    }

    /// Writes a number so many times: how many of the writes took one round.
    fn single_rounds(&mut self, number: u32, times: u32) -> u32 {
        (0..times).map(|_| u32::from(self.rounds(number) == 1)).sum()
    }

    fn byte(&self) -> u32 {
        u32::from(self.disk[self.byte])
    }

    /// The answer of a public read.
    fn answer(&self, number: u32) -> u32 {
        self.caller.public_read(self.engine, &self.disk, number).err().unwrap_or(0)
    }
}

/// Prints what is expected and what was got; whether they agree.
fn agrees(name: &str, expected: u32, got: u32) -> bool {
    println!("  {name} expected {expected} got {got}");
    expected == got
}

/// Number 0 goes up to the last slot and stays there; number 1 goes round and passes over it; number 0 leaves
/// it.
fn hold(engine: &Engine, height: u32, slot: u32) -> bool {
    println!("{}, k {height}, slot {slot}", engine.name);
    let mut stand = Stand::new(engine, height, slot);
    let neighbour = 1 << (7 - (height + 1));
    let figures = [
        agrees("writes of one round up to the slot", slot, stand.single_rounds(0, slot)),
        agrees("byte, the slot before it taken", neighbour, stand.byte()),
        agrees("rounds into the slot", 1, stand.rounds(0)),
        agrees("byte, the slot taken", 128, stand.byte()),
        agrees("public read from the slot", 0, stand.answer(0)),
        agrees("writes of one round, once more up to the slot", slot, stand.single_rounds(1, slot)),
        agrees("byte, both slots taken", 128 + neighbour, stand.byte()),
        agrees("rounds over the slot", 2, stand.rounds(1)),
        agrees("byte, the slot before it left", 128, stand.byte()),
        agrees("rounds out of the slot", 1, stand.rounds(0)),
        agrees("byte, both slots left", 0, stand.byte()),
    ];
    figures.iter().all(|&agreed| agreed)
}

fn main() -> ExitCode {
    Arguments::new("bit_places").end();
    let mut good = true;
    for (height, slot) in SLOTS {
        for engine in &ENGINES {
            good &= hold(engine, height, slot);
        }
    }
    println!("{}", if good { "all as expected" } else { "not all as expected" });
    if good { ExitCode::SUCCESS } else { ExitCode::FAILURE }
}

//! `digest`: two numbers for each mapper. One over the 100,000 calls of document 02's K11: what every read
//! shows, what every write answers and lists, the bytes of each block that it lists, and the whole disk at
//! the end. The other over as many calls with a line: in turn an offer entered, another one, a read through
//! the line and a write with it. Two archives that print the same numbers gave the same answers, lists, lines
//! and disks. Ends with status 1 where the mappers differ.
use pddm_bench::ENGINES;
use pddm_bench::engine::{Engine, LineWrite, Offer, ample, fresh};
use pddm_bench::workload::{CALLS, Caller, GEOMETRY, Reply};
use std::hash::{DefaultHasher, Hash, Hasher};
use std::process::ExitCode;

const SIZE: usize = GEOMETRY.block_size as usize;

/// The blocks that a write listed.
fn hash_stores(stores: &[u32], disk: &[u8], all: &mut DefaultHasher) {
    for &address in stores {
        (address, &disk[address as usize * SIZE..][..SIZE]).hash(all);
    }
}

fn digest(engine: &Engine) -> u64 {
    let mut disk = fresh(engine, GEOMETRY);
    let mut caller = Caller::new(GEOMETRY);
    let mut all = DefaultHasher::new();
    for i in 0..CALLS {
        let stored = match caller.call(engine, &mut disk, i) {
            Reply::Shown(shown) => {
                shown.hash(&mut all);
                Vec::new()
            }
            Reply::Wrote(written, list) => {
                (written.answer, written.rounds, written.stores, written.outcome).hash(&mut all);
                list[..written.stores as usize].to_vec()
            }
        };
        hash_stores(&stored, &disk, &mut all);
    }
    disk.hash(&mut all);
    all.finish()
}

/// A drive with a line of 16, a block for each of its places, and the buffers that writes lend.
struct Stand<'a> {
    engine: &'a Engine,
    disk: Vec<u8>,
    line: [Offer; 16],
    blocks: Vec<u8>,
    waiting: u32,
    data: Vec<u8>,
    random: Vec<u8>,
    list: Vec<u32>,
    all: DefaultHasher,
}

impl<'a> Stand<'a> {
    fn new(engine: &'a Engine) -> Self {
        let (random, list) = ample(GEOMETRY);
        Stand {
            engine,
            disk: fresh(engine, GEOMETRY),
            line: Default::default(),
            blocks: vec![2; 16 * SIZE],
            waiting: 0,
            data: vec![1; SIZE],
            random: vec![165; random],
            list: vec![0; list],
            all: DefaultHasher::new(),
        }
    }

    fn hash_line(&mut self) {
        (self.line.map(|offer| (offer.number, offer.place)), self.waiting).hash(&mut self.all);
    }

    /// Enters an offer, with its block made anew, for which another one may wait too.
    fn enter(&mut self, number: u32) {
        let place = number % 16;
        self.blocks[place as usize * SIZE..][..4].copy_from_slice(&number.to_le_bytes());
        let Stand { engine, disk, line, blocks, waiting, all, .. } = self;
        let entered = (engine.enter)(disk, Offer { number, place }, blocks, line, *waiting);
        entered.answer.hash(all);
        *waiting = entered.waiting;
        self.hash_line();
    }

    fn read(&mut self, number: u32) {
        let Stand { engine, disk, line, blocks, waiting, all, .. } = self;
        (engine.hidden_read_line)(disk, number, &[0; SIZE], blocks, line, *waiting).hash(all);
    }

    fn write(&mut self, number: u32) {
        let Stand { engine, disk, line, blocks, waiting, data, random, list, all } = self;
        let call = LineWrite { number, data, blocks, waiting: *waiting, random };
        let written = (engine.write_line)(disk, &call, line, list);
        (written.answer, written.rounds, written.stores, written.outcome, written.placed).hash(all);
        hash_stores(&list[..written.stores as usize], disk, all);
        *waiting = written.waiting;
        self.hash_line();
    }
}

fn digest_lines(engine: &Engine) -> u64 {
    let mut stand = Stand::new(engine);
    for n in 0..CALLS / 4 {
        stand.enter(2 * n % GEOMETRY.hidden);
        stand.enter((7 * n + 1) % GEOMETRY.hidden);
        stand.read(5 * n % GEOMETRY.hidden);
        stand.write(n % GEOMETRY.publics);
    }
    stand.disk.hash(&mut stand.all);
    stand.all.finish()
}

fn main() -> ExitCode {
    let digests = ENGINES.map(|engine| [digest(&engine), digest_lines(&engine)]);
    println!("{:14} {:16} with a line", "", "K11");
    for (engine, [digest, lines]) in ENGINES.iter().zip(digests) {
        println!("{:14} {digest:016x} {lines:016x}", engine.name);
    }
    if digests.iter().any(|digest| *digest != digests[0]) {
        println!("the mappers differ");
        return ExitCode::FAILURE;
    }
    ExitCode::SUCCESS
}

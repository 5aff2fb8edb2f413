//! `stacks`: how much stack each call of the proved mapper takes, B 4,096, k 2 to 4, on a drive with both
//! volumes full: the bytes of a painted stack that its calls change, the caller's few among them. The writes
//! are laps of the head, so that slots are kept, taken by an offer and filled with random bytes.
use pddm_bench::arguments::Arguments;
use pddm_bench::drives::fill;
use pddm_bench::engine::{Geometry, LineWrite, Offer, Write, ample, fresh};
use pddm_bench::painted::stack_of;
use pddm_bench::proved::PROVED;

/// Numbers of each volume.
const NUMBERS: u32 = 20;

fn geometry(height: u32) -> Geometry {
    Geometry { block_size: 4096, height, publics: NUMBERS, hidden: NUMBERS, slots: 32 }
}

/// A drive with all numbers of both volumes placed.
fn full(g: Geometry) -> Vec<u8> {
    let mut disk = fresh(&PROVED, g);
    fill(&PROVED, g, &mut disk, (0..4 * g.slots).map(|i| (i % NUMBERS, Some(i % NUMBERS))));
    let blank = vec![0; g.block_size as usize];
    assert!((0..NUMBERS).all(|number| (PROVED.hidden_read)(&disk, number, &blank) != Ok(&blank[..])));
    disk
}

/// A line of sixteen numbers from one on, all of place 0.
fn sixteen(first: u32) -> [Offer; 16] {
    std::array::from_fn(|i| Offer { number: (first + i as u32) % NUMBERS, place: 0 })
}

/// The stacks of entering an offer, a write with a line and a read through one, sixteen waiting.
fn line_stacks(g: Geometry, disk: &mut [u8]) -> [usize; 3] {
    let block = vec![1; g.block_size as usize];
    let (random, list) = ample(g);
    let (random, mut list) = (vec![165; random], vec![0; list]);
    let entered = stack_of(|| {
        let offer = Offer { number: 15, place: 0 };
        assert_eq!((PROVED.enter)(disk, offer, &block, &mut sixteen(0), 15).answer, 0);
    });
    let shown = stack_of(|| {
        for n in 0..NUMBERS {
            assert!((PROVED.hidden_read_line)(disk, n, &block, &block, &sixteen(0), 16).is_ok());
        }
    });
    let written = stack_of(|| {
        for i in 0..4 * g.slots {
            let number = i % NUMBERS;
            let call = LineWrite { number, data: &block, blocks: &block, waiting: 16, random: &random };
            assert_eq!((PROVED.write_line)(disk, &call, &mut sixteen(i * 7), &mut list).answer, 0);
        }
    });
    [entered, shown, written]
}

/// The stacks of a write with an offer and of one with sixteen waiting, both cut after their first round.
fn cut_stacks(g: Geometry, disk: &[u8]) -> [usize; 2] {
    let block = vec![1; g.block_size as usize];
    let (random, list) = ample(g);
    let (random, mut list, bound) = (vec![165; random], vec![0; list], g.height as usize + 3);
    let mut cut = disk.to_vec();
    let with_offer = stack_of(|| {
        let call = Write { number: 0, data: &block, offer: Some((0, &block)), random: &random };
        assert_eq!((PROVED.write_cut)(&mut cut, &call, &mut list, bound).answer, 0);
    });
    let mut cut = disk.to_vec();
    let with_line = stack_of(|| {
        let call = LineWrite { number: 0, data: &block, blocks: &block, waiting: 16, random: &random };
        assert_eq!((PROVED.write_line_cut)(&mut cut, &call, &sixteen(0), &mut list, bound).answer, 0);
    });
    [with_offer, with_line]
}

/// The stacks of formatting, both reads, the questions, writes without and with an offer, the check and the
/// recovery, the calls with a line, and writes that are cut.
fn stacks(g: Geometry) -> [usize; 16] {
    let mut disk = full(g);
    let block = vec![1; g.block_size as usize];
    let (random, list) = ample(g);
    let (random, mut list) = (vec![165; random], vec![0; list]);
    let mut writes = |offers: bool| {
        stack_of(|| {
            for i in 0..4 * g.slots {
                let offer = offers.then_some((i * 7 % NUMBERS, &block[..]));
                let call = Write { number: i % NUMBERS, data: &block, offer, random: &random };
                assert_eq!((PROVED.write)(&mut disk, &call, &mut list).answer, 0);
            }
        })
    };
    let written = [false, true].map(&mut writes);
    let [entered, shown, line_written] = line_stacks(g, &mut disk);
    let [cut, line_cut] = cut_stacks(g, &disk);
    let numbers = || 0..NUMBERS;
    [
        stack_of(|| numbers().for_each(|n| assert!((PROVED.public_read)(&disk, n, &block).is_ok()))),
        stack_of(|| numbers().for_each(|n| assert!((PROVED.hidden_read)(&disk, n, &block).is_ok()))),
        stack_of(|| numbers().for_each(|n| assert_eq!((PROVED.needs)(&disk, n).answer, 0))),
        stack_of(|| assert_eq!((PROVED.wait_rounds)(&disk).answer, 0)),
        written[0],
        written[1],
        stack_of(|| assert_eq!((PROVED.check_tree)(&disk), Ok(()))),
        stack_of(|| assert_eq!((PROVED.recover)(&mut disk), Ok(()))),
        stack_of(|| assert_eq!((PROVED.identify)(&disk).answer, 0)),
        stack_of(|| assert_eq!((PROVED.drive_size)(g).answer, 0)),
        stack_of(|| assert_eq!((PROVED.format)(&mut disk, g), Ok(()))),
        entered,
        shown,
        line_written,
        cut,
        line_cut,
    ]
}

fn main() {
    Arguments::new("stacks").end();
    const CALLS: [&str; 16] = [
        "public read",
        "hidden read",
        "what a write needs",
        "how long an offer waits",
        "write without an offer",
        "write with an offer",
        "tree check",
        "recovery",
        "which drive a disk is",
        "how large a drive is",
        "formatting",
        "entering an offer",
        "hidden read through a line",
        "write with a line",
        "write with an offer, cut",
        "write with a line, cut",
    ];
    let [two, three, four] = [2, 3, 4].map(|height| stacks(geometry(height)));
    println!("| stack in bytes | k 2 | k 3 | k 4 |\n|---|---|---|---|");
    for (i, call) in CALLS.iter().enumerate() {
        println!("| {call} | {} | {} | {} |", two[i], three[i], four[i]);
    }
}

//! Document 02's K3 on drives worked by hand, on every mapper: what is placed of a line, what is left of it,
//! what enters it and what reads through it show. An offer is given by its number and the place of its block.
use pddm_bench::ENGINES;
use pddm_bench::drive::{entry, put_entry};
use pddm_bench::drives::fill;
use pddm_bench::engine::{
    Engine, Geometry, LineWrite, LineWritten, NONE, Offer, PLACED, Shown, WAITING, fresh,
};

/// Slots at 4, 7, 10 and 13.
const G: Geometry = Geometry { block_size: 32, height: 2, publics: 3, hidden: 2, slots: 4 };

/// Numbers 0 to 6 are in the first leaf, 7 in the second.
const TWO_LEAVES: Geometry = Geometry { publics: 1, hidden: 8, slots: 9, ..G };

/// More hidden numbers than a line has offers.
const EIGHTEEN: Geometry = Geometry { publics: 1, hidden: 18, slots: 19, ..G };

const BLANK: [u8; 32] = [5; 32];

/// The lent blocks: three, of 9, of 10 and of 11.
fn blocks() -> Vec<u8> {
    [[9; 32], [10; 32], [11; 32]].concat()
}

/// A mapper with a drive and a line of which so many wait.
struct Stand {
    e: Engine,
    disk: Vec<u8>,
    line: Vec<Offer>,
    waiting: u32,
}

fn offers<const N: usize>(all: [(u32, u32); N]) -> Vec<Offer> {
    all.map(|(number, place)| Offer { number, place }).to_vec()
}

impl Stand {
    /// All offers of the line wait.
    fn new<const N: usize>(e: &Engine, g: Geometry, line: [(u32, u32); N]) -> Self {
        Stand { e: *e, disk: fresh(e, g), line: offers(line), waiting: N as u32 }
    }

    /// The first entry of the root leads to no leaf.
    fn damaged(mut self) -> Self {
        put_entry(&mut self.disk[32 * 3..], 0, 6);
        self
    }

    /// A write of a public number with the line: its report and its stores.
    fn write(&mut self, number: u32) -> (LineWritten, Vec<u32>) {
        let (blocks, mut list) = (blocks(), [0; 23]);
        let Stand { e, disk, line, waiting } = self;
        let call =
            LineWrite { number, data: &[1; 32], blocks: &blocks, waiting: *waiting, random: &[165; 256] };
        let written = (e.write_line)(disk, &call, line, &mut list);
        *waiting = written.waiting;
        (written, list[..written.stores as usize].to_vec())
    }

    /// A good write of number 0 in one round is to have this outcome, to place so many and to leave these.
    fn leaves<const N: usize>(&mut self, outcome: u32, placed: u32, left: [(u32, u32); N]) {
        let (written, _) = self.write(0);
        let report = LineWritten { answer: 0, rounds: 1, stores: 7, outcome, placed, waiting: N as u32 };
        assert_eq!((written, self.waits()), (report, &offers(left)[..]), "{}", self.e.name);
    }

    fn waits(&self) -> &[Offer] {
        &self.line[..self.waiting as usize]
    }

    /// Enters an offer: the answer, and how many wait then.
    fn enter(&mut self, number: u32, place: u32) -> (u32, u32) {
        let before = self.line.clone();
        let entered =
            (self.e.enter)(&self.disk, Offer { number, place }, &blocks(), &mut self.line, self.waiting);
        assert!(entered.answer == 0 || self.line == before, "{} changed the line", self.e.name);
        self.waiting = entered.waiting;
        (entered.answer, entered.waiting)
    }

    /// The first byte of what a read through the line shows.
    fn read(&self, number: u32) -> Result<u8, u32> {
        let blocks = blocks();
        let shown: Shown =
            (self.e.hidden_read_line)(&self.disk, number, &BLANK, &blocks, &self.line, self.waiting);
        shown.map(|part| part[0])
    }

    /// The first byte of what a read without the line shows.
    fn read_disk(&self, number: u32) -> Result<u8, u32> {
        (self.e.hidden_read)(&self.disk, number, &BLANK).map(|part| part[0])
    }
}

#[test]
fn one_offer_placed_a_round() {
    for e in ENGINES {
        let mut stand = Stand::new(&e, G, [(0, 0), (1, 1)]);
        assert_eq!([0, 1].map(|number| stand.read(number)), [Ok(9), Ok(10)]);
        let report =
            |waiting| LineWritten { answer: 0, rounds: 1, stores: 7, outcome: 1, placed: 1, waiting };
        assert_eq!(stand.write(0), (report(1), vec![4, 5, 6, 3, 1, 2, 0]));
        assert_eq!((stand.waits(), entry(&stand.disk, 5)), (&offers([(1, 1)])[..], 1));
        assert_eq!(stand.write(0), (report(0), vec![7, 8, 9, 3, 1, 2, 0]));
        assert_eq!([0, 1].map(|number| stand.read_disk(number)), [Ok(9), Ok(10)]);
    }
}

#[test]
fn two_offers_placed_in_one_call() {
    for e in ENGINES {
        let mut stand = Stand::new(&e, G, [(0, 0), (1, 1)]);
        fill(&e, G, &mut stand.disk, [0, 1, 2, 2].map(|number| (number, None)));
        let report = LineWritten { answer: 0, rounds: 3, stores: 17, outcome: PLACED, placed: 2, waiting: 0 };
        let stores = vec![4, 5, 6, 3, 0, 7, 8, 9, 3, 0, 10, 11, 12, 3, 1, 2, 0];
        assert_eq!(stand.write(2), (report, stores));
        assert_eq!([0, 1].map(|number| stand.read_disk(number)), [Ok(9), Ok(10)]);
    }
}

/// The second offer of number 0 leaves with the first; what lies past those left keeps its value.
#[test]
fn number_twice_in_a_line() {
    for e in ENGINES {
        let mut stand = Stand::new(&e, G, [(0, 0), (0, 1), (1, 2)]);
        stand.leaves(PLACED, 1, [(1, 2)]);
        assert_eq!(stand.line, offers([(1, 2), (0, 1), (1, 2)]));
        assert_eq!((stand.read(0), stand.read_disk(0)), (Ok(9), Ok(9)));
    }
}

/// Number 2 is none of this drive, and place 5 is outside; a good second offer does not count for a bad first
/// one.
#[test]
fn offers_passed_over() {
    for e in ENGINES {
        let mut stand = Stand::new(&e, G, [(2, 0), (1, 5), (0, 1)]);
        stand.leaves(PLACED, 1, [(2, 0), (1, 5)]);
        stand.leaves(NONE, 0, [(2, 0), (1, 5)]);
        let mut stand = Stand::new(&e, G, [(0, 5), (0, 1)]);
        stand.leaves(NONE, 0, [(0, 5), (0, 1)]);
        assert_eq!(stand.read(0), Ok(5));
    }
}

/// What counts of a line is no more than is lent, no more than 16, and no more than is said to wait.
#[test]
fn line_that_is_handed_over() {
    for e in ENGINES {
        let mut stand = Stand { waiting: 99, ..Stand::new(&e, G, [(0, 0), (1, 1)]) };
        stand.leaves(PLACED, 1, [(1, 1)]);
        let mut stand = Stand { waiting: 1, ..Stand::new(&e, G, [(2, 0), (0, 0)]) };
        stand.leaves(NONE, 0, [(2, 0)]);
        assert_eq!(stand.read(0), Ok(5));
        let line: [(u32, u32); 18] = std::array::from_fn(|i| (i as u32 / 16, 3 - i as u32 / 16));
        let mut stand = Stand::new(&e, G, line);
        assert_eq!(stand.write(0).0.waiting, 16);
        assert_eq!((stand.read(1), stand.enter(1, 0), stand.enter(0, 0)), (Ok(5), (16, 16), (0, 16)));
    }
}

#[test]
fn damage_with_a_line() {
    for e in ENGINES {
        let mut stand = Stand::new(&e, G, [(0, 0)]).damaged();
        assert_eq!([0, 1].map(|number| stand.read(number)), [Ok(9), Err(12)]);
        stand.leaves(12, 0, [(0, 0)]);
        let mut stand = Stand::new(&e, TWO_LEAVES, [(0, 0), (7, 1)]).damaged();
        stand.leaves(12, 0, [(0, 0), (7, 1)]);
        let mut stand = Stand::new(&e, TWO_LEAVES, [(7, 1), (0, 0)]).damaged();
        stand.leaves(PLACED, 1, [(0, 0)]);
        stand.leaves(12, 0, [(0, 0)]);
    }
}

/// A refused write leaves the line and tells how many were handed over.
#[test]
fn refused_with_a_line() {
    for e in ENGINES {
        let mut stand = Stand { waiting: 99, ..Stand::new(&e, G, [(0, 0), (0, 1)]) };
        assert_eq!(stand.write(3), (LineWritten::refused(4, 2), vec![]));
        assert_eq!(stand.line, offers([(0, 0), (0, 1)]));
    }
}

#[test]
fn offers_that_enter() {
    for e in ENGINES {
        let mut stand = Stand { waiting: 0, ..Stand::new(&e, G, [(7, 7); 4]) };
        assert_eq!([(0, 0), (1, 1), (0, 2)].map(|(n, p)| stand.enter(n, p)), [(0, 1), (0, 2), (0, 2)]);
        assert_eq!(stand.line, offers([(0, 2), (1, 1), (7, 7), (7, 7)]));
        assert_eq!([0, 1].map(|number| stand.read(number)), [Ok(11), Ok(10)]);
        let line = std::array::from_fn(|i| (i as u32, 0));
        let mut stand = Stand { waiting: 16, ..Stand::new::<17>(&e, EIGHTEEN, line) };
        assert_eq!([(16, 0), (16, 3), (18, 3)].map(|(n, p)| stand.enter(n, p).0), [16, 11, 10]);
        assert_eq!((stand.enter(3, 2), stand.line[3]), ((0, 16), Offer { number: 3, place: 2 }));
        assert_eq!(Stand::new(&e, G, [(0, 0)]).enter(1, 0), (16, 1));
    }
}

/// A slot that is kept takes none.
#[test]
fn offers_that_wait() {
    for e in ENGINES {
        let mut stand = Stand::new(&e, TWO_LEAVES, [(0, 0)]);
        stand.leaves(PLACED, 1, []);
        (0..8).for_each(|_| stand.leaves(NONE, 0, []));
        (stand.line, stand.waiting) = (offers([(1, 1)]), 1);
        stand.leaves(WAITING, 0, [(1, 1)]);
        assert_eq!((stand.read(1), stand.read_disk(1)), (Ok(10), Ok(5)));
    }
}

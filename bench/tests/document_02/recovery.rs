//! Document 02's K5 on drives worked by hand, on every mapper: a write of three rounds cut after its stores
//! and recovered, and recoveries of a fresh drive with other map entries.
use pddm_bench::ENGINES;
use pddm_bench::drive::{entry, put_entry};
use pddm_bench::engine::{Cut, Engine, Geometry, LineWrite, Offer, Write, fresh};

/// Slots at 4, 7, 10 and 13; the map is block 1, the bitmap block 2, the root block 3.
const G: Geometry = Geometry { block_size: 32, height: 2, publics: 3, hidden: 2, slots: 4 };

/// The stores of the write that is cut: slots 1 and 2 are kept, slot 3 takes the data.
const STORES: [u32; 17] = [7, 8, 9, 3, 0, 10, 11, 12, 3, 0, 13, 14, 15, 3, 1, 2, 0];

/// A mapper with a drive and the list of its last write, of entries 99 before it.
struct Stand {
    e: Engine,
    disk: Vec<u8>,
    list: [u32; 23],
}

impl Stand {
    /// Public 0, 0, 1, 2 and 2 are written with data 1 to 5, hidden 1 beside 2 and hidden 0 beside 5 with the
    /// same.
    fn new(e: Engine) -> Self {
        let mut stand = Stand { e, disk: fresh(&e, G), list: [99; 23] };
        let lines = [(0, None), (0, Some(1)), (1, None), (2, None), (2, Some(0))];
        for (data, (number, offered)) in (1..).zip(lines) {
            let block = [data; 32];
            let offer = offered.map(|number| (number, &block[..]));
            let call = Write { number, data: &block, offer, random: &[165; 256] };
            assert_eq!((e.write)(&mut stand.disk, &call, &mut [0; 23]).answer, 0, "{}", e.name);
        }
        stand
    }

    /// Public 0 is written with data 8, and hidden 0 offered with data 8; cut after so many stores.
    fn cut(mut self, bound: usize) -> Self {
        let call = Write { number: 0, data: &[8; 32], offer: Some((0, &[8; 32])), random: &[165; 256] };
        let cut = (self.e.write_cut)(&mut self.disk, &call, &mut self.list, bound);
        assert_eq!(cut, Cut::of(0, 17, bound), "{}", self.e.name);
        self
    }

    /// The same with the offer in a line.
    fn cut_with_line(mut self, bound: usize) -> Self {
        let call = LineWrite { number: 0, data: &[8; 32], blocks: &[8; 32], waiting: 1, random: &[165; 256] };
        let line = [Offer { number: 0, place: 0 }];
        let cut = (self.e.write_line_cut)(&mut self.disk, &call, &line, &mut self.list, bound);
        assert_eq!(cut, Cut::of(0, 17, bound), "{}", self.e.name);
        self
    }

    fn recovered(mut self) -> Self {
        assert_eq!((self.e.recover)(&mut self.disk), Ok(()), "{}", self.e.name);
        self
    }

    /// The first byte of what public 0 and hidden 0 show.
    fn shows(&self) -> [Result<u8, u32>; 2] {
        let blank = [0; 32];
        [(self.e.public_read)(&self.disk, 0, &blank), (self.e.hidden_read)(&self.disk, 0, &blank)]
            .map(|shown| shown.map(|part| part[0]))
    }

    /// The bitmap's first two bytes; the others are 0.
    fn bits(&self) -> [u8; 2] {
        assert_eq!(self.disk[66..96], [0; 30], "{}", self.e.name);
        [self.disk[64], self.disk[65]]
    }
}

#[test]
fn disk_and_list_of_a_cut() {
    for e in ENGINES {
        let whole = Stand::new(e).cut(17);
        assert_eq!((&whole.list[..17], &whole.list[17..]), (&STORES[..], &[99; 6][..]), "{}", e.name);
        assert_eq!(Stand::new(e).cut(18).disk, whole.disk, "{}", e.name);
        assert_eq!(Stand::new(e).cut(0).disk, Stand::new(e).disk, "{}", e.name);
        let stand = Stand::new(e).cut(9);
        assert_eq!((&stand.list[..9], &stand.list[9..]), (&STORES[..9], &[99; 14][..]), "{}", e.name);
        assert_eq!(entry(&stand.disk, 5), 2, "{}: the head after one round", e.name);
        for bound in 0..=18 {
            let [one, line] = [Stand::new(e).cut(bound), Stand::new(e).cut_with_line(bound)];
            assert_eq!((one.disk, one.list), (line.disk, line.list), "{} at {bound}", e.name);
        }
    }
}

/// Hidden 0 is placed in round 2, whose root is store 9; the map block is store 15, and until its bits are
/// stored public 0 is refused.
#[test]
fn old_or_new_blocks() {
    for e in ENGINES {
        let before = |bound| Stand::new(e).cut(bound).shows();
        let after = |bound| Stand::new(e).cut(bound).recovered().shows();
        assert_eq!([0, 8].map(after), [[Ok(2), Ok(5)]; 2], "{}", e.name);
        assert_eq!([9, 14].map(after), [[Ok(2), Ok(8)]; 2], "{}", e.name);
        assert_eq!([15, 16, 17, 18].map(after), [[Ok(8), Ok(8)]; 4], "{}", e.name);
        assert_eq!(
            [14, 15, 16].map(before),
            [Ok(2), Err(6), Ok(8)].map(|shown| [shown, Ok(8)]),
            "{}",
            e.name
        );
        for bound in 0..=18 {
            assert_eq!((e.check_tree)(&Stand::new(e).cut(bound).disk), Ok(()), "{} at {bound}", e.name);
        }
    }
}

/// Slots 0, 1 and 2 hold the numbers, and then slots 0, 2 and 3: bits 0, 3, 6 and 0, 6, 9. Only one cut has
/// bits to mend.
#[test]
fn bits_after_a_recovery() {
    for e in ENGINES {
        let bits = |bound| Stand::new(e).cut(bound).recovered().bits();
        assert_eq!([0, 8, 14].map(bits), [[73, 0]; 3], "{}", e.name);
        assert_eq!([15, 16, 17].map(bits), [[65, 2]; 3], "{}", e.name);
        for bound in 0..=18 {
            let (cut, recovered) = (Stand::new(e).cut(bound), Stand::new(e).cut(bound).recovered());
            assert_eq!(cut.disk == recovered.disk, bound != 15, "{} at {bound}", e.name);
            let again = Stand { disk: recovered.disk.clone(), ..recovered }.recovered();
            assert_eq!(again.disk, Stand::new(e).cut(bound).recovered().disk, "{} at {bound}", e.name);
        }
    }
}

/// 8 and 9 by the whole write, 6 by an entry that a cut left without its bit; no store is made or cut.
#[test]
fn refusals_of_a_cut_write() {
    for e in ENGINES {
        let (whole, torn) = (Stand::new(e).disk, Stand::new(e).cut(15).disk);
        for (answer, disk, random, room) in [(8, &whole, 191, 17), (9, &whole, 192, 16), (6, &torn, 192, 17)]
        {
            let call = Write { number: 0, data: &[8; 32], offer: None, random: &vec![165; random] };
            let (mut after, mut list) = (disk.clone(), vec![99; room]);
            let cut = (e.write_cut)(&mut after, &call, &mut list, 1);
            assert_eq!(cut, Cut { answer, stores: 0, cut: 0 }, "{}", e.name);
            assert_eq!((&after, list), (disk, vec![99; room]), "{}", e.name);
        }
    }
}

/// A fresh drive with these first four map entries, number 3 being none, and every bit of the bitmap set:
/// the answer, and the bitmap's first two bytes after it.
fn recovered(e: Engine, entries: [usize; 4]) -> Result<[u8; 2], u32> {
    let mut disk = fresh(&e, G);
    entries.into_iter().enumerate().for_each(|(i, value)| put_entry(&mut disk[32..], i, value));
    disk[64..96].fill(255);
    let before = disk.clone();
    let answer = (e.recover)(&mut disk);
    let kept = disk[..64] == before[..64] && disk[96..] == before[96..];
    assert!(kept && (answer.is_ok() || disk == before), "{} changed more: {entries:?}", e.name);
    let stand = Stand { e, disk, list: [0; 23] };
    answer.map(|()| stand.bits())
}

#[test]
fn bitmap_rebuilt_from_the_map() {
    for e in ENGINES {
        assert_eq!(recovered(e, [0, 0, 0, 0]), Ok([0, 0]), "{}", e.name);
        assert_eq!(recovered(e, [4, 7, 13, 0]), Ok([9, 2]), "{}", e.name);
        assert_eq!(recovered(e, [0, 0, 13, 0]), Ok([0, 2]), "{}", e.name);
        assert_eq!(recovered(e, [0, 0, 0, 5]), Ok([0, 0]), "{}: past P", e.name);
        assert_eq!(recovered(e, [0, 0, 4, 4]), Ok([1, 0]), "{}: past P", e.name);
    }
}

/// A leaf's address, the root's, T, one entry twice; and after 1 to 3.
#[test]
fn refusals_of_a_recovery() {
    for e in ENGINES {
        for entries in [[5, 0, 0, 0], [3, 0, 0, 0], [16, 0, 0, 0], [4, 0, 4, 0], [0, 13, 13, 0]] {
            assert_eq!(recovered(e, entries), Err(17), "{}: {entries:?}", e.name);
        }
        let mut disk = fresh(&e, G);
        put_entry(&mut disk[32..], 0, 5);
        assert_eq!((e.recover)(&mut disk[..23]), Err(1), "{}", e.name);
        assert_eq!((e.recover)(&mut disk[..511]), Err(2), "{}", e.name);
        put_entry(&mut disk, 5, 4);
        assert_eq!((e.recover)(&mut disk), Err(3), "{}", e.name);
    }
}

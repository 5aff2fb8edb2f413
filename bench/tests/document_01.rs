//! Document 01's examples and figures, with document 02's K2, on every mapper: B 32, k 2, P 3, H 2, M 4.
use pddm_bench::ENGINES;
use pddm_bench::drive::put_entry;
use pddm_bench::engine::{
    Engine, Geometry, Identified, NONE, NOT_TRIED, PLACED, Size, Write, Written, fresh,
};

const G: Geometry = Geometry { block_size: 32, height: 2, publics: 3, hidden: 2, slots: 4 };
const BLANK: [u8; 32] = [0; 32];

/// A write of ones, with so many random bytes and list entries: its report and its stores.
fn write(
    e: &Engine,
    disk: &mut [u8],
    number: u32,
    offer: Option<u32>,
    random: usize,
    room: usize,
) -> (Written, Vec<u32>) {
    let (data, hidden, random, mut list) = ([1; 32], [2; 32], vec![165; random], vec![9; room]);
    let offer = offer.map(|number| (number, &hidden[..]));
    let written = (e.write)(disk, &Write { number, data: &data, offer, random: &random }, &mut list);
    list.truncate(written.stores as usize);
    (written, list)
}

/// A drive with public numbers 0, 1, 2 and 2 written.
fn written_four_times(e: &Engine) -> Vec<u8> {
    let mut disk = fresh(e, G);
    for number in [0, 1, 2, 2] {
        assert_eq!(write(e, &mut disk, number, None, 256, 23).0.answer, 0);
    }
    disk
}

#[test]
fn limits_of_the_geometry() {
    for e in ENGINES {
        let format = |g, bytes| (e.format)(&mut vec![7; bytes], g);
        let tree = |hidden| Geometry { publics: 1, hidden, slots: hidden + 1, ..G };
        assert_eq!(format(G, 512), Ok(()));
        assert_eq!(format(G, 511), Err(2));
        assert_eq!(format(tree(56), 176 * 32), Err(2));
        assert_eq!(format(tree(56), 175 * 32), Ok(()));
        assert_eq!(format(tree(57), 178 * 32), Err(1));
        assert_eq!(format(Geometry { publics: 4, ..G }, 512), Err(1));
        assert_eq!(format(Geometry { block_size: 16, ..G }, 256), Err(1));
        assert_eq!(format(Geometry { block_size: 48, ..G }, 512), Err(1));
        assert_eq!(format(G, 23), Err(1));
    }
}

/// P 3,072 are 3 map blocks of 1,024 entries. 715,806,036 slots of 3 blocks are 2,147,418,108 blocks, whose
/// bits are in 65,534 blocks of 32,768. So T = 2 + 3 + 65,534 + 2,147,418,108 = 2^31 - 1, and one public
/// block more takes a map block more.
const LARGEST: Geometry =
    Geometry { block_size: 4096, height: 2, publics: 3072, hidden: 1, slots: 715_806_036 };

#[test]
fn size_of_a_drive() {
    for e in ENGINES {
        let size = |blocks, bytes| Size { answer: 0, blocks, bytes };
        assert_eq!((e.drive_size)(G), size(16, 512));
        assert_eq!((e.drive_size)(Geometry { block_size: 48, ..G }), Size::REFUSED);
        assert_eq!((e.drive_size)(Geometry { publics: 4, ..G }), Size::REFUSED);
        assert_eq!((e.drive_size)(LARGEST), size(2_147_483_647, 8_796_093_018_112));
        assert_eq!((e.drive_size)(Geometry { publics: 3073, ..LARGEST }), Size::REFUSED);
        let most = u32::MAX;
        let past = Geometry { height: 4, publics: most - 1, hidden: 1, slots: most, ..LARGEST };
        assert_eq!((e.drive_size)(past), Size::REFUSED);
    }
}

#[test]
fn drive_that_a_disk_is() {
    for e in ENGINES {
        let drive = |head| Identified { answer: 0, geometry: G, head };
        let mut disk = fresh(&e, G);
        assert_eq!((e.identify)(&disk), drive(0));
        assert_eq!((e.identify)(&disk[..511]), Identified::refused(2));
        assert_eq!((e.identify)(&disk[..23]), Identified::refused(1));
        assert_eq!((e.identify)(&[]), Identified::refused(1));
        for number in [0, 1, 0] {
            assert_eq!(write(&e, &mut disk, number, None, 64, 7).0.answer, 0);
        }
        assert_eq!((e.identify)(&disk), drive(3));
        put_entry(&mut disk, 5, 4);
        assert_eq!((e.identify)(&disk), Identified::refused(3));
        put_entry(&mut disk, 0, 48);
        assert_eq!((e.identify)(&disk), Identified::refused(1));
    }
}

#[test]
fn stores_of_a_first_write() {
    for e in ENGINES {
        let stores = vec![4, 5, 6, 3, 1, 2, 0];
        let report = |outcome| Written { answer: 0, rounds: 1, stores: 7, outcome };
        assert_eq!(write(&e, &mut fresh(&e, G), 0, None, 64, 7), (report(NONE), stores.clone()));
        assert_eq!(write(&e, &mut fresh(&e, G), 0, Some(2), 64, 7), (report(10), stores.clone()));
        assert_eq!(write(&e, &mut fresh(&e, G), 0, Some(1), 64, 7), (report(PLACED), stores));
    }
}

#[test]
fn stores_of_a_write_with_three_rounds() {
    for e in ENGINES {
        let (written, stores) = write(&e, &mut written_four_times(&e), 2, None, 192, 17);
        assert_eq!((written.answer, written.rounds), (0, 3));
        assert_eq!(stores, [4, 5, 6, 3, 0, 7, 8, 9, 3, 0, 10, 11, 12, 3, 1, 2, 0]);
        let refused = |random, room| write(&e, &mut written_four_times(&e), 2, None, random, room).0;
        assert_eq!(refused(191, 17), Written { answer: 8, rounds: 0, stores: 0, outcome: NOT_TRIED });
        assert_eq!(refused(192, 16), Written { answer: 9, rounds: 0, stores: 0, outcome: NOT_TRIED });
    }
}

/// Document 02, K2, on B 32, k 2, P 1, M 100: slots 0 to 85 have their bits in block 2, the others in
/// block 3. Number 0 moves on by one slot with each write.
#[test]
fn stores_with_two_bitmap_blocks() {
    for e in ENGINES {
        let mut disk = fresh(&e, Geometry { publics: 1, hidden: 1, slots: 100, ..G });
        let stores = Vec::from_iter((0..88).map(|_| write(&e, &mut disk, 0, None, 64, 8).1));
        assert_eq!(stores[0], [5, 6, 7, 4, 1, 2, 0]);
        assert_eq!(stores[85], [260, 261, 262, 4, 1, 2, 0]);
        assert_eq!(stores[86], [263, 264, 265, 4, 1, 3, 2, 0]);
        assert_eq!(stores[87], [266, 267, 268, 4, 1, 3, 0]);
    }
}

#[test]
fn stores_of_the_listing() {
    for e in ENGINES {
        let mut disk = fresh(&e, G);
        let lines: [(u32, Option<u32>, &[u32]); 3] = [
            (0, None, &[4, 5, 6, 3, 1, 2, 0]),
            (0, Some(1), &[7, 8, 9, 3, 1, 2, 0]),
            (1, None, &[10, 11, 12, 3, 1, 2, 0]),
        ];
        for (number, offer, stores) in lines {
            assert_eq!(write(&e, &mut disk, number, offer, 256, 23).1, stores);
        }
        assert_eq!((e.hidden_read)(&disk, 1, &BLANK), Ok(&[2; 32][..]));
        assert_eq!((e.public_read)(&disk, 0, &BLANK), Ok(&[1; 32][..]));
    }
}

#[test]
fn refusals_of_the_table() {
    for e in ENGINES {
        let changed = |index, value| {
            let mut disk = fresh(&e, G);
            put_entry(&mut disk, index, value);
            disk
        };
        let disk = fresh(&e, G);
        assert_eq!((e.public_read)(&disk, 1, &BLANK).map(|part| part.as_ptr()), Ok(BLANK.as_ptr()));
        assert_eq!((e.public_read)(&changed(0, 48), 1, &BLANK), Err(1));
        assert_eq!((e.public_read)(&disk[..511], 1, &BLANK), Err(2));
        assert_eq!((e.public_read)(&changed(5, 4), 1, &BLANK), Err(3));
        assert_eq!((e.public_read)(&disk, 3, &BLANK), Err(4));
        assert_eq!((e.public_read)(&disk, 1, &BLANK[..31]), Err(5));
        assert_eq!((e.public_read)(&changed(8, 5), 0, &BLANK), Err(6));
        let mut full = changed(16, 0b10_0100_1001);
        assert_eq!(write(&e, &mut full, 0, None, 64, 23).0.answer, 7);
        assert_eq!(write(&e, &mut fresh(&e, G), 0, None, 63, 23).0.answer, 8);
        assert_eq!(write(&e, &mut fresh(&e, G), 0, None, 64, 6).0.answer, 9);
        assert_eq!((e.hidden_read)(&disk, 2, &BLANK), Err(10));
        assert_eq!((e.hidden_read)(&disk, 1, &[0; 33]), Err(11));
        assert_eq!((e.hidden_read)(&changed(24, 6), 0, &BLANK), Err(12));
    }
}

/// Hidden 1 is in slot 1, then hidden 0 in slot 0; a stale leaf written back at slot 1 would forget hidden 0.
#[test]
fn stale_leaf_is_not_written_back() {
    for e in ENGINES {
        let mut disk = fresh(&e, G);
        for (number, offer) in [(0, None), (0, Some(1)), (1, None), (1, None), (2, Some(0)), (2, None)] {
            assert_eq!(write(&e, &mut disk, number, offer, 256, 23).0.answer, 0);
        }
        assert_ne!((e.hidden_read)(&disk, 0, &BLANK).map(|part| part.as_ptr()), Ok(BLANK.as_ptr()));
        assert_eq!((e.hidden_read)(&disk, 0, &BLANK), Ok(&[2; 32][..]));
        assert_eq!((e.hidden_read)(&disk, 1, &BLANK), Ok(&[2; 32][..]));
    }
}

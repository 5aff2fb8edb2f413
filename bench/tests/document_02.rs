//! Document 02's K1 on drives worked by hand: what the tree check answers on every mapper. An entry is given
//! by its block, its place there and its value. K3 is in `document_02/line.rs`, K5 in
//! `document_02/recovery.rs`, K12 in `document_02/waits.rs`.
use pddm_bench::ENGINES;
use pddm_bench::drive::{entry, put_entry};
use pddm_bench::drives::fill;
use pddm_bench::engine::{Engine, Geometry, fresh};

#[path = "document_02/line.rs"]
mod line;
#[path = "document_02/recovery.rs"]
mod recovery;
#[path = "document_02/waits.rs"]
mod waits;

type Entry = (usize, usize, usize);

/// A drive that calls have left: its geometry, its lines, and the entries of root and nodes that they left.
struct Aged<'a> {
    g: Geometry,
    lines: &'a [(u32, Option<u32>)],
    left: &'a [Entry],
}

/// Slots at 4, 7, 10 and 13. Hidden 1 is in slot 1, then hidden 0 in slot 0: the root leads to the leaf at 5,
/// and the one at 8 is stale.
const TWO_LEVELS: Aged = Aged {
    g: Geometry { block_size: 32, height: 2, publics: 3, hidden: 2, slots: 4 },
    lines: &[(0, None), (0, Some(1)), (1, None), (2, None), (2, Some(0))],
    left: &[(3, 0, 5), (5, 0, 6), (5, 1, 9), (5, 7, 0), (8, 0, 0), (8, 1, 9), (8, 7, 1)],
};

/// Slots at 4, 8, 12 and so on. Hidden 8 is in slot 0, then hidden 0 in slot 1: the root leads to the node at
/// 10, and that to the leaves at 9 and 5; the node at 6 is stale. Numbers 7 and 8 are in the second leaf.
const THREE_LEVELS: Aged = Aged {
    g: Geometry { block_size: 32, height: 3, publics: 1, hidden: 9, slots: 10 },
    lines: &[(0, Some(8)), (0, Some(0))],
    left: &[(3, 0, 10), (10, 0, 9), (10, 1, 5), (9, 0, 11), (9, 7, 0), (5, 1, 7), (5, 7, 8), (6, 1, 5)],
};

impl Aged<'_> {
    fn drive(&self, e: &Engine) -> Vec<u8> {
        let mut disk = fresh(e, self.g);
        fill(e, self.g, &mut disk, self.lines.iter().copied());
        for &(block, place, value) in self.left {
            assert_eq!(entry(&disk[32 * block..], place), value, "{}: block {block}, {place}", e.name);
        }
        disk
    }

    /// With these entries changed, the answer is to be this one, and no byte is changed.
    fn answers(&self, expected: u32, changes: &[Entry]) {
        for e in ENGINES {
            let mut disk = self.drive(&e);
            changes
                .iter()
                .for_each(|&(block, place, value)| put_entry(&mut disk[32 * block..], place, value));
            let before = disk.clone();
            let got = (e.check_tree)(&disk).err().unwrap_or(0);
            assert_eq!(expected, got, "expected, got by {}: {changes:?}", e.name);
            assert!(disk == before, "{} changed the disk: {changes:?}", e.name);
        }
    }
}

#[test]
fn refusals_of_the_drive_come_first() {
    TWO_LEVELS.answers(1, &[(0, 0, 48), (0, 5, 4), (3, 0, 6)]);
    TWO_LEVELS.answers(3, &[(0, 5, 4), (3, 0, 6)]);
    for e in ENGINES {
        let disk = TWO_LEVELS.drive(&e);
        assert_eq!((e.check_tree)(&disk[..23]), Err(1));
        assert_eq!((e.check_tree)(&disk[..511]), Err(2));
    }
}

/// Fresh and aged; led back to a stale node; changed where no entry leads; with hidden 8 made hidden 7.
#[test]
fn trees_that_pass() {
    for e in ENGINES {
        assert_eq!((e.check_tree)(&fresh(&e, TWO_LEVELS.g)), Ok(()));
    }
    TWO_LEVELS.answers(0, &[]);
    TWO_LEVELS.answers(0, &[(3, 0, 8)]);
    TWO_LEVELS.answers(0, &[(8, 0, 7), (11, 0, 7), (14, 7, 0)]);
    THREE_LEVELS.answers(0, &[]);
    THREE_LEVELS.answers(0, &[(3, 0, 6)]);
    THREE_LEVELS.answers(0, &[(5, 1, 0), (5, 0, 7), (5, 7, 7)]);
}

#[test]
fn ill_formed_entries() {
    TWO_LEVELS.answers(13, &[(3, 0, 6)]);
    TWO_LEVELS.answers(13, &[(3, 1, 6)]);
    TWO_LEVELS.answers(13, &[(5, 1, 8)]);
    TWO_LEVELS.answers(13, &[(5, 1, 3)]);
    TWO_LEVELS.answers(13, &[(5, 1, 18)]);
    THREE_LEVELS.answers(13, &[(3, 0, 9)]);
    THREE_LEVELS.answers(13, &[(10, 7, 6)]);
    THREE_LEVELS.answers(13, &[(5, 2, 10)]);
}

#[test]
fn entries_past_the_hidden_numbers() {
    TWO_LEVELS.answers(14, &[(5, 2, 12), (11, 7, 2)]);
    TWO_LEVELS.answers(14, &[(3, 1, 8)]);
    TWO_LEVELS.answers(14, &[(3, 7, 8)]);
    TWO_LEVELS.answers(14, &[(5, 0, 0), (5, 2, 6), (5, 7, 2)]);
    THREE_LEVELS.answers(14, &[(3, 1, 10)]);
    THREE_LEVELS.answers(14, &[(10, 2, 5)]);
    THREE_LEVELS.answers(14, &[(10, 7, 5)]);
    THREE_LEVELS.answers(14, &[(5, 2, 11)]);
}

/// The owner is another's number, unmapped, damaged, or beyond the tree, where a walk without bounds would
/// take its path.
#[test]
fn slots_of_other_owners() {
    TWO_LEVELS.answers(15, &[(5, 0, 0)]);
    TWO_LEVELS.answers(15, &[(5, 0, 0), (5, 7, 1)]);
    TWO_LEVELS.answers(15, &[(5, 1, 12)]);
    TWO_LEVELS.answers(15, &[(5, 0, 5)]);
    TWO_LEVELS.answers(15, &[(5, 7, 56)]);
    THREE_LEVELS.answers(15, &[(10, 0, 5)]);
    THREE_LEVELS.answers(15, &[(10, 1, 9)]);
    THREE_LEVELS.answers(15, &[(9, 1, 7)]);
    THREE_LEVELS.answers(15, &[(9, 7, 8)]);
    THREE_LEVELS.answers(15, &[(5, 7, 7)]);
    THREE_LEVELS.answers(15, &[(5, 1, 6)]);
}

/// A node comes before the next entry, and an entry before its node.
#[test]
fn first_entry_met_decides() {
    TWO_LEVELS.answers(15, &[(3, 1, 8), (5, 1, 12)]);
    TWO_LEVELS.answers(13, &[(3, 1, 8), (5, 1, 8)]);
    THREE_LEVELS.answers(15, &[(9, 1, 7), (10, 1, 4)]);
    THREE_LEVELS.answers(14, &[(5, 2, 11), (3, 1, 4)]);
    THREE_LEVELS.answers(13, &[(5, 2, 4), (10, 2, 5)]);
    THREE_LEVELS.answers(15, &[(9, 7, 8), (10, 2, 4)]);
}

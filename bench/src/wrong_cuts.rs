//! Mappers that are wrong with cut writes and recoveries, each in one thing, made of plain Rust's: the
//! differential test is to find them.
use crate::drive::{Drive, check, entry};
use crate::engine::{Cut, Engine, Write, Written};
use crate::plain::PLAIN;
use crate::recoveries::WINDOW;

/// To be found beside plain Rust's, by a difference.
pub const WRONG_CUTS: [Engine; 12] = [
    Engine { name: "root first", write_cut: root_first_cut, ..PLAIN },
    Engine { name: "nodes from the top", write_cut: top_down_cut, ..PLAIN },
    Engine { name: "map first", write_cut: map_first_cut, ..PLAIN },
    Engine { name: "one store too many", write_cut: one_too_many, ..PLAIN },
    Engine { name: "tail of the list touched", write_cut: tail_touched, ..PLAIN },
    Engine { name: "9 by the bound", write_cut: nine_by_bound, ..PLAIN },
    Engine { name: "whole told as cut", write_cut: whole_told_as_cut, ..PLAIN },
    MARKS_ADDED,
    PADDING_KEPT,
    Engine { name: "shared entries allowed", recover: shared_allowed, ..PLAIN },
    Engine { name: "entries past P judged", recover: past_p_judged, ..PLAIN },
    Engine { name: "bits cleared before 17", recover: cleared_before_17, ..PLAIN },
];

const MARKS_ADDED: Engine = Engine { name: "marks only added", recover: marks_added, ..PLAIN };
const PADDING_KEPT: Engine = Engine { name: "padding kept", recover: padding_kept, ..PLAIN };

/// To be found beside plain Rust's on a drive with many slots.
pub const WRONG_WINDOWS: [Engine; 2] = [
    Engine { name: "one window", recover: one_window, ..PLAIN },
    Engine { name: "last slot of a window missed", recover: last_slot_missed, ..PLAIN },
];

/// To be found alone, by what is promised of cuts: the words in which they are found, and the mapper. Whole
/// writes of these have the same order of stores.
pub const TORN: [(&str, Engine); 5] = [
    (
        "the tree check no longer passes",
        Engine { name: "root first", write: root_first, write_cut: root_first_cut, ..PLAIN },
    ),
    (
        "the tree check no longer passes",
        Engine { name: "nodes from the top", write: top_down, write_cut: top_down_cut, ..PLAIN },
    ),
    (
        "shows another block than is due",
        Engine { name: "map first", write: map_first, write_cut: map_first_cut, ..PLAIN },
    ),
    ("a recovery of a torn bitmap", MARKS_ADDED),
    ("a recovery of a torn bitmap", PADDING_KEPT),
];

/// A store: its address and its block.
type Store = (u32, Vec<u8>);

/// Bends the order of a round's stores as far as the one behind its root: A to A + k, the root, and the map
/// block or the header.
type Order = fn(&Drive, &mut [Store]);

/// The stores of a whole write that is not refused.
fn stores_of(v: &Drive, disk: &[u8], call: &Write, list: &[u32], stores: u32) -> Vec<Store> {
    let store = |bound: usize| {
        let (mut disk, mut list) = (disk.to_vec(), list.to_vec());
        (PLAIN.write_cut)(&mut disk, call, &mut list, bound);
        (list[bound - 1], v.block(&disk, list[bound - 1] as usize).to_vec())
    };
    (1..=stores as usize).map(store).collect()
}

/// The first so many stores of a write that makes those of each round in another order; what the whole write
/// reports.
fn in_order(disk: &mut [u8], call: &Write, list: &mut [u32], bound: usize, order: Order) -> Written {
    let written = (PLAIN.write)(&mut disk.to_vec(), call, &mut list.to_vec());
    if written.answer == 0 {
        let (v, _) = Drive::open(disk).expect("a drive that is not refused");
        let mut stores = stores_of(&v, disk, call, list, written.stores);
        stores.chunks_exact_mut(v.k + 3).for_each(|round| order(&v, round));
        for ((address, block), listed) in stores.iter().take(bound).zip(list) {
            disk[*address as usize * v.b..][..v.b].copy_from_slice(block);
            *listed = *address;
        }
    }
    written
}

/// The root is stored before the slot.
fn root_then_slot(v: &Drive, round: &mut [Store]) {
    round[..v.k + 2].rotate_right(1);
}

fn root_first(disk: &mut [u8], call: &Write, list: &mut [u32]) -> Written {
    in_order(disk, call, list, usize::MAX, root_then_slot)
}

fn root_first_cut(disk: &mut [u8], call: &Write, list: &mut [u32], bound: usize) -> Cut {
    let whole = in_order(disk, call, list, bound, root_then_slot);
    Cut::of(whole.answer, whole.stores, bound)
}

/// The nodes below the root are stored from the highest level on.
fn nodes_from_top(v: &Drive, round: &mut [Store]) {
    round[1..v.k].reverse();
}

fn top_down(disk: &mut [u8], call: &Write, list: &mut [u32]) -> Written {
    in_order(disk, call, list, usize::MAX, nodes_from_top)
}

fn top_down_cut(disk: &mut [u8], call: &Write, list: &mut [u32], bound: usize) -> Cut {
    let whole = in_order(disk, call, list, bound, nodes_from_top);
    Cut::of(whole.answer, whole.stores, bound)
}

/// The map block is stored before the slot.
fn map_then_slot(v: &Drive, round: &mut [Store]) {
    if (1..v.bitmap).contains(&(round[v.k + 2].0 as usize)) {
        round.rotate_right(1);
    }
}

fn map_first(disk: &mut [u8], call: &Write, list: &mut [u32]) -> Written {
    in_order(disk, call, list, usize::MAX, map_then_slot)
}

fn map_first_cut(disk: &mut [u8], call: &Write, list: &mut [u32], bound: usize) -> Cut {
    let whole = in_order(disk, call, list, bound, map_then_slot);
    Cut::of(whole.answer, whole.stores, bound)
}

/// One store more is made than is told and listed.
fn one_too_many(disk: &mut [u8], call: &Write, list: &mut [u32], bound: usize) -> Cut {
    let mut longer = list.to_vec();
    let whole = (PLAIN.write)(&mut disk.to_vec(), call, &mut list.to_vec());
    (PLAIN.write_cut)(disk, call, &mut longer, bound.saturating_add(1));
    let cut = Cut::of(whole.answer, whole.stores, bound);
    list[..cut.stores as usize].copy_from_slice(&longer[..cut.stores as usize]);
    cut
}

/// The first store that is left out is listed.
fn tail_touched(disk: &mut [u8], call: &Write, list: &mut [u32], bound: usize) -> Cut {
    let mut one_more = disk.to_vec();
    let cut = (PLAIN.write_cut)(disk, call, &mut list.to_vec(), bound);
    (PLAIN.write_cut)(&mut one_more, call, list, bound.saturating_add(cut.cut as usize));
    cut
}

/// A bound below the stores is refused as a list that is too short.
fn nine_by_bound(disk: &mut [u8], call: &Write, list: &mut [u32], bound: usize) -> Cut {
    let room = bound.min(list.len());
    let whole = (PLAIN.write)(disk, call, &mut list[..room]);
    Cut::of(whole.answer, whole.stores, bound)
}

/// A write whose last store is the last that may be is told as cut.
fn whole_told_as_cut(disk: &mut [u8], call: &Write, list: &mut [u32], bound: usize) -> Cut {
    let cut = (PLAIN.write_cut)(disk, call, list, bound);
    let is_last = cut.answer == 0 && cut.stores as usize == bound;
    Cut { cut: u32::from(is_last), ..cut }
}

/// A recovery after which bits are set anew, from those that were there and those that are right.
fn with_bits(disk: &mut [u8], bits: impl Fn(&Drive, usize, u8, u8) -> u8) -> Result<(), u32> {
    let before = disk.to_vec();
    (PLAIN.recover)(disk)?;
    let (v, _) = Drive::open(&before)?;
    for (i, byte) in disk[v.bits()].iter_mut().enumerate() {
        *byte = bits(&v, i, before[v.bits()][i], *byte);
    }
    Ok(())
}

/// Marks that are missing are added, and none is taken.
fn marks_added(disk: &mut [u8]) -> Result<(), u32> {
    with_bits(disk, |_, _, was, is| was | is)
}

/// Bits past the data area stay.
fn padding_kept(disk: &mut [u8]) -> Result<(), u32> {
    with_bits(disk, |v, i, was, is| {
        let inside = (v.m * (v.k + 1)).saturating_sub(8 * i).min(8);
        is | (u16::from(was) >> inside << inside) as u8
    })
}

/// A recovery that judges only some slots by whether two numbers have their place there.
fn judging(disk: &mut [u8], is_judged: impl Fn(usize) -> bool) -> Result<(), u32> {
    let (v, _) = Drive::open(disk)?;
    let mut places = v.mapped(disk).collect::<Vec<_>>();
    places.sort_unstable();
    check(places.iter().any(|at| !v.is_at(0, *at)), 17)?;
    check(places.windows(2).any(|two| two[0] == two[1] && is_judged(v.slot_of(two[0]))), 17)?;
    disk[v.bits()].fill(0);
    places.iter().for_each(|at| disk[v.bits()][(at - v.d) / 8] |= 1 << ((at - v.d) % 8));
    Ok(())
}

/// Two numbers may have one place.
fn shared_allowed(disk: &mut [u8]) -> Result<(), u32> {
    judging(disk, |_| false)
}

/// Past the first window they may.
fn one_window(disk: &mut [u8]) -> Result<(), u32> {
    judging(disk, |slot| slot < WINDOW as usize)
}

/// In the last slot of a window they may.
fn last_slot_missed(disk: &mut [u8]) -> Result<(), u32> {
    judging(disk, |slot| (slot + 1) % WINDOW as usize != 0)
}

/// An entry that is no number's has to be a slot's block too.
fn past_p_judged(disk: &mut [u8]) -> Result<(), u32> {
    let (v, _) = Drive::open(disk)?;
    let entries = (v.p..(v.bitmap - 1) * v.f).map(|index| entry(&disk[v.b..], index));
    check(entries.into_iter().any(|at| at != 0 && !v.is_at(0, at)), 17)?;
    (PLAIN.recover)(disk)
}

/// The bitmap is cleared, and then the map is judged.
fn cleared_before_17(disk: &mut [u8]) -> Result<(), u32> {
    let (v, _) = Drive::open(disk)?;
    disk[v.bits()].fill(0);
    (PLAIN.recover)(disk)
}

//! Recoveries (document 02, K5), held on several mappers: of drives with other map entries and bits, made
//! again, of a bitmap that is torn, and of a drive with many slots.
use crate::calls::{Call, Given};
use crate::drive::{Drive, entry, put_entry};
use crate::drives::any_entry;
use crate::engine::{Engine, Geometry, fresh};
use crate::held::Held;
use crate::met::Met;
use crate::plain::PLAIN;
use crate::random::Random;

/// Whether a drive may be cut: it passes the tree check, 17 does not meet it, and its marks are just its
/// mapped places.
pub fn may_be_cut(disk: &[u8]) -> bool {
    let (v, _) = Drive::open(disk).expect("a drive that is not refused");
    let mut recovered = disk.to_vec();
    (PLAIN.check_tree)(disk).is_ok()
        && (PLAIN.recover)(&mut recovered).is_ok()
        && (0..v.m).all(|slot| v.marked(disk, slot) == v.marked(&recovered, slot))
}

/// Changes what a drive that may be cut is free to have: entries past P, and bits that are no slot's mark,
/// those of hidden blocks and those past the data area.
pub fn bend_free(r: &mut Random, disk: &mut [u8]) {
    let (v, _) = Drive::open(disk).expect("a drive that is not refused");
    for index in v.p..(v.bitmap - 1) * v.f {
        put_entry(&mut disk[v.b..], index, any_entry(r, &v));
    }
    let slots = v.m * (v.k + 1);
    for bit in 0..8 * v.bits().len() {
        if (bit >= slots || bit % (v.k + 1) != 0) && r.one_in(2) {
            disk[v.bits()][bit / 8] ^= 1 << (bit % 8);
        }
    }
}

/// Changes map entries, one of them now and then to that of another number, and bits.
pub fn bend_map(r: &mut Random, disk: &mut [u8]) {
    let (v, _) = Drive::open(disk).expect("a drive that is not refused");
    for _ in 0..r.below(3) {
        let (number, other) = (r.below(v.p as u64) as usize, r.below(v.p as u64) as usize);
        let value = match r.below(3) {
            0 => any_entry(r, &v),
            1 => v.start(r.below(v.m as u64) as usize),
            _ => entry(&disk[v.b..], other),
        };
        put_entry(&mut disk[v.b..], number, value);
    }
    match r.below(3) {
        0 => disk[v.bits()].copy_from_slice(&r.bytes(v.bits().len())),
        1 => bend_free(r, disk),
        _ => {}
    }
}

/// What a recovery did, by the disk before and after it.
fn done(answer: Result<(), u32>, before: &[u8], after: &[u8]) -> Vec<&'static str> {
    let (v, _) = Drive::open(before).expect("a drive that is not refused");
    let map = &before[v.b..];
    let shared = |i: usize| (0..v.p).any(|n| n != i && entry(map, i) != 0 && entry(map, n) == entry(map, i));
    let is_free = |i: usize| entry(map, i) == 0 || v.is_at(0, entry(map, i));
    let [no_place, twice] = [(0..v.p).any(|i| !is_free(i)), (0..v.p).any(shared)];
    let [was, is] = [before, after].map(|disk| move |slot| v.marked(disk, slot));
    let padding = before[v.bits()].iter().zip(&after[v.bits()]).rev().take_while(|(_, is)| **is == 0);
    let shown = match answer {
        Err(_) => vec![
            (no_place && !twice, "17 for no slot's block"),
            (twice && !no_place, "17 for a shared entry"),
            (no_place && twice, "17 for both"),
        ],
        Ok(()) => vec![
            ((v.p..(v.bitmap - 1) * v.f).any(|i| !is_free(i)), "no block past P"),
            ((v.p..(v.bitmap - 1) * v.f).any(shared), "shared past P"),
            ((0..v.m).any(|slot| is(slot) && !was(slot)), "mark set"),
            ((0..v.m).any(|slot| was(slot) && !is(slot)), "mark cleared"),
            (padding.clone().any(|(was, _)| *was != 0), "padding cleared"),
            (before == after, "as it was"),
        ],
    };
    shown.into_iter().filter_map(|(holds, label)| holds.then_some(label)).collect()
}

/// Recovers equal drives, held; then once more, and with other bits in the bitmap before it: both are to
/// leave the same.
pub fn recover_again(r: &mut Random, drives: &mut Held, met: &mut Met) -> Result<Result<(), u32>, String> {
    let before = drives.disks[0].clone();
    let Given::Recovered(answer) = drives.call(&Call::Recover, met)? else { unreachable!() };
    done(answer, &before, &drives.disks[0]).into_iter().for_each(|label| met.count("of recoveries", label));
    let (v, _) = Drive::open(&before).expect("a drive that is not refused");
    let recovered = drives.disks[0].clone();
    let mut torn = before;
    torn[v.bits()].copy_from_slice(&r.bytes(v.bits().len()));
    for (how, disk) in [("once more", recovered.clone()), ("of a torn bitmap", torn)] {
        let mut drives = drives.again(disk.clone());
        let given = drives.call(&Call::Recover, met)?;
        let due = if answer.is_ok() { &recovered } else { &disk };
        if given != Given::Recovered(answer) || drives.disks[0] != *due {
            return Err(format!("a recovery {how} answers or leaves something else"));
        }
    }
    Ok(answer)
}

/// For so many slots at a time the proved recovery goes through all map entries.
pub const WINDOW: u32 = 32_768;

/// Slots 0 to the last of four windows, of which the last has one slot.
const WINDOWS: Geometry =
    Geometry { block_size: 32, height: 2, publics: 12, hidden: 1, slots: 3 * WINDOW + 1 };

/// The first and the last slots of the windows, and some beside them.
const EDGES: [u32; 10] = [
    0,
    1,
    WINDOW - 2,
    WINDOW - 1,
    WINDOW,
    2 * WINDOW - 1,
    2 * WINDOW,
    2 * WINDOW + 1,
    3 * WINDOW - 1,
    3 * WINDOW,
];

/// A recovery of equal drives on which the last number has this entry is to answer this.
fn hold_entry(drives: &mut Held, at: usize, due: Result<(), u32>) -> Result<(), String> {
    drives.disks.iter_mut().for_each(|disk| put_entry(&mut disk[32..], EDGES.len(), at));
    match drives.call(&Call::Recover, &mut Met::default())? {
        Given::Recovered(answer) if answer == due => Ok(()),
        given => Err(format!("{} with an entry {at} more, not {due:?}", given.told())),
    }
}

/// Recoveries of a drive with a number's place at each edge of the windows, and one number more: placed
/// beside these, where one of them is, or in no slot's block.
pub fn hold_windows(engines: &[Engine]) -> Result<(), String> {
    let v = Drive::of(WINDOWS).expect("a geometry within the limits");
    let mut disk = fresh(&PLAIN, WINDOWS);
    let starts = EDGES.map(|slot| v.start(slot as usize));
    starts.iter().enumerate().for_each(|(number, at)| put_entry(&mut disk[v.b..], number, *at));
    let mut drives = Held::new(engines, disk, false);
    hold_entry(&mut drives, 0, Ok(()))?;
    hold_entry(&mut drives, v.start(WINDOW as usize + 1), Ok(()))?;
    for at in starts {
        hold_entry(&mut drives, at, Err(17))?;
        hold_entry(&mut drives, at + 1, Err(17))?;
    }
    hold_entry(&mut drives, v.t, Err(17))?;
    hold_entry(&mut drives, v.start(WINDOW as usize - 3), Ok(()))
}

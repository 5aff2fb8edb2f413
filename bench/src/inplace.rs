//! A mapper that changes the drive in place, as fast as it can be had: a block that is kept is only listed,
//! and a block with some bytes changed has just these changed. It leaves what the others leave.
use crate::allowed::{self, Allowed, Half, Public};
use crate::drive::{Drive, Nodes, check, put_entry};
use crate::engine::{Engine, LineWrite, LineWritten, Offer, Wait, Write, Written};
use crate::plain::PLAIN;
use std::arch::x86_64::{_MM_HINT_T0, _mm_prefetch};

/// Formatting, the other questions, reads, entries and the whole-tree check copy no block, and are plain
/// Rust's. So is a write that is cut: here blocks are not stored one by one, and the head moves once a call.
pub const IN_PLACE: Engine =
    Engine { name: "in-place Rust", wait_rounds, write, write_line, recover, ..PLAIN };

/// Goes by the numbers: the slot that a number's walk ends in is live if the number owns it.
fn wait_rounds(disk: &[u8]) -> Wait {
    let told = Drive::open(disk).map(|(v, head)| {
        let mut live = vec![false; v.m];
        for number in 0..v.h {
            if let Ok((Some(end), _)) = v.walk(disk, number) {
                live[v.slot_of(end)] |= v.owner(disk, end - v.k) == number;
            }
        }
        live.rotate_left(head);
        Wait::of(live)
    });
    told.unwrap_or_else(Wait::refused)
}

fn block_mut<'a>(v: &Drive, disk: &'a mut [u8], address: usize) -> &'a mut [u8] {
    &mut disk[address * v.b..][..v.b]
}

/// Brings bytes near while other work is done: a slot was last used M rounds ago and is far from the
/// processor.
fn prefetch(bytes: &[u8]) {
    for line in bytes.chunks(64) {
        unsafe { _mm_prefetch::<_MM_HINT_T0>(line.as_ptr().cast()) };
    }
}

/// The path of a number in the slot at A: each node brought here, then linked.
fn plant(v: &Drive, disk: &mut [u8], nodes: &Nodes, number: usize, a: usize) {
    for level in 1..=v.k {
        let to = if level == v.k { v.root } else { a + level };
        match nodes[level] {
            None => block_mut(v, disk, to).fill(0),
            Some(from) if from != to => disk.copy_within(from * v.b..(from + 1) * v.b, to * v.b),
            Some(_) => {}
        }
        v.link(block_mut(v, disk, to), level, number, a);
    }
}

fn make_rounds(disk: &mut [u8], public: &Public, allowed: &mut Allowed, list: &mut [u32]) {
    let (v, rounds, mut slot) = (allowed.v, allowed.needs.rounds as usize, allowed.head);
    let mut listed = list.iter_mut();
    let mut enter = |address: usize| *listed.next().unwrap() = address as u32;
    let width = v.k * v.b;
    for i in 0..rounds {
        let a = v.start(slot);
        prefetch(&disk[a * v.b..][..(v.k + 1) * v.b]);
        match allowed.half(disk, a) {
            Half::Back => {}
            Half::Fill => {
                disk[(a + 1) * v.b..][..width].copy_from_slice(&public.random[i * width..][..width])
            }
            Half::Path(number, nodes, data) => {
                plant(&v, disk, &nodes, number, a);
                if let Some(data) = data {
                    block_mut(&v, disk, a + v.k).copy_from_slice(data);
                }
            }
        }
        (a..=a + v.k).for_each(&mut enter);
        enter(v.root);
        if i + 1 == rounds {
            block_mut(&v, disk, a).copy_from_slice(public.data);
            let (map, place) = v.map_place(public.number);
            put_entry(block_mut(&v, disk, map), place, a);
            enter(map);
            let (new, byte, weight) = v.bit(slot);
            block_mut(&v, disk, new)[byte] |= weight;
            enter(new);
            if allowed.old != 0 {
                let (address, byte, weight) = v.bit(v.slot_of(allowed.old));
                block_mut(&v, disk, address)[byte] &= !weight;
                if address != new {
                    enter(address);
                }
            }
        }
        enter(0);
        slot = if slot + 1 == v.m { 0 } else { slot + 1 };
    }
    put_entry(disk, 5, slot);
}

fn write(disk: &mut [u8], call: &Write, list: &mut [u32]) -> Written {
    allowed::write(disk, call, list, make_rounds)
}

fn write_line(disk: &mut [u8], call: &LineWrite, line: &mut [Offer], list: &mut [u32]) -> LineWritten {
    allowed::write_line(disk, call, line, list, make_rounds)
}

/// Goes by the mapped places in their order: one that two numbers share stands there twice in a row.
fn recover(disk: &mut [u8]) -> Result<(), u32> {
    let (v, _) = Drive::open(disk)?;
    let mut places = v.mapped(disk).collect::<Vec<_>>();
    places.sort_unstable();
    check(places.iter().any(|at| !v.is_at(0, *at)), 17)?;
    check(places.windows(2).any(|two| two[0] == two[1]), 17)?;
    disk[v.bits()].fill(0);
    for at in places {
        let (address, byte, weight) = v.bit(v.slot_of(at));
        block_mut(&v, disk, address)[byte] |= weight;
    }
    Ok(())
}

//! Purpose-made changes of a tree that passes the whole-tree check: damage where the check goes, on the nodes
//! of a number's path and on owners; and nodes moved, by which it still passes.
use crate::drive::{Drive, Nodes, entry, put_entry};
use crate::drives::any_entry;
use crate::random::Random;

/// A hidden number, its data's address and the nodes on the way to it; of a damaged walk the root alone.
struct Path {
    number: usize,
    end: Option<usize>,
    nodes: Nodes,
}

fn any_path(r: &mut Random, v: &Drive, disk: &[u8]) -> Path {
    path_of(v, disk, r.below(v.h as u64) as usize)
}

fn path_of(v: &Drive, disk: &[u8], number: usize) -> Path {
    let mut root = [None; 5];
    root[v.k] = Some(v.root);
    let (end, nodes) = v.walk(disk, number).unwrap_or((None, root));
    Path { number, end, nodes }
}

/// The place of an entry in a node of a level: the one on the number's way, or any but a leaf's last.
fn any_place(r: &mut Random, v: &Drive, number: usize, level: usize) -> usize {
    let last = if level == 1 { v.f - 1 } else { v.f };
    if r.one_in(2) { v.branch(number, level - 1) } else { r.below(last as u64) as usize }
}

/// What an entry that leads to a level becomes: 0, an address of that level, one that would be if the data
/// area went on before or behind, or any entry.
fn any_value(r: &mut Random, v: &Drive, level: usize) -> usize {
    let place = if level == 0 { v.k } else { level };
    match r.below(6) {
        0 => 0,
        1 | 2 => v.start(r.below(v.m as u64) as usize) + place,
        3 => r.pick(&[(v.d + place).saturating_sub(v.k + 1), v.t + place, u32::MAX as usize - place]),
        _ => any_entry(r, v),
    }
}

/// Changes one entry of a node of any level; where the path ends above it, of the last node there.
fn change_entry(r: &mut Random, v: &Drive, disk: &mut [u8]) -> &'static str {
    let path = any_path(r, v, disk);
    let lowest = 1 + r.below(v.k as u64) as usize;
    let level = (lowest..=v.k).find(|&level| path.nodes[level].is_some()).unwrap();
    let place = any_place(r, v, path.number, level);
    let value = any_value(r, v, level - 1);
    put_entry(&mut disk[path.nodes[level].unwrap() * v.b..], place, value);
    match level {
        1 => "leaf entry",
        _ if level == v.k => "root entry",
        _ => "node entry",
    }
}

/// Changes the owner of a number's slot, or of any slot for a number that has none: to another number of the
/// drive, to H, or to one beyond the tree, where a walk without bounds would take the same path. A tree with
/// B 4,096 and k 4 has more numbers than an entry can hold: there the last 32 bits of it.
fn change_owner(r: &mut Random, v: &Drive, disk: &mut [u8]) -> &'static str {
    let path = any_path(r, v, disk);
    let slot = path.end.map_or_else(|| r.below(v.m as u64) as usize, |end| v.slot_of(end));
    let (any, tree) = (r.below(v.h as u64) as usize, v.width(v.k));
    let owner = r.pick(&[any, path.number ^ 1, v.h, tree, path.number + tree, u32::MAX as usize]);
    put_entry(&mut disk[(v.start(slot) + 1) * v.b..], v.f - 1, owner);
    "owner"
}

/// Swaps two entries of one level, in one node or in two.
fn swap_entries(r: &mut Random, v: &Drive, disk: &mut [u8]) -> &'static str {
    let paths = [any_path(r, v, disk), any_path(r, v, disk)];
    let lowest = 1 + r.below(v.k as u64) as usize;
    let reached = |level: &usize| paths.iter().all(|path| path.nodes[*level].is_some());
    let level = (lowest..=v.k).find(reached).unwrap();
    let ends = paths.map(|path| path.nodes[level].unwrap() * v.f + any_place(r, v, path.number, level));
    let values = ends.map(|index| entry(disk, index));
    put_entry(disk, ends[0], values[1]);
    put_entry(disk, ends[1], values[0]);
    "two swapped"
}

/// Gives a number's slot, in leaf and owner, to any number of its leaf, also to one that is H or more; a
/// number that has none is left alone.
fn renumber(r: &mut Random, v: &Drive, disk: &mut [u8]) -> &'static str {
    if let Path { number, end: Some(end), nodes } = any_path(r, v, disk) {
        let (old, new) = (number % (v.f - 1), r.below(v.f as u64 - 1) as usize);
        let leaf = &mut disk[nodes[1].unwrap() * v.b..];
        put_entry(leaf, old, 0);
        put_entry(leaf, new, end);
        put_entry(&mut disk[(v.start(v.slot_of(end)) + 1) * v.b..], v.f - 1, number - old + new);
    }
    "renumbered"
}

fn damage_once(r: &mut Random, v: &Drive, disk: &mut [u8]) -> &'static str {
    match r.below(6) {
        0 => change_owner(r, v, disk),
        1 => swap_entries(r, v, disk),
        2 => renumber(r, v, disk),
        _ => change_entry(r, v, disk),
    }
}

/// Damages the tree of a drive in one place or in two; gives what was done.
pub fn damage_tree(r: &mut Random, disk: &mut [u8]) -> &'static str {
    let (v, _) = Drive::open(disk).expect("a drive that is not refused");
    let done = damage_once(r, &v, disk);
    if r.one_in(3) {
        damage_once(r, &v, disk);
        return "two damages";
    }
    done
}

/// Moves the node of a level that is on two numbers' ways to the slot of the second, which is the head's as
/// often as not; where there is none it stays. A tree that passes the check still does. Calls leave no such
/// tree, in which a node stands in a slot without those below it.
pub fn move_node(r: &mut Random, disk: &mut [u8]) {
    let (v, head) = Drive::open(disk).expect("a drive that is not refused");
    let level = 1 + r.below(v.k as u64 - 1) as usize;
    let owner = v.owner(disk, v.start(head));
    let one = any_path(r, &v, disk);
    let other = if r.one_in(2) && owner < v.h { path_of(&v, disk, owner) } else { any_path(r, &v, disk) };
    let (Some(from), Some(end)) = (one.nodes[level], other.end) else { return };
    if other.nodes[level] == Some(from) {
        let to = v.start(v.slot_of(end)) + level;
        disk.copy_within(from * v.b..(from + 1) * v.b, to * v.b);
        if level == 1 {
            put_entry(&mut disk[to * v.b..], v.f - 1, other.number);
        }
        put_entry(&mut disk[one.nodes[level + 1].unwrap() * v.b..], v.branch(one.number, level), to);
    }
}

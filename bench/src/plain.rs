//! A mapper written from documents 01 and 02 (K2, K3, K5, K7, K12) in plain Rust: one store function, whole
//! blocks, the documents' checks and no others. The proved mapper is measured and held against it.
use crate::allowed::{self, Allowed, Half, Public};
use crate::drive::{Drive, check, put_entry};
use crate::engine::{
    Cut, Engine, Geometry, Identified, LineWrite, LineWritten, Needs, Offer, Shown, Size, Wait, Write,
    Written,
};
use crate::line::{enter, handed_over, waiting_for};
use crate::tree::check_tree;

pub const PLAIN: Engine = Engine {
    name: "plain Rust",
    format,
    identify,
    drive_size,
    public_read,
    hidden_read,
    needs,
    check_tree,
    wait_rounds,
    write,
    enter,
    write_line,
    hidden_read_line,
    write_cut,
    write_line_cut,
    recover,
};

fn format(disk: &mut [u8], g: Geometry) -> Result<(), u32> {
    let v = Drive::sized(g, disk.len())?;
    disk[..v.d * v.b].fill(0);
    [v.b, v.k, v.p, v.h, v.m].into_iter().enumerate().for_each(|(i, x)| put_entry(disk, i, x));
    Ok(())
}

fn identify(disk: &[u8]) -> Identified {
    let told = Drive::open(disk).map(|(v, head)| {
        let [block_size, height, publics, hidden, slots, head] =
            [v.b, v.k, v.p, v.h, v.m, head].map(|x| x as u32);
        Identified { answer: 0, geometry: Geometry { block_size, height, publics, hidden, slots }, head }
    });
    told.unwrap_or_else(Identified::refused)
}

fn drive_size(g: Geometry) -> Size {
    let told = |v: Drive| Size { answer: 0, blocks: v.t as u32, bytes: (v.t * v.b) as u64 };
    Drive::of(g).map_or(Size::REFUSED, told)
}

fn public_read<'a>(disk: &'a [u8], number: u32, blank: &'a [u8]) -> Shown<'a> {
    let (v, _) = Drive::open(disk)?;
    let address = v.place(disk, number as usize, blank.len())?;
    Ok(if address == 0 { blank } else { v.block(disk, address) })
}

fn hidden_read<'a>(disk: &'a [u8], number: u32, blank: &'a [u8]) -> Shown<'a> {
    let (v, _) = Drive::open(disk)?;
    v.check_hidden(number as usize, blank.len())?;
    let (end, _) = v.walk(disk, number as usize)?;
    Ok(end.map_or(blank, |address| v.block(disk, address)))
}

/// The block that waits comes before the disk's, and no walk is made for it.
fn hidden_read_line<'a>(
    disk: &'a [u8],
    number: u32,
    blank: &'a [u8],
    blocks: &'a [u8],
    lent: &[Offer],
    waiting: u32,
) -> Shown<'a> {
    let (v, _) = Drive::open(disk)?;
    v.check_hidden(number as usize, blank.len())?;
    let line = &lent[..handed_over(lent, waiting)];
    waiting_for(&v, blocks, line, number).map_or_else(|| hidden_read(disk, number, blank), Ok)
}

fn needs(disk: &[u8], number: u32) -> Needs {
    let plan = Drive::open(disk).and_then(|(v, head)| v.plan(disk, head, number as usize, v.b));
    plan.map_or_else(Needs::refused, |(needs, _)| needs)
}

/// A slot is live if the walk for its owner, a hidden number, ends there.
fn wait_rounds(disk: &[u8]) -> Wait {
    let told = Drive::open(disk).map(|(v, head)| {
        let starts = (0..v.m).map(|i| v.start((head + i) % v.m));
        Wait::of(starts.map(|a| v.owner(disk, a) < v.h && v.leads_to(disk, v.owner(disk, a), a + v.k)))
    });
    told.unwrap_or_else(Wait::refused)
}

/// The disk and the list of a write; a block that is changed or written back passes through `block`.
struct Lent<'a> {
    v: Drive,
    disk: &'a mut [u8],
    list: std::slice::IterMut<'a, u32>,
    block: [u8; 4096],
}

/// Copies one whole block to its address and enters the address next in the list. Past the list's end no
/// store is made: a write that is cut has a list of so many entries.
fn store(disk: &mut [u8], list: &mut std::slice::IterMut<u32>, address: usize, block: &[u8]) {
    if let Some(next) = list.next() {
        disk[address * block.len()..][..block.len()].copy_from_slice(block);
        *next = address as u32;
    }
}

impl Lent<'_> {
    /// Stores at an address the block that stands at another, or zeros, with a change.
    fn store_changed(&mut self, from: Option<usize>, to: usize, change: impl FnOnce(&Drive, &mut [u8])) {
        let block = &mut self.block[..self.v.b];
        match from {
            Some(address) => block.copy_from_slice(self.v.block(self.disk, address)),
            None => block.fill(0),
        }
        change(&self.v, block);
        store(self.disk, &mut self.list, to, block);
    }

    fn store_again(&mut self, address: usize) {
        self.store_changed(Some(address), address, |_, _| ());
    }

    /// Stores the hidden blocks of the slot at A and the root. A node of level j is read from some A' + j,
    /// and of this slot only blocks below A + j are stored before it: what is read is what stood there before
    /// the round.
    fn store_half(&mut self, a: usize, half: Half, random: &[u8]) {
        let Drive { b, k, root, .. } = self.v;
        match half {
            Half::Back => (a + 1..=a + k).for_each(|address| self.store_again(address)),
            Half::Fill => {
                (0..k).for_each(|i| store(self.disk, &mut self.list, a + 1 + i, &random[i * b..][..b]))
            }
            Half::Path(number, nodes, data) => {
                for level in 1..k {
                    self.store_changed(nodes[level], a + level, |v, node| v.link(node, level, number, a));
                }
                match data {
                    Some(data) => store(self.disk, &mut self.list, a + k, data),
                    None => self.store_again(a + k),
                }
                return self.store_changed(Some(root), root, |v, node| v.link(node, k, number, a));
            }
        }
        self.store_again(root);
    }

    /// Map, new bit and old bit, for a number that is now in a slot and had this entry. Two bits in one
    /// bitmap block are one store.
    fn store_place(&mut self, number: usize, slot: usize, old: usize) {
        let (map, place) = self.v.map_place(number);
        self.store_changed(Some(map), map, |v, block| put_entry(block, place, v.start(slot)));
        let (new, byte, weight) = self.v.bit(slot);
        if old == 0 {
            return self.store_changed(Some(new), new, |_, block| block[byte] |= weight);
        }
        let (left, left_byte, left_weight) = self.v.bit(self.v.slot_of(old));
        self.store_changed(Some(new), new, |_, block| {
            block[byte] |= weight;
            if left == new {
                block[left_byte] &= !left_weight;
            }
        });
        if left != new {
            self.store_changed(Some(left), left, |_, block| block[left_byte] &= !left_weight);
        }
    }
}

fn make_rounds(disk: &mut [u8], public: &Public, allowed: &mut Allowed, list: &mut [u32]) {
    let (v, last) = (allowed.v, allowed.needs.rounds as usize - 1);
    let mut lent = Lent { v, disk, list: list.iter_mut(), block: [0; 4096] };
    for i in 0..=last {
        let slot = (allowed.head + i) % v.m;
        let a = v.start(slot);
        let half = allowed.half(lent.disk, a);
        if i == last {
            store(lent.disk, &mut lent.list, a, public.data)
        } else {
            lent.store_again(a)
        }
        lent.store_half(a, half, &public.random[i * v.k * v.b..]);
        if i == last {
            lent.store_place(public.number, slot, allowed.old);
        }
        lent.store_changed(Some(0), 0, |v, header| put_entry(header, 5, (slot + 1) % v.m));
    }
}

fn write(disk: &mut [u8], call: &Write, list: &mut [u32]) -> Written {
    allowed::write(disk, call, list, make_rounds)
}

fn write_line(disk: &mut [u8], call: &LineWrite, line: &mut [Offer], list: &mut [u32]) -> LineWritten {
    allowed::write_line(disk, call, line, list, make_rounds)
}

/// The rounds of a write as far as its first so many stores. What they read past these is no longer the
/// write's, and goes nowhere.
fn make_first(bound: usize) -> impl FnOnce(&mut [u8], &Public, &mut Allowed, &mut [u32]) {
    move |disk, public, allowed, list| {
        let made = bound.min(list.len());
        make_rounds(disk, public, allowed, &mut list[..made]);
    }
}

fn write_cut(disk: &mut [u8], call: &Write, list: &mut [u32], bound: usize) -> Cut {
    let Written { answer, stores, .. } = allowed::write(disk, call, list, make_first(bound));
    Cut::of(answer, stores, bound)
}

fn write_line_cut(disk: &mut [u8], call: &LineWrite, line: &[Offer], list: &mut [u32], bound: usize) -> Cut {
    let mut line = line.to_vec();
    let LineWritten { answer, stores, .. } =
        allowed::write_line(disk, call, &mut line, list, make_first(bound));
    Cut::of(answer, stores, bound)
}

/// The new bitmap is made beside the disk: an entry that two numbers share finds its bit set there, before a
/// byte of the disk is changed.
fn recover(disk: &mut [u8]) -> Result<(), u32> {
    let (v, _) = Drive::open(disk)?;
    let mut bits = vec![0; v.bits().len()];
    for at in v.mapped(disk) {
        check(!v.is_at(0, at), 17)?;
        let (byte, weight) = ((at - v.d) / 8, 1 << ((at - v.d) % 8));
        check(bits[byte] & weight != 0, 17)?;
        bits[byte] |= weight;
    }
    disk[v.bits()].copy_from_slice(&bits);
    Ok(())
}

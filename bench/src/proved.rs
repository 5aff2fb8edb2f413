//! The proved mapper, over its C interface (include/pddm.h), with slices in the place of pointers and
//! addresses.
//!
//! Every call is sound for all arguments: its pointers come from slices that live through the call, and disk,
//! line and list are borrowed alone where they are changed.
use crate::drive::check;
use crate::engine::{
    Cut, Engine, Entered, Geometry, Identified, LineWrite, LineWritten, Needs, Offer, Shown, Size, Wait,
    Write, Written,
};

pub const PROVED: Engine = Engine {
    name: "proved",
    format,
    identify,
    drive_size,
    public_read,
    hidden_read,
    needs,
    check_tree,
    wait_rounds,
    write,
    enter,
    write_line,
    hidden_read_line,
    write_cut,
    write_line_cut,
    recover,
};

/// `pddm_found`.
#[repr(C)]
pub struct Found {
    answer: u32,
    kind: u32,
    address: u32,
}

const REFUSED: u32 = 0;
const BLANK: u32 = 1;
const BLOCK: u32 = 2;
const LENT: u32 = 3;

#[rustfmt::skip]
unsafe extern "C" {
    fn pddm_format(
        disk: *mut u8, disk_len: usize, block_size: u32, height: u32, publics: u32, hidden: u32, slots: u32,
    ) -> u32;
    fn pddm_identify(disk: *const u8, disk_len: usize) -> Identified;
    fn pddm_drive_size(block_size: u32, height: u32, publics: u32, hidden: u32, slots: u32) -> Size;
    fn pddm_public_find(
        disk: *const u8, disk_len: usize, number: u32, blank: *const u8, blank_len: usize,
    ) -> Found;
    fn pddm_hidden_find(
        disk: *const u8, disk_len: usize, number: u32, blank: *const u8, blank_len: usize,
    ) -> Found;
    fn pddm_write(
        disk: *mut u8, disk_len: usize, number: u32, data: *const u8, data_len: usize,
        offered: bool, hidden_number: u32, hidden: *const u8, hidden_len: usize,
        random: *const u8, random_len: usize, list: *mut u32, list_len: usize,
    ) -> Written;
    fn pddm_write_needs(disk: *const u8, disk_len: usize, number: u32) -> Needs;
    fn pddm_check_tree(disk: *const u8, disk_len: usize) -> u32;
    fn pddm_wait_rounds(disk: *const u8, disk_len: usize) -> Wait;
    fn pddm_enter(
        disk: *const u8, disk_len: usize, number: u32, place: u32, blocks: *const u8, blocks_len: usize,
        line: *mut Offer, line_len: usize, waiting: u32,
    ) -> Entered;
    fn pddm_write_line(
        disk: *mut u8, disk_len: usize, number: u32, data: *const u8, data_len: usize,
        blocks: *const u8, blocks_len: usize, line: *mut Offer, line_len: usize, waiting: u32,
        random: *const u8, random_len: usize, list: *mut u32, list_len: usize,
    ) -> LineWritten;
    fn pddm_hidden_find_line(
        disk: *const u8, disk_len: usize, number: u32, blank: *const u8, blank_len: usize,
        blocks: *const u8, blocks_len: usize, line: *const Offer, line_len: usize, waiting: u32,
    ) -> Found;
    fn pddm_write_cut(
        disk: *mut u8, disk_len: usize, number: u32, data: *const u8, data_len: usize,
        offered: bool, hidden_number: u32, hidden: *const u8, hidden_len: usize,
        random: *const u8, random_len: usize, list: *mut u32, list_len: usize, bound: usize,
    ) -> Cut;
    fn pddm_write_line_cut(
        disk: *mut u8, disk_len: usize, number: u32, data: *const u8, data_len: usize,
        blocks: *const u8, blocks_len: usize, numbers: *const u32, numbers_len: usize,
        places: *const u32, places_len: usize, waiting: u32,
        random: *const u8, random_len: usize, list: *mut u32, list_len: usize, bound: usize,
    ) -> Cut;
    fn pddm_recover(disk: *mut u8, disk_len: usize) -> u32;
}

/// What a find says, as a part of the disk or of the lent blocks, or the blank. A good find's blank is one
/// block.
pub fn shown<'a>(disk: &'a [u8], blocks: &'a [u8], blank: &'a [u8], found: Found) -> Shown<'a> {
    let part = |of: &'a [u8]| &of[found.address as usize * blank.len()..][..blank.len()];
    match (found.kind, found.answer) {
        (BLOCK, 0) => Ok(part(disk)),
        (LENT, 0) => Ok(part(blocks)),
        (BLANK, 0) => Ok(blank),
        (REFUSED, answer) if answer != 0 => Err(answer),
        (kind, answer) => panic!("a find of kind {kind} with answer {answer}"),
    }
}

fn format(disk: &mut [u8], g: Geometry) -> Result<(), u32> {
    let (start, len) = (disk.as_mut_ptr(), disk.len());
    let answer = unsafe { pddm_format(start, len, g.block_size, g.height, g.publics, g.hidden, g.slots) };
    check(answer != 0, answer)
}

fn identify(disk: &[u8]) -> Identified {
    unsafe { pddm_identify(disk.as_ptr(), disk.len()) }
}

fn drive_size(g: Geometry) -> Size {
    unsafe { pddm_drive_size(g.block_size, g.height, g.publics, g.hidden, g.slots) }
}

fn public_read<'a>(disk: &'a [u8], number: u32, blank: &'a [u8]) -> Shown<'a> {
    let found = unsafe { pddm_public_find(disk.as_ptr(), disk.len(), number, blank.as_ptr(), blank.len()) };
    shown(disk, &[], blank, found)
}

fn hidden_read<'a>(disk: &'a [u8], number: u32, blank: &'a [u8]) -> Shown<'a> {
    let found = unsafe { pddm_hidden_find(disk.as_ptr(), disk.len(), number, blank.as_ptr(), blank.len()) };
    shown(disk, &[], blank, found)
}

fn needs(disk: &[u8], number: u32) -> Needs {
    unsafe { pddm_write_needs(disk.as_ptr(), disk.len(), number) }
}

fn check_tree(disk: &[u8]) -> Result<(), u32> {
    let answer = unsafe { pddm_check_tree(disk.as_ptr(), disk.len()) };
    check(answer != 0, answer)
}

fn wait_rounds(disk: &[u8]) -> Wait {
    unsafe { pddm_wait_rounds(disk.as_ptr(), disk.len()) }
}

#[rustfmt::skip]
fn write(disk: &mut [u8], call: &Write, list: &mut [u32]) -> Written {
    let (hidden_number, hidden) = call.offer.unwrap_or((0, &[]));
    unsafe {
        pddm_write(
            disk.as_mut_ptr(), disk.len(), call.number, call.data.as_ptr(), call.data.len(),
            call.offer.is_some(), hidden_number, hidden.as_ptr(), hidden.len(),
            call.random.as_ptr(), call.random.len(), list.as_mut_ptr(), list.len(),
        )
    }
}

#[rustfmt::skip]
fn enter(disk: &[u8], offer: Offer, blocks: &[u8], line: &mut [Offer], waiting: u32) -> Entered {
    unsafe {
        pddm_enter(
            disk.as_ptr(), disk.len(), offer.number, offer.place, blocks.as_ptr(), blocks.len(),
            line.as_mut_ptr(), line.len(), waiting,
        )
    }
}

#[rustfmt::skip]
fn write_line(disk: &mut [u8], call: &LineWrite, line: &mut [Offer], list: &mut [u32]) -> LineWritten {
    unsafe {
        pddm_write_line(
            disk.as_mut_ptr(), disk.len(), call.number, call.data.as_ptr(), call.data.len(),
            call.blocks.as_ptr(), call.blocks.len(), line.as_mut_ptr(), line.len(), call.waiting,
            call.random.as_ptr(), call.random.len(), list.as_mut_ptr(), list.len(),
        )
    }
}

#[rustfmt::skip]
fn hidden_read_line<'a>(
    disk: &'a [u8], number: u32, blank: &'a [u8], blocks: &'a [u8], line: &[Offer], waiting: u32,
) -> Shown<'a> {
    let found = unsafe {
        pddm_hidden_find_line(
            disk.as_ptr(), disk.len(), number, blank.as_ptr(), blank.len(),
            blocks.as_ptr(), blocks.len(), line.as_ptr(), line.len(), waiting,
        )
    };
    shown(disk, blocks, blank, found)
}

#[rustfmt::skip]
fn write_cut(disk: &mut [u8], call: &Write, list: &mut [u32], bound: usize) -> Cut {
    let (hidden_number, hidden) = call.offer.unwrap_or((0, &[]));
    unsafe {
        pddm_write_cut(
            disk.as_mut_ptr(), disk.len(), call.number, call.data.as_ptr(), call.data.len(),
            call.offer.is_some(), hidden_number, hidden.as_ptr(), hidden.len(),
            call.random.as_ptr(), call.random.len(), list.as_mut_ptr(), list.len(), bound,
        )
    }
}

/// The line is lent as two arrays.
#[rustfmt::skip]
fn write_line_cut(disk: &mut [u8], call: &LineWrite, line: &[Offer], list: &mut [u32], bound: usize) -> Cut {
    let numbers = line.iter().map(|offer| offer.number).collect::<Vec<_>>();
    let places = line.iter().map(|offer| offer.place).collect::<Vec<_>>();
    unsafe {
        pddm_write_line_cut(
            disk.as_mut_ptr(), disk.len(), call.number, call.data.as_ptr(), call.data.len(),
            call.blocks.as_ptr(), call.blocks.len(), numbers.as_ptr(), numbers.len(),
            places.as_ptr(), places.len(), call.waiting,
            call.random.as_ptr(), call.random.len(), list.as_mut_ptr(), list.len(), bound,
        )
    }
}

fn recover(disk: &mut [u8]) -> Result<(), u32> {
    let answer = unsafe { pddm_recover(disk.as_mut_ptr(), disk.len()) };
    check(answer != 0, answer)
}

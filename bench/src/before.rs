//! The archive of before a change, linked beside this tree's: both finds and the write, for `pair`. Sound for
//! all arguments, as the calls of `proved` are.
use crate::engine::{Engine, Shown, Write, Written};
use crate::proved::{Found, PROVED, shown};

/// What it does not name is this tree's.
pub const BEFORE: Engine = Engine { name: "before", public_read, hidden_read, write, ..PROVED };

#[rustfmt::skip]
unsafe extern "C" {
    fn before_pddm_public_find(
        disk: *const u8, disk_len: usize, number: u32, blank: *const u8, blank_len: usize,
    ) -> Found;
    fn before_pddm_hidden_find(
        disk: *const u8, disk_len: usize, number: u32, blank: *const u8, blank_len: usize,
    ) -> Found;
    fn before_pddm_write(
        disk: *mut u8, disk_len: usize, number: u32, data: *const u8, data_len: usize,
        offered: bool, hidden_number: u32, hidden: *const u8, hidden_len: usize,
        random: *const u8, random_len: usize, list: *mut u32, list_len: usize,
    ) -> Written;
}

fn public_read<'a>(disk: &'a [u8], number: u32, blank: &'a [u8]) -> Shown<'a> {
    let (start, len) = (disk.as_ptr(), disk.len());
    shown(disk, &[], blank, unsafe {
        before_pddm_public_find(start, len, number, blank.as_ptr(), blank.len())
    })
}

fn hidden_read<'a>(disk: &'a [u8], number: u32, blank: &'a [u8]) -> Shown<'a> {
    let (start, len) = (disk.as_ptr(), disk.len());
    shown(disk, &[], blank, unsafe {
        before_pddm_hidden_find(start, len, number, blank.as_ptr(), blank.len())
    })
}

#[rustfmt::skip]
fn write(disk: &mut [u8], call: &Write, list: &mut [u32]) -> Written {
    let (hidden_number, hidden) = call.offer.unwrap_or((0, &[]));
    unsafe {
        before_pddm_write(
            disk.as_mut_ptr(), disk.len(), call.number, call.data.as_ptr(), call.data.len(),
            call.offer.is_some(), hidden_number, hidden.as_ptr(), hidden.len(),
            call.random.as_ptr(), call.random.len(), list.as_mut_ptr(), list.len(),
        )
    }
}

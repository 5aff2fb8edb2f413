//! Memory that is watched: of every read of it, or of every write, the byte is told at which it begins. Its
//! pages are closed, or open to reading alone, so that an instruction that touches them faults; the fault is
//! told, the pages are opened for this one instruction, which the processor's trap flag ends, and closed
//! again. An instruction that moves a run of bytes would fault for each of them, as `memcpy` of a block often
//! is one: it is carried out here, byte by byte, each of them told. For programs of one thread, on Linux and
//! x86-64.
//!
//! All that it does to the work watched is to slow it down: what the work reads and writes stays the same.
use std::ops::Range;
use std::ptr::null_mut;
use std::sync::atomic::{AtomicPtr, Ordering::Relaxed};

pub const PAGE: usize = 4096;

#[derive(Clone, Copy, PartialEq, Eq)]
pub enum Access {
    Read,
    Write,
}

/// Memory, the addresses of its pages that are watched, for which access, and who is told of it.
struct Watch<'a> {
    memory: *mut [u8],
    pages: Range<usize>,
    access: Access,
    note: &'a mut dyn FnMut(&mut [u8], usize),
}

static WATCH: AtomicPtr<Watch> = AtomicPtr::new(null_mut());

/// `struct sigaction`.
#[repr(C)]
struct Action {
    handler: extern "C" fn(i32, *const u8, *mut Context),
    mask: [u64; 16],
    flags: i32,
    restorer: usize,
}

/// `ucontext_t` as far as the registers at the signal.
#[repr(C)]
struct Context {
    before: [usize; 5],
    registers: [usize; 23],
}

/// Places among the registers: where a run of bytes goes and comes from and its length, the next instruction,
/// the processor's flags, a fault's kind and its address.
const TARGET: usize = 8;
const SOURCE: usize = 9;
const COUNT: usize = 14;
const NEXT: usize = 16;
const FLAGS: usize = 17;
const KIND: usize = 19;
const ADDRESS: usize = 22;

const TRAP_FLAG: usize = 0x100;
const DOWNWARDS: usize = 0x400;
const IS_WRITE: usize = 2;

/// The instruction that moves a run of bytes, `rep movsb`.
const MOVE_BYTES: [u8; 2] = [0xF3, 0xA4];

const SIGTRAP: i32 = 5;
const SIGSEGV: i32 = 11;
const SA_SIGINFO: i32 = 4;

const CLOSED: i32 = 0;
const READABLE: i32 = 1;
const OPEN: i32 = 1 | 2;

unsafe extern "C" {
    fn mprotect(start: usize, bytes: usize, protection: i32) -> i32;
    fn sigaction(signal: i32, action: *const Action, former: *mut Action) -> i32;
}

impl Watch<'_> {
    fn protect(&self, protection: i32) {
        if unsafe { mprotect(self.pages.start, self.pages.len(), protection) } != 0 {
            std::process::abort();
        }
    }

    fn open(&self) {
        self.protect(OPEN);
    }

    fn close(&self) {
        self.protect(if self.access == Access::Read { CLOSED } else { READABLE });
    }

    /// Tells an access to an address, if it is one that is watched.
    fn tell(&mut self, address: usize, access: Access) {
        if access == self.access && self.pages.contains(&address) {
            (self.note)(unsafe { &mut *self.memory }, address - self.memory as *mut u8 as usize);
        }
    }
}

/// The watch that is on. Without one the program ends: the signal is not ours.
fn watch() -> &'static mut Watch<'static> {
    unsafe { WATCH.load(Relaxed).as_mut() }.unwrap_or_else(|| std::process::abort())
}

/// Whether the next instruction moves a run of bytes upwards.
fn moves_bytes(registers: &[usize; 23]) -> bool {
    let next = unsafe { (registers[NEXT] as *const [u8; 2]).read() };
    next == MOVE_BYTES && registers[FLAGS] & DOWNWARDS == 0
}

/// Moves the run of bytes as the processor would. The pages are open.
fn move_bytes(watch: &mut Watch, registers: &mut [usize; 23]) {
    while registers[COUNT] != 0 {
        watch.tell(registers[SOURCE], Access::Read);
        watch.tell(registers[TARGET], Access::Write);
        unsafe { *(registers[TARGET] as *mut u8) = *(registers[SOURCE] as *const u8) };
        registers[SOURCE] += 1;
        registers[TARGET] += 1;
        registers[COUNT] -= 1;
    }
    registers[NEXT] += MOVE_BYTES.len();
}

/// At a fault: tells the access and lets the instruction go. A fault elsewhere ends the program.
extern "C" fn touched(_: i32, _: *const u8, context: *mut Context) {
    let (watch, registers) = (watch(), unsafe { &mut (*context).registers });
    if !watch.pages.contains(&registers[ADDRESS]) {
        std::process::abort();
    }
    watch.open();
    if moves_bytes(registers) {
        move_bytes(watch, registers);
        watch.close();
        return;
    }
    let is_write = registers[KIND] & IS_WRITE != 0;
    watch.tell(registers[ADDRESS], if is_write { Access::Write } else { Access::Read });
    registers[FLAGS] |= TRAP_FLAG;
}

/// After the instruction.
extern "C" fn stepped(_: i32, _: *const u8, context: *mut Context) {
    let registers = unsafe { &mut (*context).registers };
    watch().close();
    registers[FLAGS] &= !TRAP_FLAG;
}

/// The part of memory that has so many bytes and begins with a page; the memory has `PAGE` bytes more.
pub fn paged(memory: &mut [u8], bytes: usize) -> &mut [u8] {
    let start = memory.as_ptr().align_offset(PAGE);
    &mut memory[start..][..bytes]
}

/// What some work on memory gives. Meanwhile, before each access to its bytes in a range of whole pages,
/// `note` gets the memory and the access's first byte; it allocates nothing.
pub fn watched<T>(
    memory: &mut [u8],
    bytes: Range<usize>,
    access: Access,
    mut note: impl FnMut(&mut [u8], usize),
    work: impl FnOnce(&mut [u8]) -> T,
) -> T {
    let start = memory[bytes.clone()].as_ptr() as usize;
    assert_eq!((start % PAGE, bytes.len() % PAGE), (0, 0), "whole pages");
    let mut watch = Watch { memory, pages: start..start + bytes.len(), access, note: &mut note };
    assert!(WATCH.swap((&raw mut watch).cast(), Relaxed).is_null(), "one watch at a time");
    for (signal, handler) in [(SIGSEGV, touched as extern "C" fn(_, _, _)), (SIGTRAP, stepped)] {
        let action = Action { handler, mask: [0; 16], flags: SA_SIGINFO, restorer: 0 };
        assert_eq!(unsafe { sigaction(signal, &action, null_mut()) }, 0, "a handler set");
    }
    watch.close();
    let given = work(unsafe { &mut *watch.memory });
    watch.open();
    WATCH.store(null_mut(), Relaxed);
    given
}

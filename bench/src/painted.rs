//! How far down the stack some work reaches: the bytes of a painted stack that it changes.
use std::hint::black_box;

const PAINT: u8 = 0xA7;
const AREA: usize = 256 * 1024;

#[inline(never)]
fn paint() -> usize {
    black_box(&mut [PAINT; AREA]).as_ptr() as usize
}

#[inline(never)]
fn run(work: impl FnOnce()) {
    work();
}

#[inline(never)]
fn changed(area: *const u8) -> usize {
    AREA - (0..AREA).find(|&i| unsafe { area.add(i).read_volatile() } != PAINT).unwrap_or(AREA)
}

/// The stack of some work, in bytes, on a thread of its own.
pub fn stack_of(work: impl FnOnce() + Send) -> usize {
    let painted = || {
        let area = paint();
        run(work);
        changed(area as *const u8)
    };
    std::thread::scope(|scope| {
        let thread = std::thread::Builder::new().stack_size(4 * AREA);
        thread.spawn_scoped(scope, painted).unwrap().join().unwrap()
    })
}

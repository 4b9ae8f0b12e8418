//! How deep a call goes: the stack below is painted first, and afterwards it is looked at how far the paint is gone.

const DEPTH: usize = 128 * 1024;
const PAINT: u8 = 0xa5;

/// The bytes of the stack below this frame, painted. The address outlives the frame on purpose: it is only looked at by `painted`.
#[inline(never)]
fn paint() -> *const u8 {
    let mut below = [0u8; DEPTH];
    for b in below.iter_mut() {
        unsafe { std::ptr::write_volatile(b, PAINT) };
    }
    std::hint::black_box(&below).as_ptr()
}

/// How many bytes from the bottom are still painted.
#[inline(never)]
fn painted(bottom: *const u8) -> usize {
    let mut n = 0;
    while n < DEPTH && unsafe { std::ptr::read_volatile(bottom.add(n)) } == PAINT {
        n += 1;
    }
    n
}

/// The stack that the call uses at most, with its own frame.
pub fn used(call: impl FnOnce()) -> usize {
    let bottom = paint();
    call();
    DEPTH - painted(bottom)
}

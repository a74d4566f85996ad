//! The memory that the library is given. Each byte of it is counted, by thread, so that growth and leaks are seen.

use std::alloc::{Layout, alloc, dealloc, realloc};
use std::cell::Cell;

/// In front of each block stands how many bytes it has.
const HEAD: usize = 16;

/// What a request for memory is answered: whether there is some, and where.
#[repr(C)]
pub struct Tried {
    is_given: u64,
    at: *mut u8,
}

thread_local! {
    static USED: Cell<usize> = const { Cell::new(0) };
}

/// How many bytes the library has of this thread.
pub fn used() -> usize {
    USED.get()
}

/// How a block of so many bytes lies, with what stands in front of it.
fn layout(len: usize) -> Layout {
    Layout::from_size_align(len + HEAD, HEAD).expect("no block is so large")
}

/// What is answered: the block behind its head.
fn tried(block: *mut u8, len: usize) -> Tried {
    if block.is_null() {
        return Tried { is_given: 0, at: std::ptr::null_mut() };
    }
    USED.set(USED.get() + len);
    unsafe {
        block.cast::<usize>().write(len);
        Tried { is_given: 1, at: block.add(HEAD) }
    }
}

#[unsafe(no_mangle)]
extern "C" fn rattle_alloc(len: u64, _align: u64) -> Tried {
    let len = len as usize;
    tried(unsafe { alloc(layout(len)) }, len)
}

#[unsafe(no_mangle)]
extern "C" fn rattle_dealloc(at: *mut u8) {
    if at.is_null() {
        return;
    }
    unsafe {
        let block = at.sub(HEAD);
        let len = block.cast::<usize>().read();
        USED.set(USED.get() - len);
        dealloc(block, layout(len));
    }
}

#[unsafe(no_mangle)]
extern "C" fn rattle_realloc(at: *mut u8, _old: u64, len: u64, _align: u64) -> Tried {
    let len = len as usize;
    unsafe {
        let block = at.sub(HEAD);
        let old = block.cast::<usize>().read();
        USED.set(USED.get() - old);
        tried(realloc(block, layout(old), len + HEAD), len)
    }
}

#[unsafe(no_mangle)]
extern "C" fn rattle_errno() -> i32 {
    5
}

//! Memory from C's `malloc`, `realloc` and `free`.

use core::alloc::{GlobalAlloc, Layout};
use core::ffi::c_void;
use core::ptr::null_mut;

unsafe extern "C" {
    fn malloc(size: usize) -> *mut c_void;
    fn realloc(block: *mut c_void, size: usize) -> *mut c_void;
    fn free(block: *mut c_void);
}

#[global_allocator]
static HEAP: Heap = Heap;

struct Heap;

/// To what C aligns a block whose size is a multiple of it.
const ALIGN: usize = 16;

// SAFETY: the blocks are C's. One that has to be aligned to more than C promises is refused, so none is grown or freed.
unsafe impl GlobalAlloc for Heap {
    unsafe fn alloc(&self, layout: Layout) -> *mut u8 {
        if layout.align() > ALIGN || layout.size() % layout.align() != 0 {
            return null_mut();
        }
        unsafe { malloc(layout.size()).cast() }
    }

    unsafe fn dealloc(&self, block: *mut u8, _: Layout) {
        unsafe { free(block.cast()) }
    }

    unsafe fn realloc(&self, block: *mut u8, layout: Layout, size: usize) -> *mut u8 {
        if size % layout.align() != 0 {
            return null_mut();
        }
        unsafe { realloc(block.cast(), size).cast() }
    }
}

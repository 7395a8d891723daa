//! An allocator of which one allocation of a call fails. All others are the system's.

use std::alloc::{GlobalAlloc, Layout, System};
use std::cell::Cell;
use std::ptr;

/// How many allocations a call has made, and the number of the one that fails.
#[derive(Clone, Copy)]
struct Watched {
    made: usize,
    failing: usize,
}

thread_local! {
    /// The call that this thread makes. To keep it takes no memory, and nothing is dropped.
    static CALL: Cell<Option<Watched>> = const { Cell::new(None) };
}

struct Failing;

#[global_allocator]
static ALLOCATOR: Failing = Failing;

// SAFETY: memory comes from the system's allocator and goes back to it; a null pointer says that there is none. A list
// that grows asks `alloc`, by what `GlobalAlloc` has for `realloc`.
unsafe impl GlobalAlloc for Failing {
    unsafe fn alloc(&self, layout: Layout) -> *mut u8 {
        if fails() {
            return ptr::null_mut();
        }
        unsafe { System.alloc(layout) }
    }

    unsafe fn dealloc(&self, memory: *mut u8, layout: Layout) {
        unsafe { System.dealloc(memory, layout) }
    }
}

/// Counts an allocation, and says whether it is the one that fails.
fn fails() -> bool {
    let Some(call) = CALL.get() else {
        return false;
    };
    CALL.set(Some(Watched { made: call.made + 1, ..call }));
    call.made == call.failing
}

/// What a call returns whose allocation of this number fails, 0 for the first one, and how many it makes. A call that has
/// no answer for that ends the process.
pub fn failing_at<T>(failing: usize, call: impl FnOnce() -> T) -> (T, usize) {
    CALL.set(Some(Watched { made: 0, failing }));
    let returned = call();
    let made = CALL.take().map_or(0, |call| call.made);
    (returned, made)
}

//! What `bindings/c/build` makes the libraries for C of: the exports, over C's allocator. A panic aborts the program.
#![no_std]
// (the exports are what C calls, and one is proved with a closure where a path would do)
#![allow(clippy::too_many_arguments, clippy::redundant_closure)]

mod heap;
mod unwritten;

pub mod ndarray_layout_c;

#[panic_handler]
fn abort(_: &core::panic::PanicInfo<'_>) -> ! {
    unsafe extern "C" {
        safe fn abort() -> !;
    }
    abort()
}

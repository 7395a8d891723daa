// Made by `rust/erase` of `crates/ndarray_layout_c/src/version.rt`: edit that.
//! The version of the library.

use crate::ndarray_layout_c::statuses::OK;
use crate::unwritten::MaybeUninit;

/// Writes the three numbers of the library's version.
///
/// <details><summary>Contract (proved)</summary>
///
/// ```text
/// ensures status: result ≡ ok
/// ensures version: (major.new, minor.new, patch.new) ≡ version
/// ```
/// [How to read it](ndarray_layout::contracts)
/// </details>
pub fn nd_version(major: &mut MaybeUninit<i32>, minor: &mut MaybeUninit<i32>, patch: &mut MaybeUninit<i32>) -> i32 {
    major.write(0);
    minor.write(1);
    patch.write(0);
    OK
}

pub mod exported {
    use super::*;

    /// # Safety
    ///
    /// Each pointer is aligned and leads to as many items as its count says. That of an empty list isn't looked at.
    #[unsafe(no_mangle)]
    pub unsafe extern "C" fn nd_version(
        major: *mut MaybeUninit<i32>,
        minor: *mut MaybeUninit<i32>,
        patch: *mut MaybeUninit<i32>,
    ) -> i32 {
        unsafe { super::nd_version(&mut *major, &mut *minor, &mut *patch) }
    }
}

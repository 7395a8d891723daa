// Made by `rust/erase` of `crates/ndarray_layout_c/src/arguments.rt`: edit that.
//! What the numbers mean that C gives for an order, a mode and a fit.

use ::ndarray_layout::{CanIndexCheckMode, Fit, Order};

/// Whether a number names one of two choices.
///
/// <details><summary>Contract (proved)</summary>
///
/// ```text
/// ensures result ≡ is_choice code
/// ```
/// [How to read it](ndarray_layout::contracts)
/// </details>
pub(crate) fn is_choice(code: i32) -> bool {
    code == 0 || code == 1
}

/// The order of a number.
///
/// <details><summary>Contract (proved)</summary>
///
/// ```text
/// ensures result ≡ order_named code
/// ```
/// [How to read it](ndarray_layout::contracts)
/// </details>
pub(crate) fn order_named(code: i32) -> Order {
    if code == 0 { Order::RowMajor } else { Order::ColumnMajor }
}

/// The mode of a number.
///
/// <details><summary>Contract (proved)</summary>
///
/// ```text
/// ensures result ≡ mode_named code
/// ```
/// [How to read it](ndarray_layout::contracts)
/// </details>
pub(crate) fn mode_named(code: i32) -> CanIndexCheckMode {
    if code == 0 { CanIndexCheckMode::ReadOnly } else { CanIndexCheckMode::OwnedMutable }
}

/// The fit of a number.
///
/// <details><summary>Contract (proved)</summary>
///
/// ```text
/// ensures result ≡ fit_named code
/// ```
/// [How to read it](ndarray_layout::contracts)
/// </details>
pub(crate) fn fit_named(code: i32) -> Fit {
    if code == 0 { Fit::Strict } else { Fit::Clamp }
}

/// The number that C reads for a yes or a no.
///
/// <details><summary>Contract (proved)</summary>
///
/// ```text
/// ensures number: result ≡ (if yes then pos 1 else pos 0)
/// ensures yes: (result ≡ pos 1) ↔ IsTrue yes
/// ```
/// [How to read it](ndarray_layout::contracts)
/// </details>
pub(crate) fn answer_of(yes: bool) -> i32 {
    i32::from(yes)
}

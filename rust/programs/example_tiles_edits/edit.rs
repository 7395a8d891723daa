// Made by `rust/erase` of `crates/example_tiles_edits/src/edit.rt`: edit that.
//! Edits, the pictures that they fit, and what they leave of a view of the pixels.

use crate::example_tiles_edits::picture::Extent;
use ::ndarray_layout::{Fit, Ix2, SliceInfoElem, Strided};
use core::error::Error;
use core::fmt;

/// Rows or columns of a picture, counted from 0: those from a bound up to, not including, another.
#[derive(Clone, Copy, Debug, PartialEq, Eq)]
pub struct Span {
    /// The first.
    pub start: u32,
    /// The one that it stops before.
    pub end: u32,
}

/// An edit of a picture.
#[derive(Clone, Copy, Debug, PartialEq, Eq)]
pub enum Edit {
    /// Some rows, and of these some columns. Fits where no bound is past the rows or the columns there are.
    /// A span that ends before it starts has none.
    Crop(Span, Span),
    /// The rows from the last to the first.
    FlipRows,
    /// The columns from the last to the first.
    FlipColumns,
    /// The first of every so many rows, and of these the first of every so many columns. Fits where the number isn't 0.
    Every(u32),
}

/// An edit that doesn't fit the picture that those before it leave.
#[derive(Clone, Copy, Debug, PartialEq, Eq)]
pub struct Misfit {
    /// Which of the edits it is, counted from 1.
    pub number: usize,
    /// The edit.
    pub edit: Edit,
    /// The extent of the picture.
    pub extent: Extent,
}

impl fmt::Display for Misfit {
    fn fmt(&self, f: &mut fmt::Formatter<'_>) -> fmt::Result {
        let (number, Extent { rows, columns }) = (self.number, self.extent);
        ::ndarray_layout::fallible_write!(f, "edit {number} of a picture with {rows} rows and {columns} columns: ")?;
        match self.edit {
            Edit::Crop(..) => f.write_str("`crop` takes bounds up to these"),
            Edit::Every(_) => f.write_str("`every` takes a number from 1 on"),
            Edit::FlipRows | Edit::FlipColumns => f.write_str("`flip` takes any picture"),
        }
    }
}

impl Error for Misfit {}

impl Span {
    /// How many there are.
    ///
    /// <details><summary>Contract (proved)</summary>
    ///
    /// ```text
    /// ensures result ≡ self.end - self.start
    /// ```
    /// [How to read it](ndarray_layout::contracts)
    /// </details>
    fn len(self) -> u32 {
        self.end.saturating_sub(self.start)
    }

    /// Whether it is a span of so many rows or columns.
    ///
    /// <details><summary>Contract (proved)</summary>
    ///
    /// ```text
    /// ensures result ≡ is_span count self
    /// ```
    /// [How to read it](ndarray_layout::contracts)
    /// </details>
    fn is_of(self, count: u32) -> bool {
        self.start <= count && self.end <= count
    }

    /// The coordinates of it on an axis.
    ///
    /// <details><summary>Contract (proved)</summary>
    ///
    /// ```text
    /// ensures result ≡ of_span self
    /// ```
    /// [How to read it](ndarray_layout::contracts)
    /// </details>
    fn element(self) -> SliceInfoElem {
        SliceInfoElem::Slice { start: self.start as isize, end: Some(self.end as isize), step: 1 }
    }
}

/// All coordinates of an axis, by a step.
///
/// <details><summary>Contract (proved)</summary>
///
/// ```text
/// ensures result ≡ by_step step
/// ```
/// [How to read it](ndarray_layout::contracts)
/// </details>
fn by_step(step: isize) -> SliceInfoElem {
    SliceInfoElem::Slice { start: 0, end: None, step }
}

impl Edit {
    /// The extent that it leaves; `None` where it doesn't fit.
    ///
    /// <details><summary>Contract (proved)</summary>
    ///
    /// ```text
    /// ensures result ≡ (if fits extent self then Some (extent_after extent self) else None)
    /// ```
    /// [How to read it](ndarray_layout::contracts)
    /// </details>
    fn extent_after(self, extent: Extent) -> Option<Extent> {
        match self {
            Edit::Crop(rows, columns) => {
                if !rows.is_of(extent.rows) || !columns.is_of(extent.columns) {
                    return None;
                }
                Some(Extent { rows: rows.len(), columns: columns.len() })
            }
            Edit::FlipRows | Edit::FlipColumns => Some(extent),
            Edit::Every(0) => None,
            Edit::Every(count) => {
                Some(Extent { rows: extent.rows.div_ceil(count), columns: extent.columns.div_ceil(count) })
            }
        }
    }

    /// The slice that it is: what it picks of the rows and of the columns.
    ///
    /// <details><summary>Contract (proved)</summary>
    ///
    /// ```text
    /// ensures result ≡ elements_of self
    /// ```
    /// [How to read it](ndarray_layout::contracts)
    /// </details>
    fn elements(self) -> [SliceInfoElem; 2] {
        match self {
            Edit::Crop(rows, columns) => [rows.element(), columns.element()],
            Edit::FlipRows => [by_step(-1), by_step(1)],
            Edit::FlipColumns => [by_step(1), by_step(-1)],
            Edit::Every(count) => [by_step(count as isize), by_step(count as isize)],
        }
    }

    /// The extent and the view that it leaves of a view; `None` where it doesn't fit.
    ///
    /// <details><summary>Contract (proved)</summary>
    ///
    /// ```text
    /// requires view.now.shape ≡ shape_of extent
    /// ensures fits: is_some result ≡ fits extent self
    /// ensures left: IfSome result (λ left. Leave (self ∷ []) extent view.now left.0 left.1)
    /// ensures in_bounds: IfSome result (λ left. (len : ℕ) → LiesWithin len view.now → LiesWithin len left.1)
    /// ```
    /// [How to read it](ndarray_layout::contracts)
    /// </details>
    pub(crate) fn slice(self, extent: Extent, view: &Strided<Ix2>) -> Option<(Extent, Strided<Ix2>)> {
        let left = self.extent_after(extent)?;
        // The slice of an edit that fits is in bounds, and two axes need no memory.
        let Ok(view) = view.slice(&self.elements(), Fit::Strict) else {
            unreachable!();
        };
        Some((left, view))
    }
}

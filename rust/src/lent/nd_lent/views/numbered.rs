// Made by `rust/erase` of `crates/nd_lent/src/views/numbered.rt`: edit that.
//! Views that are made by their numbers.

use crate::lent::nd_lent::views::Views;
use crate::memory::AllocError;
use crate::ndarray_layout::{Lengths, Strided};

/// A view of each number below a count.
pub trait ByNumber: Sized {
    /// The type of the shape of each.
    type Dim: Lengths;

    /// The view of a number. Errors: out of memory.
    ///
    /// # Conditions
    ///
    /// The caller ensures that there is one. Otherwise this call or a later one panics or returns unspecified values.
    ///
    /// <details><summary>Contract (proved)</summary>
    ///
    /// ```text
    /// requires number < count self.now
    /// ensures memory: NeedsNoMemory Self.Dim.NDIM (length (at self.now number).shape) → IsOk result
    /// ensures view: IfOk result (λ view. view ≡ at self.now number)
    /// ```
    /// [How to read it](crate::contracts)
    /// </details>
    fn view_at(&self, number: usize) -> Result<Strided<Self::Dim>, AllocError>;
}

/// The views of the numbers that are left.
pub struct Numbered<V: ByNumber> {
    views: V,
    // The number that comes next, and the one after the last that is left.
    begun: usize,
    end: usize,
}

impl<V: ByNumber> Numbered<V> {
    /// All views.
    ///
    /// # Conditions
    ///
    /// The caller ensures that `count` is how many they are. Otherwise this call or a later one panics or returns
    /// unspecified values.
    ///
    /// <details><summary>Contract (proved)</summary>
    ///
    /// ```text
    /// requires count ≡ V.count views
    /// ensures result ≡ map (V.at views) (range_with_len 0 (V.count views))
    /// ```
    /// [How to read it](crate::contracts)
    /// </details>
    #[inline]
    pub(crate) fn new(views: V, count: usize) -> Self {
        Numbered { views, begun: 0, end: count }
    }
}

impl<V: ByNumber> Views for Numbered<V> {
    type Dim = V::Dim;

    #[inline]
    fn len(&self) -> usize {
        self.end - self.begun
    }

    #[inline]
    fn advance(&mut self, count: usize) {
        self.begun += count.min(self.end - self.begun);
    }

    #[inline]
    fn advance_back(&mut self, count: usize) {
        self.end -= count.min(self.end - self.begun);
    }

    #[inline]
    fn try_next(&mut self) -> Result<Option<Strided<V::Dim>>, AllocError> {
        if self.begun == self.end {
            return Ok(None);
        }
        let view = self.views.view_at(self.begun)?;
        self.begun += 1;
        Ok(Some(view))
    }

    #[inline]
    fn try_next_back(&mut self) -> Result<Option<Strided<V::Dim>>, AllocError> {
        if self.begun == self.end {
            return Ok(None);
        }
        let view = self.views.view_at(self.end - 1)?;
        self.end -= 1;
        Ok(Some(view))
    }
}

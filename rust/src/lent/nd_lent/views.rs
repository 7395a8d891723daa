// Made by `rust/erase` of `crates/nd_lent/src/views.rt`: edit that.
//! Views of the same items one after another: those of the arrays or parts that are still to come.

pub(crate) mod along_axis;
pub(crate) mod axis_chunks;
pub(crate) mod numbered;

use crate::memory::AllocError;
use crate::ndarray_layout::{BlockViews, Lengths, Strided};

/// Views one after another, from both ends.
pub trait Views: Sized {
    /// The type of the shape of each.
    type Dim: Lengths;

    /// How many are left.
    ///
    /// <details><summary>Contract (proved)</summary>
    ///
    /// ```text
    /// ensures result ≡ length (left self.now)
    /// ```
    /// [How to read it](crate::contracts)
    /// </details>
    fn len(&self) -> usize;

    /// Skips the next `count`, or all that remain.
    ///
    /// <details><summary>Contract (proved)</summary>
    ///
    /// ```text
    /// ensures left self.new ≡ drop count (left self.old)
    /// ```
    /// [How to read it](crate::contracts)
    /// </details>
    fn advance(&mut self, count: usize);

    /// Skips the last `count`, or all that remain.
    ///
    /// <details><summary>Contract (proved)</summary>
    ///
    /// ```text
    /// ensures left self.new ≡ take (length (left self.old) - count) (left self.old)
    /// ```
    /// [How to read it](crate::contracts)
    /// </details>
    fn advance_back(&mut self, count: usize);

    /// The next view; `None` where none is left. Nothing changes where an allocation fails.
    ///
    /// <details><summary>Contract (proved)</summary>
    ///
    /// ```text
    /// ensures memory: All (λ view. NeedsNoMemory Self.Dim.NDIM (length view.shape)) (left self.old) → IsOk result
    /// ensures unchanged: IfErr result (λ _. left self.new ≡ left self.old)
    /// ensures first: IfOk result (λ next. MatchOption next
    ///     ((left self.old ≡ []) × (left self.new ≡ [])) (λ view. left self.old ≡ view ∷ left self.new))
    /// ```
    /// [How to read it](crate::contracts)
    /// </details>
    fn try_next(&mut self) -> Result<Option<Strided<Self::Dim>>, AllocError>;

    /// The last view; `None` where none is left. Nothing changes where an allocation fails.
    ///
    /// <details><summary>Contract (proved)</summary>
    ///
    /// ```text
    /// ensures memory: All (λ view. NeedsNoMemory Self.Dim.NDIM (length view.shape)) (left self.old) → IsOk result
    /// ensures unchanged: IfErr result (λ _. left self.new ≡ left self.old)
    /// ensures last: IfOk result (λ next. MatchOption next
    ///     ((left self.old ≡ []) × (left self.new ≡ [])) (λ view. left self.old ≡ left self.new ++ view ∷ []))
    /// ```
    /// [How to read it](crate::contracts)
    /// </details>
    fn try_next_back(&mut self) -> Result<Option<Strided<Self::Dim>>, AllocError>;
}

impl<D: Lengths> Views for BlockViews<D> {
    type Dim = D;

    #[inline(always)]
    fn len(&self) -> usize {
        BlockViews::len(self)
    }

    #[inline(always)]
    fn advance(&mut self, count: usize) {
        BlockViews::advance(self, count);
    }

    #[inline(always)]
    fn advance_back(&mut self, count: usize) {
        BlockViews::advance_back(self, count);
    }

    #[inline(always)]
    fn try_next(&mut self) -> Result<Option<Strided<D>>, AllocError> {
        BlockViews::try_next(self)
    }

    #[inline(always)]
    fn try_next_back(&mut self) -> Result<Option<Strided<D>>, AllocError> {
        BlockViews::try_next_back(self)
    }
}

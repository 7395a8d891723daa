// Made by `rust/erase` of `crates/nd_base/src/dynindeximpl.rt`: edit that.
//! A list of any number of lengths: up to four lie in the value itself, more of them in memory.

use crate::memory::AllocError;
use crate::memory::prelude::{FallibleVec, Vec};
use crate::nd_base::lengths::INLINE_AXES;
use crate::smallvec::SmallVec;
use core::fmt;
use core::hash::Hash;
use core::hash::Hasher;
use core::ops::Index;
use core::ops::IndexMut;
use core::slice;

/// The lengths of any number of axes, in order. ndarray's `IxDynImpl`.
///
/// Equality and hash are those of the list, however it is kept.
pub struct IxDynImpl {
    lens: SmallVec<usize, INLINE_AXES>,
}

impl IxDynImpl {
    /// The lengths of a slice.
    ///
    /// Takes time in proportion to the count of lengths. In place of ndarray's `From<&[Ix]>`.
    ///
    /// # Errors
    ///
    /// Out of memory; never where there are at most 4 lengths.
    ///
    /// <details><summary>Contract (proved)</summary>
    ///
    /// ```text
    /// ensures list: IfOk result (λ dim. dim ≡ lens.now)
    /// ensures memory: length lens.now ≤ INLINE_AXES → IsOk result
    /// ```
    /// [How to read it](crate::contracts)
    /// </details>
    #[inline]
    pub fn copy_from(lens: &[usize]) -> Result<Self, AllocError> {
        // (up to four one by one, where `from_slice` calls a copy of any length)
        let lens = match lens {
            [] => SmallVec::new(),
            [a] => SmallVec::from_buf_and_len([*a, 0, 0, 0], 1),
            [a, b] => SmallVec::from_buf_and_len([*a, *b, 0, 0], 2),
            [a, b, c] => SmallVec::from_buf_and_len([*a, *b, *c, 0], 3),
            [a, b, c, d] => SmallVec::from_buf([*a, *b, *c, *d]),
            _ => SmallVec::fallible_from_slice(lens)?,
        };
        Ok(IxDynImpl { lens })
    }

    /// The lengths of a vector, whose memory is kept where it has room for more than 4.
    ///
    /// `alloc` is there as in every call of this kind.
    ///
    /// ndarray's `From<Vec<Ix>>`.
    ///
    /// # Errors
    ///
    /// None: it asks for no memory.
    ///
    /// <details><summary>Contract (proved)</summary>
    ///
    /// ```text
    /// ensures list: IfOk result (λ dim. dim ≡ lens.items)
    /// ensures memory: IsOk result
    /// ```
    /// [How to read it](crate::contracts)
    /// </details>
    #[inline]
    pub fn from_vec(lens: Vec<usize>) -> Result<Self, AllocError> {
        Ok(IxDynImpl { lens: SmallVec::from_vec(lens) })
    }

    /// `n` zeros. Up to four are made at once, where `from_elem` would push one by one.
    ///
    /// <details><summary>Contract (proved)</summary>
    ///
    /// ```text
    /// ensures list: IfOk result (λ dim. dim ≡ replicate n 0)
    /// ensures memory: n ≤ INLINE_AXES → IsOk result
    /// ```
    /// [How to read it](crate::contracts)
    /// </details>
    #[inline]
    pub(crate) fn zeros(n: usize) -> Result<Self, AllocError> {
        let lens =
            if n <= INLINE_AXES { SmallVec::from_buf_and_len([0; INLINE_AXES], n) } else { SmallVec::from_elem(0, n)? };
        Ok(IxDynImpl { lens })
    }

    /// The lengths with a new axis of length 1, which gets the number `i`.
    ///
    /// Takes time in proportion to the count of lengths.
    ///
    /// `[2,3]` at 1: `[2,1,3]`. ndarray's `insert`.
    ///
    /// # Errors
    ///
    /// Out of memory; never where the result has at most 4 lengths.
    ///
    /// # Conditions
    ///
    /// The caller ensures that `i` is at most their count. Otherwise this call or a later one panics or returns
    /// unspecified values.
    ///
    /// <details><summary>Contract (proved)</summary>
    ///
    /// ```text
    /// requires i ≤ length self.now
    /// ensures list: IfOk result (λ dim. dim ≡ insert self.now i 1)
    /// ensures memory: length self.now + 1 ≤ INLINE_AXES → IsOk result
    /// ```
    /// [How to read it](crate::contracts)
    /// </details>
    #[inline]
    pub fn insert(&self, i: usize) -> Result<Self, AllocError> {
        let lens = self.as_slice();
        let mut wider = SmallVec::fallible_with_capacity(lens.len() + 1)?;
        wider.fallible_extend_from_slice(&lens[..i])?;
        wider.fallible_push(1)?;
        wider.fallible_extend_from_slice(&lens[i..])?;
        Ok(IxDynImpl { lens: wider })
    }

    /// The lengths without the axis `i`; of no axes, no axes.
    ///
    /// Takes time in proportion to the count of lengths.
    ///
    /// `[2,3]` without 0: `[3]`. ndarray's `remove`.
    ///
    /// # Errors
    ///
    /// Out of memory; never where the result has at most 4 lengths.
    ///
    /// # Conditions
    ///
    /// The caller ensures that there is that axis, or none at all. Otherwise this call or a later one panics or returns
    /// unspecified values.
    ///
    /// <details><summary>Contract (proved)</summary>
    ///
    /// ```text
    /// requires (i < length self.now) ⊎ (length self.now ≡ 0)
    /// ensures list: IfOk result (λ dim. dim ≡ remove self.now i)
    /// ensures memory: length self.now ≤ 5 → IsOk result
    /// ```
    /// [How to read it](crate::contracts)
    /// </details>
    #[inline]
    pub fn remove(&self, i: usize) -> Result<Self, AllocError> {
        let lens = self.as_slice();
        if lens.is_empty() {
            return Self::copy_from(lens);
        }
        let mut narrower = SmallVec::fallible_with_capacity(lens.len() - 1)?;
        narrower.fallible_extend_from_slice(&lens[..i])?;
        narrower.fallible_extend_from_slice(&lens[i + 1..])?;
        Ok(IxDynImpl { lens: narrower })
    }

    /// The lengths, in order. For ndarray's `Deref`.
    ///
    /// <details><summary>Contract (proved)</summary>
    ///
    /// ```text
    /// ensures result.now ≡ self.now
    /// ```
    /// [How to read it](crate::contracts)
    /// </details>
    #[must_use]
    #[inline]
    pub fn as_slice(&self) -> &[usize] {
        self.lens.as_slice()
    }

    /// The lengths, to be written; their count is fixed. For ndarray's `DerefMut`.
    ///
    /// <details><summary>Contract (proved)</summary>
    ///
    /// ```text
    /// ensures list: result.now ≡ self.old
    /// ```
    /// [How to read it](crate::contracts)
    /// </details>
    #[must_use]
    #[inline]
    pub fn as_mut_slice(&mut self) -> &mut [usize] {
        self.lens.as_mut_slice()
    }
}

impl Index<usize> for IxDynImpl {
    type Output = usize;

    #[inline]
    fn index(&self, axis: usize) -> &usize {
        &self.as_slice()[axis]
    }
}

impl IndexMut<usize> for IxDynImpl {
    #[inline]
    fn index_mut(&mut self, axis: usize) -> &mut usize {
        self.lens.get_mut(axis).unwrap()
    }
}

impl<'a> IntoIterator for &'a IxDynImpl {
    type Item = &'a usize;

    type IntoIter = slice::Iter<'a, usize>;

    #[inline]
    fn into_iter(self) -> slice::Iter<'a, usize> {
        self.as_slice().iter()
    }
}

impl PartialEq for IxDynImpl {
    #[inline]
    fn eq(&self, other: &Self) -> bool {
        self.as_slice() == other.as_slice()
    }
}

impl Eq for IxDynImpl {}

impl Hash for IxDynImpl {
    #[inline]
    fn hash<H: Hasher>(&self, state: &mut H) {
        self.as_slice().hash(state);
    }
}

impl fmt::Debug for IxDynImpl {
    #[inline]
    fn fmt(&self, f: &mut fmt::Formatter<'_>) -> fmt::Result {
        f.debug_list().entries(self.as_slice()).finish()
    }
}

// Made by `rust/erase` of `crates/example_callers/src/rows.rt`: edit that.
//! Reads a plain list as rows, or along any shape.

use ::ndarray_layout::{
    CanIndexCheckMode, Ix2, IxDyn, LayoutError, Lengths, Order, StrideShape, Strided, Strides, new_ix2,
};

/// A list read as rows: row `i` and column `j` are item `i * columns + j`.
///
/// Errors: those of `can_index_slice_with_strides`: `Overflow` where the product of the lengths that are not 0 passes the
/// greatest `isize`, then `OutOfBounds` where the rows are longer than the list. Two axes need no memory.
///
/// <details><summary>Contract (proved)</summary>
///
/// ```text
/// ensures fault: shape_fault result ≡
///     acceptance_by_strides lengths 1 (length items.now) OwnedMutable (rows ∷ columns ∷ []) C
/// ensures memory: shape_fault result ≡ None → IsOk result
/// ensures shape: IfOk result (λ grid. grid.shape ≡ rows ∷ columns ∷ [])
/// ensures place: IfOk result (λ grid. (i j : ℕ) →
///     IsTrue (is_index (rows ∷ columns ∷ []) (i ∷ j ∷ [])) →
///     place_at grid (i ∷ j ∷ []) ≡ pos (i * columns + j))
/// ensures in_bounds: IfOk result (λ grid. LiesWithin (length items.now) grid)
/// ensures distinct: IfOk result (λ grid. HasDistinctPlaces grid)
/// ```
/// [How to read it](ndarray_layout::contracts)
/// </details>
pub fn grid(items: &[u8], rows: usize, columns: usize) -> Result<Strided<Ix2>, LayoutError> {
    let shape = StrideShape { dim: new_ix2(rows, columns), strides: Strides::C };
    let mode = CanIndexCheckMode::OwnedMutable;
    let view = Strided::from_shape(shape, 1, items.len(), mode)?;
    Ok(view)
}

/// A list as a view of a shape of any number of axes: each index lies at its flat index in row-major order.
///
/// Errors: those of `can_index_slice_with_strides`; out of memory, never for at most four axes.
///
/// <details><summary>Contract (proved)</summary>
///
/// ```text
/// ensures shape: IfOk result (λ view. view.shape ≡ lengths dim)
/// ensures fault: shape_fault result ≡ acceptance_by_strides lengths 1 (length items.now) OwnedMutable (lengths dim) C
/// ensures memory: shape_fault result ≡ None → NeedsNoMemory None (length (lengths dim)) → IsOk result
/// ensures place: IfOk result (λ view. (index : List ℕ) → IsTrue (is_index (lengths dim) index) →
///     place_at view index ≡ pos (flat_index_in RowMajor (lengths dim) index))
/// ensures in_bounds: IfOk result (λ view. LiesWithin (length items.now) view)
/// ensures distinct: IfOk result (λ view. HasDistinctPlaces view)
/// ```
/// [How to read it](ndarray_layout::contracts)
/// </details>
pub fn in_shape(items: &[u8], dim: IxDyn) -> Result<Strided<IxDyn>, LayoutError> {
    let shape = StrideShape { dim, strides: Strides::C };
    let mode = CanIndexCheckMode::OwnedMutable;
    let view = Strided::from_shape(shape, 1, items.len(), mode)?;
    Ok(view)
}

/// A view read as rows: row `i` and column `j` are the index of the view with flat index `i * columns + j`.
///
/// Errors: those of `reshape`, as where the sizes differ. Two axes need no memory.
///
/// <details><summary>Contract (proved)</summary>
///
/// ```text
/// ensures fault: shape_fault result ≡ view_reshape_fault RowMajor (rows ∷ columns ∷ []) view.now
/// ensures memory: shape_fault result ≡ None → IsOk result
/// ensures place: IfOk result (λ grid. (i j : ℕ) →
///     IsTrue (is_index (rows ∷ columns ∷ []) (i ∷ j ∷ [])) →
///     place_at grid (i ∷ j ∷ []) ≡
///     place_at view.now (index_of_flat_in RowMajor view.now.shape (i * columns + j)))
/// ensures line: IfOk result (λ grid. (len i j : ℕ) → view.now.shape ≡ len ∷ [] →
///     IsTrue (is_index (rows ∷ columns ∷ []) (i ∷ j ∷ [])) →
///     place_at grid (i ∷ j ∷ []) ≡ place_at view.now ((i * columns + j) ∷ []))
/// ensures in_bounds: IfOk result (λ grid. (len : ℕ) → LiesWithin len view.now → LiesWithin len grid)
/// ensures distinct: IfOk result (λ grid. HasDistinctPlaces view.now → HasDistinctPlaces grid)
/// ```
/// [How to read it](ndarray_layout::contracts)
/// </details>
pub fn in_rows<D: Lengths>(view: &Strided<D>, rows: usize, columns: usize) -> Result<Strided<Ix2>, LayoutError> {
    let grid = view.reshape(&new_ix2(rows, columns), Order::RowMajor)?;
    Ok(grid)
}

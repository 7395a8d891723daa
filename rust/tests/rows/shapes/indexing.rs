//! What can index a layout, each at its types.

use ndarray_layout::{Ix0, Ix1, Ix2, Ix3, Ix4, Ix5, Ix6, IxDyn, Lengths, NdIndex, unsigned};

/// Asserts the offset of an index, with a test and without; or that it has none.
fn assert_offset<D: Lengths>(dim: &D, strides: &D, index: impl NdIndex<D>, offset: Option<isize>) {
    assert_eq!(index.index_checked(dim, strides), offset, "{index:?}");
    if let Some(offset) = offset {
        assert_eq!(index.index_unchecked(strides), offset, "{index:?}");
    }
}

/// Asserts the offset of an index and of another form of it, and that another index of its type has none.
fn assert_offsets<D: Lengths, I: NdIndex<D>>(
    (dim, strides): (D, D),
    (index, form): (I, impl NdIndex<D>),
    offset: isize,
    outside: I,
) {
    assert_offset(&dim, &strides, index, Some(offset));
    assert_offset(&dim, &strides, form, Some(offset));
    assert_offset(&dim, &strides, outside, None);
}

#[test]
fn at_up_to_three_axes() {
    assert_offset(&Ix0(), &Ix0(), (), Some(0));
    assert_offset(&Ix0(), &Ix0(), [], Some(0));
    assert_offsets((Ix1(4), Ix1(unsigned(-2))), (3, [3]), -6, 4);
    assert_offsets((Ix2(2, 3), Ix2(unsigned(-3), 1)), ((1, 2), [1, 2]), -1, (1, 3));
    assert_offsets((Ix3(2, 3, 4), Ix3(12, unsigned(-4), 1)), ((1, 2, 3), [1, 2, 3]), 7, (1, 3, 0));
}

#[test]
fn at_more_axes() {
    let layout = (Ix4(2, 3, 4, 5), Ix4(60, 20, unsigned(-5), 1));
    assert_offsets(layout, ((1, 2, 3, 4), [1, 2, 3, 4]), 89, (1, 2, 4, 0));
    let layout = (Ix5(2, 1, 3, 2, 2), Ix5(unsigned(-12), 7, 4, 2, 1));
    assert_offsets(layout, ((1, 0, 2, 1, 1), [1, 0, 2, 1, 1]), -1, (0, 1, 0, 0, 0));
    let layout = (Ix6(2, 1, 3, 2, 2, 2), Ix6(unsigned(-48), 7, 16, 8, unsigned(-4), 2));
    assert_offsets(layout, ((1, 0, 2, 1, 1, 1), [1, 0, 2, 1, 1, 1]), -10, (0, 0, 3, 0, 0, 0));
}

// Lists that are no `IxDyn` on two axes; coordinates and lent dimensions on one.
#[test]
fn at_any_number_of_axes() {
    let layout = (IxDyn(&[2, 3]), IxDyn(&[3, 1]));
    let (dim, strides) = &layout;
    assert_offset(dim, strides, [1], None);
    assert_offset(dim, strides, Ix2(1, 2), Some(5));
    assert_offset(dim, strides, 1, None);
    assert_offsets(layout, (&[1, 2][..], [1, 2]), 5, &[1, 2, 0][..]);
    let (dim, strides) = (IxDyn(&[4]), IxDyn(&[3]));
    assert_offset(&dim, &strides, 3, Some(9));
    assert_offset(&dim, &strides, &strides, Some(9));
    assert_offset(&dim, &strides, 4, None);
    assert_offset(&dim, &strides, &dim, None);
}

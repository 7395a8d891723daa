//! Calls over many axes and many items, for which there is memory.

use super::iterated::items_of;
use super::layout::shaped;
use super::runs::{BACK, assert_made};
use ndarray_layout::SliceInfoElem::Index;
use ndarray_layout::{IxDyn, OwnedArray, Strides};

#[test]
fn many_axes() {
    let mut lens = [1; 1100];
    lens[70] = 10_000;
    for count in [71, 1100] {
        let view = shaped(IxDyn(&lens[..count]), Strides::F, 10_000).unwrap();
        assert_made(&view, &vec![BACK; count], 10_000);
    }
}

// All items of an array are read and written at once, and each of its 50 rows.
#[test]
fn many_items() {
    let shape = IxDyn(&[50, 1, 2, 10, 1, 10]);
    let mut array = OwnedArray::from_shape_vec(shape, (0..10_000).collect()).unwrap();
    assert_eq!(items_of(array.iter()), array.stored());
    let all = [BACK; 6];
    let items = array.items(&all).unwrap();
    assert_eq!(array.multi_set(&[(all.to_vec(), items)]), Ok(()));
    let row = |coordinate| [&[Index(coordinate)][..], &all[1..]].concat();
    let rows: Vec<_> = (0..50).map(|coordinate| (row(coordinate), (0..200).collect())).collect();
    assert_eq!(array.multi_set(&rows), Ok(()));
}

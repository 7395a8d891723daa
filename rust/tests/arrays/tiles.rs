//! A slice that is checked once and moved along the axes: the same items as those of the slice with other bounds.

use ndarray_layout::{
    ErrorKind, Ix0, Ix1, Ix2, Ix3, IxDyn, LayoutError, Lengths, NewAxis, OwnedArray, ShapeBuilder, ShapeError,
    SliceInfoElem, StrideShape, from_kind, s, unsigned,
};

/// The array of a layout over 0 and so on.
fn array<D: Lengths>(shape: impl Into<StrideShape<D>>, count: usize) -> OwnedArray<usize, D> {
    OwnedArray::from_shape_vec(shape, (0..count).collect()).unwrap()
}

fn shape_error(kind: ErrorKind) -> ShapeError {
    from_kind(kind)
}

fn error(kind: ErrorKind) -> LayoutError {
    shape_error(kind).into()
}

/// Each tile of two rows of three, read and written, beside the calls for the slice itself.
fn check_tiles(table: &mut OwnedArray<usize, Ix2>) {
    let tile = table.ready(&s![..2, ..3]).unwrap();
    assert_eq!(tile.moves(), &Ix2(3, 3));
    for (row, column) in (0..3).flat_map(|row| (0..3).map(move |column| (row, column))) {
        let slice = s![row..row + 2, column..column + 3];
        assert_eq!(table.items_of(&tile, &Ix2(row, column)), table.items(&slice));
        let items: Vec<usize> = (0..6).map(|item| 100 * row + 10 * column + item).collect();
        let mut other = OwnedArray::from_shape_vec(*table.dim(), table.iter().collect()).unwrap();
        other.multi_set(&[(slice.to_vec(), items.clone())]).unwrap();
        table.set_items_of(&tile, &Ix2(row, column), &items).unwrap();
        assert!(table.iter().eq(other.iter()));
    }
}

#[test]
fn tiles_of_two_axes() {
    check_tiles(&mut array(Ix2(4, 5), 20));
    check_tiles(&mut array(Ix2(4, 5).f().unwrap(), 20));
    check_tiles(&mut array(Ix2(4, 5).strides(Ix2(unsigned(-7), 1)).unwrap(), 30));
}

#[test]
fn slices_with_steps_indices_and_new_axes() {
    let table = array(Ix2(4, 5), 20);
    let back = table.ready(&s![..2;-1, 1..4;2]).unwrap();
    assert_eq!(back.moves(), &Ix2(3, 2));
    assert_eq!(table.items_of(&back, &Ix2(0, 0)).unwrap(), [6, 8, 1, 3]);
    assert_eq!(table.items_of(&back, &Ix2(2, 1)).unwrap(), [17, 19, 12, 14]);
    let row = table.ready(&s![-4, NewAxis, ..]).unwrap();
    assert_eq!(row.moves(), &Ix2(4, 1));
    assert_eq!(table.items_of(&row, &Ix2(3, 0)).unwrap(), [15, 16, 17, 18, 19]);
}

#[test]
fn other_counts_of_axes() {
    let line = array(Ix1(5), 5);
    let two = line.ready(&s![..2]).unwrap();
    assert_eq!(line.items_of(&two, &Ix1(3)).unwrap(), [3, 4]);
    let cube = array(Ix3(3, 3, 3), 27);
    let corner = cube.ready(&s![..2, ..2, ..2]).unwrap();
    assert_eq!(cube.items_of(&corner, &Ix3(1, 0, 1)).unwrap(), [10, 11, 13, 14, 19, 20, 22, 23]);
    let mut item = array(Ix0(), 1);
    let whole = item.ready(&s![]).unwrap();
    item.set_items_of(&whole, &Ix0(), &[7]).unwrap();
    assert_eq!(item.items_of(&whole, &Ix0()).unwrap(), [7]);
    let axes = IxDyn(&[2, 1, 3, 1, 2]);
    let deep = array(axes, 12);
    let end: [SliceInfoElem; 5] = [(..1).into(), (..).into(), (..2).into(), (..).into(), (-1).into()];
    let part = deep.ready(&end).unwrap();
    assert_eq!(part.moves(), &IxDyn(&[2, 1, 2, 1, 1]));
    assert_eq!(deep.items_of(&part, &IxDyn(&[1, 0, 1, 0, 0])).unwrap(), [9, 11]);
    assert_eq!(deep.items_of(&part, &IxDyn(&[1, 0, 1])), Err(error(ErrorKind::OutOfBounds)));
}

#[test]
fn slices_that_pick_nothing() {
    let mut table = array(Ix2(3, 4), 12);
    let none = table.ready(&s![.., 2..2]).unwrap();
    assert_eq!(none.moves(), &Ix2(1, 3));
    assert_eq!(table.items_of(&none, &Ix2(0, 2)).unwrap(), []);
    table.set_items_of(&none, &Ix2(0, 2), &[]).unwrap();
    assert_eq!(table.items_of(&none, &Ix2(0, 3)), Err(error(ErrorKind::OutOfBounds)));
    let mut empty = array(Ix2(3, 0), 0);
    let rows = empty.ready(&s![..2, ..]).unwrap();
    assert_eq!(rows.moves(), &Ix2(2, 1));
    assert_eq!(empty.items_of(&rows, &Ix2(1, 0)).unwrap(), []);
    empty.set_items_of(&rows, &Ix2(1, 0), &[]).unwrap();
    assert_eq!(empty.set_items_of(&rows, &Ix2(1, 0), &[7]), Err(shape_error(ErrorKind::IncompatibleShape)));
    assert_eq!(empty.items_of(&rows, &Ix2(0, 1)), Err(error(ErrorKind::OutOfBounds)));
    // Twice the stride is no `isize`.
    let two = OwnedArray::from_shape_vec(Ix1(2).strides(Ix1(1 << 62)).unwrap(), vec![(); (1 << 62) + 1]).unwrap();
    let none = two.ready(&s![..0]).unwrap();
    assert_eq!((none.moves(), two.items_of(&none, &Ix1(2)).unwrap()), (&Ix1(3), vec![]));
}

/// Each range of an axis, by a step.
fn ranges(len: usize) -> impl Iterator<Item = (usize, usize, isize)> {
    let ends = (0..=len).flat_map(move |start| (0..=len).map(move |end| (start, end)));
    ends.flat_map(|(start, end)| [(start, end, 1), (start, end, -2)])
}

#[test]
fn a_slice_moves_by_all_by_which_it_fits() {
    for (height, width) in (0..3).flat_map(|height| (0..4).map(move |width| (height, width))) {
        let mut table = array(Ix2(height, width), height * width);
        for ((top, bottom, down), (left, right, along)) in
            ranges(height).flat_map(|rows| ranges(width).map(move |columns| (rows, columns)))
        {
            let ready = table.ready(&s![top..bottom;down, left..right;along]).unwrap();
            for (row, column) in (0..height + 2).flat_map(|row| (0..width + 2).map(move |column| (row, column))) {
                let (bottom, right) = (bottom.max(top), right.max(left));
                let moved = s![top + row..bottom + row;down, left + column..right + column;along];
                let items = table.items(&moved);
                assert_eq!(table.items_of(&ready, &Ix2(row, column)), items, "{moved:?} of {height} by {width}");
                let written = table.set_items_of(&ready, &Ix2(row, column), items.as_deref().unwrap_or_default());
                assert_eq!(written.map_err(LayoutError::from), items.map(drop), "{moved:?} of {height} by {width}");
            }
        }
    }
}

#[test]
fn an_index_moves_to_each_one_after_it() {
    let line = array(Ix1(4), 4);
    for (index, by) in (-4..4).flat_map(|index| (0..6).map(move |by| (index, by))) {
        let ready = line.ready(&s![index]).unwrap();
        let items = line.items(&s![(index + 4) % 4 + by]);
        assert_eq!(line.items_of(&ready, &Ix1(by as usize)), items, "{index} by {by}");
    }
}

#[test]
fn errors_in_order() {
    let mut table = array(Ix2(3, 4), 12);
    assert!(table.ready(&s![..4, ..]).is_err_and(|fault| fault == error(ErrorKind::OutOfBounds)));
    let others =
        [array(Ix2(3, 4).f().unwrap(), 12), array(Ix2(4, 3), 12), array(Ix2(3, 4).strides(Ix2(5, 1)).unwrap(), 15)];
    for other in others {
        let tile = other.ready(&s![..2, ..2]).unwrap();
        let (past, five) = (Ix2(9, 9), [5; 5]);
        assert_eq!(table.items_of(&tile, &past), Err(error(ErrorKind::IncompatibleLayout)));
        assert_eq!(table.set_items_of(&tile, &past, &five), Err(shape_error(ErrorKind::IncompatibleLayout)));
    }
    let tile = table.ready(&s![..2, ..2]).unwrap();
    assert_eq!(table.set_items_of(&tile, &Ix2(2, 0), &[5; 5]), Err(shape_error(ErrorKind::OutOfBounds)));
    assert_eq!(table.set_items_of(&tile, &Ix2(1, 0), &[5; 5]), Err(shape_error(ErrorKind::IncompatibleShape)));
    assert!(table.iter().eq(0..12));
    let same = array(Ix2(3, 4), 12);
    assert_eq!(same.items_of(&tile, &Ix2(1, 2)).unwrap(), [6, 7, 10, 11]);
}

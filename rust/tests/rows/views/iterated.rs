//! The places and the rows of a view one after another.

use super::calls::answer;
use super::layout::{read_view, shaped};
use crate::table::{Words, assert_rows, at_type, dim_of, list};
use ndarray_layout::CanIndexCheckMode::ReadOnly;
use ndarray_layout::{Ix2, IxDyn, Lengths, Order, Row, Strided, Strides, signed, unsigned};

/// The items of an iterator, which says each time how many are left, and stays at its end.
pub fn items_of<I: ExactSizeIterator>(mut items: I) -> Vec<I::Item> {
    let mut given = Vec::new();
    for left in (0..items.len()).rev() {
        given.extend(items.next());
        assert_eq!((items.len(), items.size_hint()), (left, (left, Some(left))));
    }
    assert!(items.next().is_none() && items.next().is_none());
    given
}

/// `LEN owned|read SHAPE STRIDES C|F => PLACES`.
pub fn places<D: Lengths>(words: &mut Words) -> String {
    let (view, order): (Strided<D>, Order) = (read_view(words), words.order());
    let places = view.places(order).unwrap();
    assert_eq!(items_of(view.iter_places(order)), places);
    list(places)
}

/// `LEN owned|read SHAPE STRIDES C|F => STARTS STRIDE LEN`.
pub fn rows<D: Lengths>(words: &mut Words) -> String {
    let (view, order): (Strided<D>, Order) = (read_view(words), words.order());
    let rows = items_of(view.rows(order));
    let (stride, len) = rows.first().map_or((0, 0), |row| (row.stride, row.len));
    assert!(rows.iter().all(|row| (row.stride, row.len) == (stride, len)));
    assert_by_number(&view, order, &rows);
    format!("{} {stride} {len}", list(rows.iter().map(|row| row.start)))
}

/// Asserts that each of all rows of a view is the one of its number, and that no further number has one.
fn assert_by_number<D: Lengths>(view: &Strided<D>, order: Order, rows: &[Row]) {
    for (number, row) in rows.iter().enumerate() {
        let nth = view.nth_row(order, number).unwrap();
        let (dim, strides) = (nth.dim(), nth.strides());
        assert_eq!(
            (nth.start(), signed(strides[0]), dim[0]),
            (row.start, row.stride, row.len),
            "{view:?} {order:?} {number}"
        );
    }
    for past in [rows.len(), rows.len() + 1, usize::MAX] {
        assert!(view.nth_row(order, past).is_none(), "{view:?} {order:?} {past}");
    }
}

/// Asserts that the rows of a view come by their numbers as one after another, at a type.
fn assert_each_by_number<D: Lengths>(lens: &[usize], strides: &[usize]) {
    let (dim, strides): (D, D) = (dim_of(lens).unwrap(), dim_of(strides).unwrap());
    let view = Strided::new(dim, strides, 1, 1_000, ReadOnly).unwrap();
    for order in [Order::C, Order::F] {
        assert_by_number(&view, order, &view.rows(order).collect::<Vec<_>>());
    }
}

#[test]
fn rows_of_random_layouts_by_number() {
    let mut seed = 1u64;
    let mut below = |end: usize| {
        // Marsaglia's xorshift of 64 bits.
        seed ^= seed << 13;
        seed ^= seed >> 7;
        seed ^= seed << 17;
        (seed >> 11) as usize % end
    };
    for _ in 0..2_000 {
        let axes = 1 + below(5);
        let lens: Vec<usize> = (0..axes).map(|_| if below(12) == 0 { 0 } else { 1 + below(4) }).collect();
        let strides: Vec<usize> = (0..axes).map(|_| unsigned(below(41) as isize - 20)).collect();
        assert_each_by_number::<IxDyn>(&lens, &strides);
        at_type!(Some(axes), D => assert_each_by_number::<D>(&lens, &strides));
    }
}

/// The places of a row.
fn places_of(row: Row) -> impl Iterator<Item = usize> {
    (0..row.len).map(move |i| row.start.wrapping_add(i.wrapping_mul(unsigned(row.stride))))
}

/// Asserts that the 10,000 places of a shape, in which no row is long, come one by one and in rows.
fn assert_many<D: Lengths>(dim: D) {
    let view = shaped(dim, Strides::C, 10_000).unwrap();
    let [by_rows, by_columns] = [Order::C, Order::F].map(|order| view.places(order).unwrap());
    assert_eq!(by_rows.len(), 10_000);
    assert_ne!(by_rows[1], by_columns[1]);
    for (order, places) in [(Order::C, by_rows), (Order::F, by_columns)] {
        assert_eq!(items_of(view.iter_places(order)), places);
        assert!(view.rows(order).flat_map(places_of).eq(places));
    }
}

#[test]
fn many_places() {
    assert_many(Ix2(100, 100));
    assert_many(IxDyn(&[10, 1, 10, 2, 5, 10]));
}

#[test]
fn places_of_fixed_types() {
    let table = "\
iter_places Ix0 1 owned - - C => 0
iter_places Ix0 1 owned - - F => 0
iter_places Ix1 4 owned 4 1 C => 0,1,2,3
iter_places Ix1 7 owned 3 -3 F => 6,3,0
iter_places Ix1 0 owned 0 1 C => -
iter_places Ix2 6 owned 2,3 -3,1 C => 3,4,5,0,1,2
iter_places Ix2 6 owned 2,3 -3,1 F => 3,0,4,1,5,2
iter_places Ix2 2 owned 1,2 -9223372036854775808,1 C => 0,1
iter_places Ix2 2 owned 2,1 1,-9223372036854775808 F => 0,1
iter_places Ix2 3 read 2,3 0,1 C => 0,1,2,0,1,2
iter_places Ix2 3 read 2,3 0,1 F => 0,0,1,1,2,2
iter_places Ix2 9 owned 0,3 3,1 C => -
iter_places Ix2 9 owned 3,0 3,1 C => -
iter_places Ix2 9 owned 0,3 3,1 F => -
iter_places Ix2 9 owned 3,0 3,1 F => -
iter_places Ix3 12 owned 2,3,2 6,-2,1 C => 4,5,2,3,0,1,10,11,8,9,6,7
iter_places Ix3 12 owned 2,3,2 6,-2,1 F => 4,10,2,8,0,6,5,11,3,9,1,7
iter_places Ix3 9 owned 2,0,2 6,2,1 C => -
iter_places Ix4 16 owned 2,2,2,2 1,-2,4,-8 C => 10,2,14,6,8,0,12,4,11,3,15,7,9,1,13,5
iter_places Ix4 16 owned 2,2,2,2 1,-2,4,-8 F => 10,11,8,9,14,15,12,13,2,3,0,1,6,7,4,5
iter_places Ix5 6 owned 1,3,1,2,1 9,2,9,1,9 F => 0,2,4,1,3,5
iter_places Ix6 8 owned 2,1,2,1,2,1 4,9,2,9,1,9 C => 0,1,2,3,4,5,6,7";
    assert_rows(table, answer);
}

#[test]
fn places_of_any_count_of_axes() {
    let table = "\
iter_places IxDyn 1 owned - - C => 0
iter_places IxDyn 6 owned 2,3 -3,-1 C => 5,4,3,2,1,0
iter_places IxDyn 8 owned 2,1,2,2 4,9,-2,1 F => 2,6,0,4,3,7,1,5
iter_places IxDyn 12 owned 2,1,3,1,2 -6,9,1,9,3 C => 6,9,7,10,8,11,0,3,1,4,2,5
iter_places IxDyn 12 owned 2,1,3,1,2 -6,9,1,9,3 F => 6,0,7,1,8,2,9,3,10,4,11,5
iter_places IxDyn 6 read 2,1,1,2,1,3 0,9,9,3,9,1 C => 0,1,2,3,4,5,0,1,2,3,4,5
iter_places IxDyn 9 owned 1,1,1,1,1,1,1 9,9,9,9,9,9,9 C => 0
iter_places IxDyn 12 owned 2,1,3,0,2 6,6,2,2,1 C => -";
    assert_rows(table, answer);
}

#[test]
fn rows_of_fixed_types() {
    let table = "\
rows Ix0 1 owned - - C => 0 0 1
rows Ix0 1 owned - - F => 0 0 1
rows Ix1 4 owned 4 1 C => 0 1 4
rows Ix1 7 owned 3 -3 F => 6 -3 3
rows Ix1 0 owned 0 1 C => - 0 0
rows Ix1 1 read 4611686018427387904 0 C => 0 0 4611686018427387904
rows Ix2 6 owned 2,3 -3,1 C => 3,0 1 3
rows Ix2 6 owned 2,3 -3,1 F => 3,4,5 -3 2
rows Ix2 3 owned 3,1 1,9 C => 0,1,2 9 1
rows Ix2 3 owned 3,1 1,9 F => 0 1 3
rows Ix2 3 read 3,2 0,2 C => 0,0,0 2 2
rows Ix2 3 read 3,2 0,2 F => 0,2 0 3
rows Ix2 2 owned 1,2 -9223372036854775808,1 C => 0 1 2
rows Ix2 2 owned 1,2 -9223372036854775808,1 F => 0,1 -9223372036854775808 1
rows Ix2 9 owned 0,3 3,1 C => - 0 0
rows Ix2 9 owned 3,0 3,1 C => - 0 0
rows Ix2 9 owned 0,3 3,1 F => - 0 0
rows Ix2 9 owned 3,0 3,1 F => - 0 0
rows Ix2 9 owned 4611686018427387904,0 0,1 C => - 0 0
rows Ix3 12 owned 2,3,2 6,-2,1 C => 4,2,0,10,8,6 1 2
rows Ix3 12 owned 2,3,2 6,-2,1 F => 4,2,0,5,3,1 6 2
rows Ix4 16 owned 2,2,2,2 1,-2,4,-8 C => 10,14,8,12,11,15,9,13 -8 2
rows Ix4 16 owned 2,2,2,2 1,-2,4,-8 F => 10,8,14,12,2,0,6,4 1 2
rows Ix5 6 owned 1,3,1,2,1 9,2,9,1,9 C => 0,1,2,3,4,5 9 1
rows Ix6 8 owned 2,1,2,1,2,1 4,9,2,9,1,9 F => 0,2,1,3 4 2";
    assert_rows(table, answer);
}

#[test]
fn rows_of_any_count_of_axes() {
    let table = "\
rows IxDyn 1 owned - - C => 0 0 1
rows IxDyn 6 owned 2,3 -3,-1 C => 5,2 -1 3
rows IxDyn 8 owned 2,1,2,2 4,9,-2,1 F => 2,0,3,1 4 2
rows IxDyn 12 owned 2,1,3,1,2 -6,9,1,9,3 C => 6,7,8,0,1,2 3 2
rows IxDyn 12 owned 2,1,3,1,2 -6,9,1,9,3 F => 6,7,8,9,10,11 -6 2
rows IxDyn 6 read 2,1,1,2,1,3 0,9,9,3,9,1 C => 0,3,0,3 1 3
rows IxDyn 9 owned 1,1,1,1,1,1,1 9,9,9,9,9,9,9 C => 0 9 1
rows IxDyn 12 owned 2,1,3,0,2 6,6,2,2,1 C => - 0 0";
    assert_rows(table, answer);
}

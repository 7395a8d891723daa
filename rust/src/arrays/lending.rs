//! What the compiler refuses of arrays that are lent to be written.

/// Who may have a part, and for how long. A thread may be lent one whose items it may be lent:
///
/// ```
/// use ndarray_layout::{AxisChunksIterMut, AxisIterMut, Ix1, Ix2, IterMut, ArrayViewMut, LanesMut, TilesMut};
/// use std::cell::Cell;
///
/// fn is_send<T: Send>() {}
/// fn is_sync<T: Sync>() {}
/// is_send::<ArrayViewMut<'_, Cell<u8>, Ix1>>();
/// is_send::<ArrayViewMut<'_, String, Ix1>>();
/// is_sync::<ArrayViewMut<'_, String, Ix1>>();
/// is_send::<IterMut<'_, Cell<u8>, Ix2>>();
/// is_send::<LanesMut<'_, Cell<u8>, Ix2>>();
/// is_send::<AxisIterMut<'_, Cell<u8>, Ix2>>();
/// is_send::<AxisChunksIterMut<'_, Cell<u8>, Ix2>>();
/// is_send::<TilesMut<'_, Cell<u8>, Ix2>>();
/// ```
///
/// but not one whose items it may not, whether it is given the part or sees it:
///
/// ```compile_fail,E0277
/// fn is_send<T: Send>() {}
/// is_send::<ndarray_layout::ArrayViewMut<'_, std::rc::Rc<u8>, ndarray_layout::Ix1>>();
/// ```
///
/// ```compile_fail,E0277
/// fn is_send<T: Send>() {}
/// is_send::<ndarray_layout::IterMut<'_, std::rc::Rc<u8>, ndarray_layout::Ix1>>();
/// ```
///
/// ```compile_fail,E0277
/// fn is_send<T: Send>() {}
/// is_send::<ndarray_layout::LanesMut<'_, std::rc::Rc<u8>, ndarray_layout::Ix1>>();
/// ```
///
/// ```compile_fail,E0277
/// fn is_sync<T: Sync>() {}
/// is_sync::<ndarray_layout::ArrayViewMut<'_, std::cell::Cell<u8>, ndarray_layout::Ix1>>();
/// ```
///
/// A part doesn't outlive its items:
///
/// ```compile_fail,E0597
/// use ndarray_layout::{ArrayViewMut, Ix1};
///
/// let part;
/// {
///     let mut items = [1, 2];
///     part = ArrayViewMut::from_shape(Ix1(2), &mut items).unwrap();
/// }
/// println!("{}", part[0]);
/// ```
///
/// nor does a row of it, or an item:
///
/// ```compile_fail,E0597
/// use ndarray_layout::{ArrayViewMut, Ix2};
///
/// let row;
/// {
///     let mut items = [1, 2];
///     row = ArrayViewMut::from_shape(Ix2(1, 2), &mut items).unwrap().into_rows().next();
/// }
/// println!("{row:?}");
/// ```
///
/// ```compile_fail,E0597
/// use ndarray_layout::{ArrayViewMut, Ix2};
///
/// let item;
/// {
///     let mut items = [1, 2];
///     item = ArrayViewMut::from_shape(Ix2(1, 2), &mut items).unwrap().into_items().next();
/// }
/// println!("{item:?}");
/// ```
///
/// nobody else sees these before it is gone:
///
/// ```compile_fail,E0502
/// use ndarray_layout::{ArrayViewMut, Ix1};
///
/// let mut items = [1, 2];
/// let mut part = ArrayViewMut::from_shape(Ix1(2), &mut items).unwrap();
/// println!("{}", items[0]);
/// part[0] = 3;
/// ```
///
/// one of its items at a time is lent to be written, and it itself once:
///
/// ```compile_fail,E0499
/// use ndarray_layout::{ArrayViewMut, Ix1};
///
/// let mut items = [1, 2];
/// let mut part = ArrayViewMut::from_shape(Ix1(2), &mut items).unwrap();
/// let (first, second) = (part.get_mut(&0), part.get_mut(&1));
/// println!("{first:?} {second:?}");
/// ```
///
/// ```compile_fail,E0499
/// use ndarray_layout::{ArrayViewMut, Ix1};
///
/// let mut items = [1, 2];
/// let mut part = ArrayViewMut::from_shape(Ix1(2), &mut items).unwrap();
/// let (mut first, mut second) = (part.view_mut(), part.view_mut());
/// (first[0], second[0]) = (1, 2);
/// ```
///
/// or what it has at a coordinate of an axis:
///
/// ```compile_fail,E0499
/// use ndarray_layout::{ArrayViewMut, Axis, Ix2};
///
/// let mut items = [1, 2];
/// let mut part = ArrayViewMut::from_shape(Ix2(1, 2), &mut items).unwrap();
/// let (first, second) = (part.axis_iter_mut(Axis(1)).unwrap().next(), part.column_mut(0));
/// println!("{first:?} {second:?}");
/// ```
///
/// or a row of it:
///
/// ```compile_fail,E0502
/// use ndarray_layout::{ArrayViewMut, Ix2};
///
/// let mut items = [1, 2];
/// let mut part = ArrayViewMut::from_shape(Ix2(1, 2), &mut items).unwrap();
/// let row = part.rows_mut().next();
/// println!("{} {row:?}", part[(0, 0)]);
/// ```
///
/// there aren't two of it:
///
/// ```compile_fail,E0382
/// use ndarray_layout::{ArrayViewMut, Axis, Ix1};
///
/// let mut items = [1, 2];
/// let part = ArrayViewMut::from_shape(Ix1(2), &mut items).unwrap();
/// let _halves = part.split_at(Axis(0), 1);
/// println!("{}", part[0]);
/// ```
///
/// and what is written lives as long as the items may:
///
/// ```compile_fail
/// fn shorten<'a, 'b>(part: ndarray_layout::ArrayViewMut<'a, &'static str, ndarray_layout::Ix1>)
///     -> ndarray_layout::ArrayViewMut<'a, &'b str, ndarray_layout::Ix1> { part }
/// ```
///
/// while a part of the same type goes through:
///
/// ```
/// fn shorten<'a: 'b, 'b>(part: ndarray_layout::ArrayViewMut<'a, &'static str, ndarray_layout::Ix1>)
///     -> ndarray_layout::ArrayViewMut<'b, &'static str, ndarray_layout::Ix1> { part }
/// ```
///
/// What a part stands on is no call of the package:
///
/// ```compile_fail,E0603
/// use ndarray_layout::lent::nd_access::Cells;
/// ```
#[cfg(doctest)]
struct Lending;

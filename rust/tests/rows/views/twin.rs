//! Layouts of no more than three axes, each of at most 4 coordinates with a stride of at most 4 in magnitude, under
//! every shape of as many such axes: the strides are the differences of places by flat index, and are compared with
//! them at every flat index; where the sizes differ, joints are looked at one by one.
//!
//! Axes stand in the order in which they are read, so that of one shape in both orders two lists are made.

use crate::table::{dim_of, layout_kind};
use ndarray_layout::{IxDyn, Order, reshape_dim, unsigned};

#[derive(Clone, Copy)]
struct Axis {
    len: usize,
    stride: isize,
}

/// Up to three axes. What stands after the last one is not looked at.
#[derive(Clone, Copy)]
struct Axes {
    all: [Axis; 3],
    count: usize,
}

impl Axes {
    /// Each list of so many axes of these.
    fn each(count: usize, choices: &[Axis]) -> impl Iterator<Item = Axes> {
        let base = choices.len();
        (0..base.pow(count as u32)).map(move |number| {
            let all = [number, number / base, number / (base * base)].map(|digits| choices[digits % base]);
            Axes { all, count }
        })
    }

    fn read(&self) -> &[Axis] {
        &self.all[..self.count]
    }

    /// A number of each axis, in the order in which they stand.
    fn list(&self, order: Order, number: impl Fn(&Axis) -> usize) -> IxDyn {
        let mut numbers = [0; 3];
        for (place, axis) in numbers.iter_mut().zip(self.read()) {
            *place = number(axis);
        }
        let numbers = &mut numbers[..self.count];
        if order.is_column_major() {
            numbers.reverse();
        }
        dim_of(numbers).expect("any number of axes")
    }

    fn lengths(&self, order: Order) -> IxDyn {
        self.list(order, |axis| axis.len)
    }

    fn strides(&self, order: Order) -> IxDyn {
        self.list(order, |axis| unsigned(axis.stride))
    }
}

fn size(axes: &[Axis]) -> usize {
    axes.iter().map(|axis| axis.len).product()
}

/// How far the index of a flat index lies from the first one.
fn place(axes: &[Axis], flat_index: usize) -> isize {
    let (mut rest, mut place) = (flat_index, 0);
    for axis in axes.iter().rev() {
        place += (rest % axis.len) as isize * axis.stride;
        rest /= axis.len;
    }
    place
}

/// Whether the lengths read up to some axis have this product.
fn reach(axes: &[Axis], product: usize) -> bool {
    (0..=axes.len()).any(|count| size(&axes[..count]) == product)
}

/// The stride of an axis of length 1 after others, the last of which has the stride `before`: that of the axis of
/// length 1 that is read at the same product with as many before it, 1 where there is none, `before` at no such
/// product.
fn stride_of_one(from: &[Axis], earlier: &[Axis], before: isize) -> isize {
    let (product, ones) = (size(earlier), earlier.iter().rev().take_while(|axis| axis.len == 1).count());
    let mut at_product = (0..from.len()).filter(|k| from[*k].len == 1 && size(&from[..*k]) == product);
    match at_product.nth(ones) {
        Some(k) => from[k].stride,
        None if reach(from, product) => 1,
        None => before,
    }
}

/// The strides of another shape, as they are forced where there are any.
fn forced(from: &[Axis], to: &Axes) -> Axes {
    let (mut new, mut before) = (*to, 1);
    for k in 0..to.count {
        let (earlier, later) = (&to.all[..k], &to.read()[k + 1..]);
        before = match to.all[k].len {
            1 => stride_of_one(from, earlier, before),
            _ => place(from, size(later)),
        };
        new.all[k].stride = before;
    }
    new
}

/// Whether a joint lies before the size of another shape and between none of its axes.
fn has_bad_joint(from: &[Axis], to: &[Axis]) -> bool {
    let (mut read, mut longer) = (1, None);
    for axis in from {
        if axis.len > 1 {
            let is_loose = longer.is_some_and(|stride| stride != axis.len as isize * axis.stride);
            if is_loose && read < size(to) && !reach(to, read) {
                return true;
            }
            longer = Some(axis.stride);
        }
        read *= axis.len;
    }
    false
}

/// The strides along a shape, or the kind of the error.
fn slow_reshape(from: &[Axis], to: &Axes) -> Result<Axes, &'static str> {
    if size(from) != size(to.read()) {
        let is_bad = has_bad_joint(from, to.read());
        return Err(if is_bad { "IncompatibleLayout" } else { "IncompatibleShape" });
    }
    let new = forced(from, to);
    let keep = (0..size(from)).all(|flat_index| place(from, flat_index) == place(new.read(), flat_index));
    keep.then_some(new).ok_or("IncompatibleLayout")
}

/// Asserts what is returned of a layout for each shape, read in an order.
fn assert_reshapes(from: &Axes, order: Order, shapes: &[Axes]) {
    let (dim, strides) = (from.lengths(order), from.strides(order));
    for to in shapes {
        let given = reshape_dim(&dim, &strides, &to.lengths(order), order);
        match slow_reshape(from.read(), to) {
            Ok(new) => assert_eq!(given, Ok(new.strides(order)), "{dim:?} {strides:?} {order:?}"),
            Err(kind) => assert_eq!(given.map_err(layout_kind), Err(kind.to_owned()), "{dim:?} {strides:?} {order:?}"),
        }
    }
}

#[test]
fn all_small_layouts() {
    let lengths = [1, 2, 3, 4].map(|len| Axis { len, stride: 0 });
    let shapes: Vec<Axes> = (0..4).flat_map(|count| Axes::each(count, &lengths)).collect();
    let axes: Vec<Axis> = (-4..=4).flat_map(|stride| lengths.map(|axis| Axis { stride, ..axis })).collect();
    let layouts: Vec<Axes> = (0..4).flat_map(|count| Axes::each(count, &axes)).collect();
    std::thread::scope(|scope| {
        for part in layouts.chunks(layouts.len().div_ceil(4)) {
            for order in [Order::C, Order::F] {
                let shapes = &shapes;
                scope.spawn(move || part.iter().for_each(|from| assert_reshapes(from, order, shapes)));
            }
        }
    });
}

//! Arrays and slices once more, in plain Rust: a part is a shape and the list of its places.

use crate::numbers::Numbers;
use ndarray_layout::SliceInfoElem;

/// A layout in which no two indices alias.
#[derive(Debug)]
pub struct Plain {
    pub shape: Vec<usize>,
    pub strides: Vec<isize>,
    pub start: usize,
    /// How many items there are, spare ones too.
    pub len: usize,
}

/// A shape, and the places of its indices in row-major order.
#[derive(Debug)]
pub struct Picked {
    pub shape: Vec<usize>,
    pub places: Vec<usize>,
}

impl Plain {
    /// Axes in any order, some backwards, some with gaps, and a few spare items.
    pub fn any(numbers: &mut Numbers) -> Plain {
        let shape = numbers.small_shape();
        Plain::of(numbers, shape)
    }

    /// The same of a shape.
    pub fn of(numbers: &mut Numbers, shape: Vec<usize>) -> Plain {
        let mut strides = vec![0; shape.len()];
        let (mut stride, mut start, mut last) = (1, 0, 0);
        let order = if numbers.once_in(2) { (0..shape.len()).rev().collect() } else { numbers.axis_order(shape.len()) };
        for axis in order {
            let step = stride * numbers.pick(&[1, 1, 1, 2, 3]);
            let reach = (shape[axis].max(1) - 1) * step;
            let is_backwards = numbers.once_in(4);
            strides[axis] = if is_backwards { -(step as isize) } else { step as isize };
            start += if is_backwards { reach } else { 0 };
            last += reach;
            stride = step * shape[axis].max(1);
            if shape[axis] == 1 && numbers.once_in(2) {
                strides[axis] = numbers.between(-9, 10);
            }
        }
        Plain { shape, strides, start, len: last + 1 + numbers.below(4) }
    }

    /// The places at these coordinates of each axis, the last axis moving fastest.
    fn places(&self, coordinates: &[Vec<usize>]) -> Vec<usize> {
        let mut places = vec![self.start as isize];
        for (list, stride) in coordinates.iter().zip(&self.strides) {
            let of =
                |place: &isize| list.iter().map(|coordinate| place + *coordinate as isize * stride).collect::<Vec<_>>();
            places = places.iter().flat_map(of).collect();
        }
        places.into_iter().map(|place| place as usize).collect()
    }

    /// All of it.
    pub fn whole(&self) -> Picked {
        let coordinates: Vec<Vec<usize>> = self.shape.iter().map(|len| (0..*len).collect()).collect();
        Picked { shape: self.shape.clone(), places: self.places(&coordinates) }
    }

    /// What a slice picks whose bounds lie within the axes and whose steps aren't 0; nothing where an index is past its axis.
    pub fn picked(&self, elems: &[SliceInfoElem]) -> Option<Picked> {
        let (mut shape, mut coordinates) = (Vec::new(), Vec::new());
        for elem in elems {
            if let SliceInfoElem::NewAxis = elem {
                shape.push(1);
                continue;
            }
            let list = picked_of_axis(*elem, *self.shape.get(coordinates.len())?)?;
            if let SliceInfoElem::Slice { .. } = elem {
                shape.push(list.len());
            }
            coordinates.push(list);
        }
        Some(Picked { shape, places: self.places(&coordinates) })
    }
}

/// The coordinates that an element picks of an axis, in the order in which it picks them.
fn picked_of_axis(elem: SliceInfoElem, len: usize) -> Option<Vec<usize>> {
    let bound = |number: isize| if number < 0 { len - number.unsigned_abs() } else { number as usize };
    match elem {
        SliceInfoElem::Slice { start, end, step } => {
            let range = bound(start)..end.map_or(len, bound);
            let by = step.unsigned_abs();
            Some(if step < 0 { range.rev().step_by(by).collect() } else { range.step_by(by).collect() })
        }
        SliceInfoElem::Index(index) if bound(index) < len => Some(vec![bound(index)]),
        _ => None,
    }
}

/// The index of a number in a shape.
pub fn index_of(shape: &[usize], mut number: usize) -> Vec<usize> {
    let mut index = vec![0; shape.len()];
    for axis in (0..shape.len()).rev() {
        index[axis] = number % shape[axis];
        number /= shape[axis];
    }
    index
}

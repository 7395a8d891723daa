//! A generator of random numbers, shapes, strides and slices, always the same ones.

use ndarray_layout::SliceInfoElem;

/// Numbers at the ends of their types and at powers of two.
const LENGTHS: [usize; 14] = [
    0,
    1,
    2,
    3,
    7,
    1 << 31,
    1 << 32,
    (1 << 32) + 1,
    1 << 61,
    1 << 62,
    (1 << 63) - 1,
    1 << 63,
    usize::MAX - 1,
    usize::MAX,
];

const STRIDES: [isize; 16] = [
    0,
    1,
    -1,
    2,
    -3,
    1 << 31,
    -(1 << 32),
    3_074_457_345_618_258_602,
    6_148_914_691_236_517_204,
    1 << 61,
    -(1 << 62),
    isize::MAX,
    isize::MAX - 1,
    -isize::MAX,
    isize::MIN,
    isize::MIN + 1,
];

/// Marsaglia's xorshift of 64 bits.
pub struct Numbers(u64);

impl Numbers {
    pub fn new(seed: u64) -> Self {
        Numbers(seed.wrapping_mul(0x9e37_79b9_7f4a_7c15) | 1)
    }

    pub fn next(&mut self) -> u64 {
        self.0 ^= self.0 << 13;
        self.0 ^= self.0 >> 7;
        self.0 ^= self.0 << 17;
        self.0
    }

    /// A number below `end`, which isn't 0.
    pub fn below(&mut self, end: usize) -> usize {
        ((self.next() >> 11) % end as u64) as usize
    }

    /// A number from `first` to `last`.
    pub fn between(&mut self, first: isize, last: isize) -> isize {
        first + self.below((last - first + 1) as usize) as isize
    }

    /// True once in `of` calls.
    pub fn once_in(&mut self, of: usize) -> bool {
        self.below(of) == 0
    }

    pub fn pick<T: Copy>(&mut self, items: &[T]) -> T {
        items[self.below(items.len())]
    }

    pub fn extreme_len(&mut self) -> usize {
        self.pick(&LENGTHS)
    }

    pub fn extreme_stride(&mut self) -> isize {
        self.pick(&STRIDES)
    }

    /// A shape of up to six axes and a few hundred indices.
    pub fn small_shape(&mut self) -> Vec<usize> {
        let axes = self.below(7);
        let longest = [0, 60, 14, 6, 4, 3, 3][axes];
        (0..axes).map(|_| self.small_len(longest)).collect()
    }

    /// A length up to `longest`: often 1, seldom 0.
    fn small_len(&mut self, longest: usize) -> usize {
        match self.below(16) {
            0 => 0,
            1..=3 => 1,
            _ => 1 + self.below(longest),
        }
    }

    /// A shape, seldom one with a length at the end of its type.
    pub fn shape(&mut self) -> Vec<usize> {
        let mut shape = self.small_shape();
        if self.once_in(6) {
            for len in &mut shape {
                if self.once_in(2) {
                    *len = self.extreme_len();
                }
            }
        }
        shape
    }

    /// The numbers below `count` in a random order.
    pub fn axis_order(&mut self, count: usize) -> Vec<usize> {
        let mut axes: Vec<usize> = (0..count).collect();
        for last in (1..count).rev() {
            let other = self.below(last + 1);
            axes.swap(last, other);
        }
        axes
    }

    /// A shape and strides: mostly those of a slice of an array, else any.
    pub fn layout(&mut self) -> (Vec<usize>, Vec<isize>) {
        let shape = self.shape();
        let mut strides = match self.below(8) {
            0 | 1 => shape.iter().map(|_| self.between(-20, 20)).collect(),
            2 => shape.iter().map(|_| self.extreme_stride()).collect(),
            _ => self.strides_of_a_slice(&shape),
        };
        if self.once_in(12) && !strides.is_empty() {
            let axis = self.below(strides.len());
            strides[axis] = self.extreme_stride();
        }
        if self.once_in(40) {
            strides.push(1);
        }
        if self.once_in(40) {
            strides.pop();
        }
        (shape, strides)
    }

    /// The strides of a slice, with steps of its own, of an array whose axes stand in some order.
    fn strides_of_a_slice(&mut self, shape: &[usize]) -> Vec<isize> {
        let axes = match self.below(4) {
            0 => self.axis_order(shape.len()),
            1 => (0..shape.len()).collect(),
            _ => (0..shape.len()).rev().collect(),
        };
        let mut strides = vec![0; shape.len()];
        let mut stride = 1isize;
        for axis in axes {
            let step = if self.once_in(4) { self.between(1, 3) } else { 1 };
            let sign = if self.once_in(5) { -1 } else { 1 };
            let len = shape[axis].max(1).min(isize::MAX as usize) as isize;
            strides[axis] = stride.wrapping_mul(step).wrapping_mul(sign);
            stride = stride.wrapping_mul(step).wrapping_mul(len);
        }
        strides
    }

    /// A start: mostly one at which the lowest place is near 0 or the highest near the limit.
    pub fn start(&mut self, low: i128, high: i128) -> usize {
        let limit = isize::MAX as i128;
        let (low, high) = (low.min(limit), high.min(limit));
        let start = match self.below(8) {
            0 => limit - high + self.between(-1, 1) as i128,
            1 => self.extreme_len() as i128,
            2 => low - 1,
            _ => low + self.below(20) as i128,
        };
        start.clamp(0, usize::MAX as i128) as usize
    }

    /// A number that counts as a bound of an axis, from either end, or lies outside.
    fn bound(&mut self, len: usize) -> isize {
        let len = len.min(isize::MAX as usize) as isize;
        match self.below(20) {
            0 => self.extreme_stride(),
            1 => len.saturating_add(1),
            2 => -len - 1,
            3 => len,
            4 => 1 - len.max(1),
            _ => self.between(-len.min(300), len.min(300)),
        }
    }

    fn elem(&mut self, len: usize) -> SliceInfoElem {
        if self.once_in(8) {
            return SliceInfoElem::Index(self.bound(len));
        }
        let step = match self.below(30) {
            0 => 0,
            1..=3 => self.extreme_stride(),
            4..=6 if len > 1_000 => (len / (1 + self.below(700))) as isize,
            _ => self.pick(&[1, 1, 2, 3, 5, 7, -1, -2, -4, -6]),
        };
        let start = if self.once_in(2) { 0 } else { self.bound(len) };
        let end = if self.once_in(2) { None } else { Some(self.bound(len)) };
        SliceInfoElem::Slice { start, end, step }
    }

    /// A slice of a shape, seldom with an element too few or too many.
    pub fn elems(&mut self, shape: &[usize]) -> Vec<SliceInfoElem> {
        let mut elems: Vec<_> = shape.iter().map(|len| self.elem(*len)).collect();
        if self.once_in(6) {
            let at = self.below(elems.len() + 1);
            elems.insert(at, SliceInfoElem::NewAxis);
        }
        match self.below(60) {
            0 => elems.push(SliceInfoElem::from(..)),
            1 => drop(elems.pop()),
            _ => {}
        }
        elems
    }
}

//! The tables of numbers that both sides read.
#![allow(dead_code)] // each program calls some of them

/// Numbers that both sides read: lists one after another, and the lengths of the data.
pub struct Lists {
    pub kind: usize,
    pub axes: usize,
    pub dims: Vec<usize>,
    pub strides: Vec<usize>,
    pub index: Vec<usize>,
    pub lens: Vec<usize>,
}

/// As `RawAxis` of the Rattle crate. It owes: `len` is below 2^63, and `(len - 1) * |stride|` at most `isize::MAX`.
#[repr(C)]
pub struct RawAxis {
    pub len: usize,
    pub stride: usize,
    pub start: isize,
    pub end: isize,
    pub step: isize,
    pub has_end: usize,
}

/// As `RawElem` there: the kind 0 is an index, 1 a slice, 2 a slice up to the end of the axis.
#[repr(C)]
pub struct RawElem {
    pub kind: usize,
    pub start: isize,
    pub end: isize,
    pub step: isize,
}

pub const SETS: usize = 1024;

/// splitmix64 from a fixed seed: the tables are the same in every run.
pub struct Rng(pub u64);

impl Rng {
    pub fn below(&mut self, n: usize) -> usize {
        self.0 = self.0.wrapping_add(0x9e3779b97f4a7c15);
        let z = (self.0 ^ (self.0 >> 30)).wrapping_mul(0xbf58476d1ce4e5b9);
        let z = (z ^ (z >> 27)).wrapping_mul(0x94d049bb133111eb);
        ((z ^ (z >> 31)) % n as u64) as usize
    }
    pub fn within(&mut self, low: usize, high: usize) -> usize {
        low + self.below(high - low + 1)
    }
}

/// Lengths `least` to `most`, axes in any order of stride, gaps of 0 to `gap`, either sign, all accepted; an index
/// of each.
fn lists_of(kind: usize, axes: usize, (least, most): (usize, usize), gap: usize) -> Lists {
    let mut rng = Rng(axes as u64);
    let mut lists = Lists { kind, axes, dims: vec![], strides: vec![], index: vec![], lens: vec![] };
    for _ in 0..SETS {
        let dim: Vec<usize> = (0..axes).map(|_| rng.within(least, most)).collect();
        let mut left: Vec<usize> = (0..axes).collect();
        let (mut strides, mut span) = (vec![0; axes], 0);
        while !left.is_empty() {
            let axis = left.swap_remove(rng.below(left.len()));
            let stride = span + 1 + rng.below(gap + 1);
            span += (dim[axis] - 1) * stride;
            strides[axis] = if rng.below(2) == 0 { stride } else { stride.wrapping_neg() };
        }
        lists.index.extend(dim.iter().map(|&n| rng.below(n)));
        lists.dims.extend(dim);
        lists.strides.extend(strides);
        lists.lens.push(span + 1 + rng.below(8));
    }
    lists
}

/// Layouts with gaps of 0 to 2, with lengths from 1 on.
pub fn lists(kind: usize, axes: usize, most: usize) -> Lists {
    lists_of(kind, axes, (1, most), 2)
}

/// The same with at least two coordinates on each axis, where both sides choose the same least stride.
pub fn long_lists(kind: usize, axes: usize, most: usize) -> Lists {
    lists_of(kind, axes, (2, most), 2)
}

/// Layouts without a gap, in some order of the axes, with either sign.
pub fn gapless_lists(kind: usize, axes: usize, most: usize) -> Lists {
    lists_of(kind, axes, (1, most), 0)
}

/// Row-major layouts, but that axes of length 1 have any stride.
pub fn row_lists(kind: usize, axes: usize, most: usize) -> Lists {
    let mut rng = Rng(17);
    let mut lists = lists_of(kind, axes, (1, most), 0);
    lists.lens.clear();
    for (dim, strides) in lists.dims.chunks_exact(axes).zip(lists.strides.chunks_exact_mut(axes)) {
        let mut size = 1;
        for (&len, stride) in dim.iter().zip(strides).rev() {
            *stride = if len == 1 { rng.below(1000).wrapping_sub(500) } else { size };
            size *= len;
        }
        lists.lens.push(size);
    }
    lists
}

/// Shapes of 4 axes that fit each other: either has a length of 1 at one axis of four.
pub fn pairs() -> [Vec<usize>; 2] {
    let mut rng = Rng(7);
    let mut pairs = [vec![], vec![]];
    for _ in 0..SETS * 4 {
        let len = rng.within(1, 9);
        for side in &mut pairs {
            side.push(if rng.below(4) == 0 { 1 } else { len });
        }
    }
    pairs
}

/// For each layout of 4 axes the axes to take and to merge into, and a coordinate of the first. Every second pair
/// of axes can be merged, where the layout has such a pair.
pub fn places(t: &Lists) -> Vec<usize> {
    let mut rng = Rng(23);
    let mut places = vec![];
    for (dim, strides) in t.dims.chunks_exact(4).zip(t.strides.chunks_exact(4)) {
        let take = rng.below(4);
        let mut into = (take + 1 + rng.below(3)) % 4;
        if rng.below(2) == 0 {
            let fits = |into: &usize| *into != take && strides[take] == dim[*into].wrapping_mul(strides[*into]);
            into = (0..4).find(fits).unwrap_or(into);
        }
        places.extend([take, into, rng.below(dim[take])]);
    }
    places
}

/// A slice that fits and isn't empty: start, end, step, whether there is an end; bounds from either side, steps -4
/// to 4.
fn slice(rng: &mut Rng, len: usize) -> (isize, isize, isize, bool) {
    let start = rng.below(len);
    let end = rng.within(start + 1, len);
    let mut from = |b: usize| {
        if rng.below(3) == 0 && b < len { b as isize - len as isize } else { b as isize }
    };
    let (from_start, from_end) = (from(start), from(end));
    let step = rng.within(1, 4) as isize * if rng.below(2) == 0 { 1 } else { -1 };
    let whole = end == len && rng.below(2) == 0;
    (from_start, from_end, step, !whole)
}

pub fn axes() -> Vec<RawAxis> {
    let mut rng = Rng(3);
    let mut axis = || {
        let (len, stride) = (rng.within(1, 100), rng.within(1, 50));
        let (start, end, step, has_end) = slice(&mut rng, len);
        RawAxis { len, stride, start, end, step, has_end: has_end as usize }
    };
    (0..SETS).map(|_| axis()).collect()
}

/// One element for each length: an index at the axis that `index_at` names, slices else.
pub fn elems(dims: &[usize], axes: usize, index_at: impl Fn(&mut Rng) -> usize) -> Vec<RawElem> {
    let mut rng = Rng(8);
    let mut elems = vec![];
    for dim in dims.chunks_exact(axes) {
        let at = index_at(&mut rng);
        for (axis, &len) in dim.iter().enumerate() {
            let (start, end, step, has_end) = slice(&mut rng, len);
            let kind = if axis == at {
                0
            } else if has_end {
                1
            } else {
                2
            };
            elems.push(RawElem { kind, start, end, step });
        }
    }
    elems
}

/// Layouts of 4 axes, and shapes of 3, all with an index.
pub struct Reshapes {
    pub dims: Vec<usize>,
    pub strides: Vec<usize>,
    pub tos: Vec<usize>,
    pub by_columns: bool,
}

/// Six factors from 2 to 4 are cut into 4 axes and into 3. The strides go on from axis to axis, or leave a gap
/// where both shapes are cut. Where `fails`, only the last two axes have a gap, and the other shape has one axis
/// there.
pub fn reshapes(by_columns: bool, fails: bool) -> Reshapes {
    let mut rng = Rng(31);
    let mut table = Reshapes { dims: vec![], strides: vec![], tos: vec![], by_columns };
    let cuts = |rng: &mut Rng, many: usize| {
        let mut cuts: Vec<usize> = vec![];
        while cuts.len() < many {
            let cut = rng.within(1, 5);
            if !cuts.contains(&cut) {
                cuts.push(cut);
            }
        }
        cuts.sort();
        cuts
    };
    let lens = |factors: &[usize], cuts: &[usize]| -> Vec<usize> {
        let ends = cuts.iter().copied().chain([factors.len()]);
        [0].into_iter()
            .chain(cuts.iter().copied())
            .zip(ends)
            .map(|(start, end)| factors[start..end].iter().product())
            .collect()
    };
    for _ in 0..SETS {
        let factors: Vec<usize> = (0..6).map(|_| rng.within(2, 4)).collect();
        let firsts = cuts(&mut rng, 3);
        let seconds = if fails { firsts[..2].to_vec() } else { cuts(&mut rng, 2) };
        let (mut dim, mut to) = (lens(&factors, &firsts), lens(&factors, &seconds));
        let mut strides = vec![0; 4];
        let mut stride = rng.within(1, 3);
        let is_negative = rng.below(2) == 0;
        for axis in (0..4).rev() {
            strides[axis] = if is_negative { stride.wrapping_neg() } else { stride };
            stride *= dim[axis];
            let is_loose =
                if fails { axis == 3 } else { axis > 0 && seconds.contains(&firsts[axis - 1]) && rng.below(2) == 0 };
            stride += if is_loose { rng.within(1, 3) } else { 0 };
        }
        if by_columns {
            dim.reverse();
            strides.reverse();
            to.reverse();
        }
        table.dims.extend(dim);
        table.strides.extend(strides);
        table.tos.extend(to);
    }
    table
}

/// What two arguments on a shape have in common.
#[derive(Clone, Copy, PartialEq)]
pub enum Sharing {
    /// They share an element.
    Some,
    /// They share a coordinate on each axis but the last one.
    AllButLast,
    /// They share an element, and the first argument has an index on some axis.
    WithIndex,
}

/// The coordinates that an element picks.
fn picks(raw: &RawElem, len: usize) -> Vec<usize> {
    let from_start = |bound: isize| {
        if bound < 0 { (len as isize + bound) as usize } else { bound as usize }
    };
    if raw.kind == 0 {
        return vec![from_start(raw.start)];
    }
    let (start, end) = (from_start(raw.start), if raw.kind == 1 { from_start(raw.end) } else { len });
    let by = raw.step.unsigned_abs();
    if raw.step > 0 { (start..end).step_by(by).collect() } else { (start..end).rev().step_by(by).collect() }
}

/// Two arguments for each shape.
pub fn slice_pairs(dims: &[usize], axes: usize, sharing: Sharing) -> [Vec<RawElem>; 2] {
    let mut rng = Rng(41);
    let mut lists = [vec![], vec![]];
    for dim in dims.chunks_exact(axes) {
        let at = rng.below(axes);
        for (axis, &len) in dim.iter().enumerate() {
            let is_index = sharing == Sharing::WithIndex && axis == at;
            let is_apart = sharing == Sharing::AllButLast && axis == axes - 1;
            let mut elem = |is_index: bool| {
                let (start, end, step, has_end) = slice(&mut rng, len);
                RawElem {
                    kind: if is_index {
                        0
                    } else if has_end {
                        1
                    } else {
                        2
                    },
                    start,
                    end,
                    step,
                }
            };
            let pair = loop {
                let pair = (elem(is_index), elem(false));
                let others = picks(&pair.1, len);
                if picks(&pair.0, len).iter().any(|coordinate| others.contains(coordinate)) != is_apart {
                    break pair;
                }
            };
            lists[0].push(pair.0);
            lists[1].push(pair.1);
        }
    }
    lists
}

/// For each layout of 4 axes a slice of 4 elements, and a row of 14 numbers: the shape, the strides, an axis of the
/// sliced view with a coordinate, the shape without that axis, and the length of the data.
pub struct Runs {
    pub elems: Vec<RawElem>,
    pub rows: Vec<usize>,
}

pub fn runs(t: &Lists) -> Runs {
    let mut rng = Rng(43);
    let mut runs = Runs { elems: elems(&t.dims, 4, |_| 4), rows: vec![] };
    for (((dim, strides), elems), len) in
        t.dims.chunks_exact(4).zip(t.strides.chunks_exact(4)).zip(runs.elems.chunks_exact(4)).zip(&t.lens)
    {
        let left: Vec<usize> = elems.iter().zip(dim).map(|(elem, &len)| picks(elem, len).len()).collect();
        let axis = rng.below(4);
        let to: Vec<usize> =
            left.iter().enumerate().filter(|&(other, _)| other != axis).map(|(_, &len)| len).collect();
        runs.rows.extend([dim, strides, &[axis, rng.below(left[axis])], &to, &[*len]].concat());
    }
    runs
}

/// Parts of an array: two elements for each, the ranges that they are, a place of it, and how many items all have.
pub struct Parts {
    pub elems: Vec<RawElem>,
    pub ranges: Vec<[std::ops::Range<usize>; 2]>,
    pub places: Vec<usize>,
    pub count: usize,
}

/// So many parts of so many rows and columns, anywhere in a row-major array.
pub fn parts(many: usize, shape: [usize; 2], part: [usize; 2]) -> Parts {
    let mut rng = Rng(47);
    let mut parts = Parts { elems: vec![], ranges: vec![], places: vec![], count: part[0] * part[1] };
    for _ in 0..many {
        let starts = [0, 1].map(|axis| rng.below(shape[axis] - part[axis] + 1));
        for axis in 0..2 {
            let (start, end) = (starts[axis] as isize, (starts[axis] + part[axis]) as isize);
            // (a row or a column is an index and the whole other axis)
            let kind = if part[axis] == shape[axis] {
                2
            } else if part[axis] == 1 {
                0
            } else {
                1
            };
            parts.elems.push(RawElem { kind, start, end, step: 1 });
        }
        parts.ranges.push([0, 1].map(|axis| starts[axis]..starts[axis] + part[axis]));
        parts.places.push((starts[0] + part[0] / 2) * shape[1] + starts[1] + part[1] / 2);
    }
    parts
}

//! How the cost of a call grows with the size of its arguments.
//!
//! usage: growth time CALL SIZE     nanoseconds of a call, least of some rounds, less what making its arguments takes
//!        growth peak CALL SIZE N   the greatest memory of this process in KiB, where the call is made N times

#[path = "by_rustc/ours.rs"]
mod ours;
mod tables;

extern crate ndarray_layout;

// (linked for its exports)
use bench_by_rustc as _;

use ndarray_layout::{
    ArrayViewMut, Axis, CanIndexCheckMode, Dimension, Fit, Ix1, Ix2, Ix3, IxDyn, LayoutError, Order, SliceInfoElem, Strided,
    compat::ShapeBuilder, s, slices_intersect,
};
use std::hint::black_box;
use std::time::Instant;
use tables::Lists;

const ROUNDS: usize = 5;
const ROUND_NS: f64 = 2e7;

/// How many axes of a layout have two coordinates, at most; the others have one, as the size of a shape has a limit.
const LONG_AXES: usize = 60;

// The reasons that growth.c asks the library for C for.
unsafe extern "C" {
    safe fn growth_reasons(call: usize, axes: usize, passes: usize) -> usize;
}

/// A row-major layout of so many axes, its long ones spread over all of them.
fn layout(axes: usize) -> Lists {
    let apart = axes.div_ceil(LONG_AXES);
    let dims: Vec<usize> = (0..axes).map(|axis| if axis % apart == 0 { 2 } else { 1 }).collect();
    let mut strides = vec![0; axes];
    let mut size = 1;
    for axis in (0..axes).rev() {
        strides[axis] = size;
        size *= dims[axis];
    }
    Lists { kind: 0, axes, dims, strides, index: vec![0; axes], lens: vec![size] }
}

/// The same, with two strides exchanged where there are three, so that the layout is neither row-major nor column-major.
fn out_of_order(axes: usize) -> Lists {
    let mut lists = layout(axes);
    let apart = axes.div_ceil(LONG_AXES);
    if 2 * apart < axes {
        lists.strides.swap(apart, 2 * apart);
    }
    lists
}

/// A view of such a layout, whose axes stand in the opposite order where it is column-major.
fn view(axes: usize, order: Order) -> Strided<IxDyn> {
    let Lists { mut dims, mut strides, lens, .. } = layout(axes);
    if order == Order::ColumnMajor {
        dims.reverse();
        strides.reverse();
    }
    Strided::new(IxDyn(&dims), IxDyn(&strides), 1, lens[0], CanIndexCheckMode::ReadOnly).expect("a layout")
}

/// A call of a view, whose result is read.
fn of_view<R>(
    view: Strided<IxDyn>,
    call: impl Fn(&Strided<IxDyn>) -> Result<R, LayoutError>,
) -> impl Fn(usize) -> usize {
    move |passes| (0..passes).map(|_| black_box(call(black_box(&view))).map_or(usize::MAX, |_| 1)).fold(0, usize::max)
}

/// Whether two arguments of so many slices share an index, the first of which picks each second coordinate.
fn two_slices(axes: usize, passes: usize) -> usize {
    let dim = IxDyn(&layout(axes).dims);
    let [first, second] = [2, 1].map(|step| vec![SliceInfoElem::Slice { start: 0, end: None, step }; axes]);
    let share = || slices_intersect(black_box(&dim), black_box(&first), black_box(&second), Fit::Strict);
    (0..passes).map(|_| share().map_or(usize::MAX, usize::from)).fold(0, usize::max)
}

/// In which order rows are named.
#[derive(Clone, Copy)]
enum Named {
    InOrder,
    AgainstIt,
    InNoOrder,
}

impl Named {
    /// An argument for each of so many rows of 8 items.
    fn rows(self, rows: usize) -> Vec<[SliceInfoElem; 2]> {
        // (some six tenths of the rows: a step that has no factor in common with a power of ten)
        let apart = ((rows * 618 / 1000) | 1) as isize;
        let row = |at: isize| match self {
            Named::InOrder => at,
            Named::AgainstIt => rows as isize - 1 - at,
            Named::InNoOrder => at * apart % rows as isize,
        };
        let all = SliceInfoElem::Slice { start: 0, end: None, step: 1 };
        (0..rows as isize).map(|at| [SliceInfoElem::Index(row(at)), all]).collect()
    }
}

/// Lends each of so many rows at once.
fn lend_rows(rows: usize, named: Named, passes: usize) -> usize {
    let (mut items, slices) = (vec![0u8; rows * 8], named.rows(rows));
    let mut lend = || {
        let array = ArrayViewMut::from_shape(Ix2(rows, 8), &mut items)?;
        Ok::<_, LayoutError>(array.multi_slice_move::<_, Ix1>(&slices)?.len())
    };
    (0..passes).map(|_| lend().unwrap_or(usize::MAX)).sum()
}

/// Lends the three planes of a picture of so many pixels, which have the three side by side, in rows of 1000.
fn lend_planes(pixels: usize, passes: usize) -> usize {
    let mut items = vec![0u8; pixels * 3];
    let all = SliceInfoElem::Slice { start: 0, end: None, step: 1 };
    let planes = [0, 1, 2].map(|plane| [all, all, SliceInfoElem::Index(plane)]);
    let mut lend = || {
        let picture = ArrayViewMut::from_shape(Ix3(pixels.div_ceil(1000), pixels.min(1000), 3), &mut items)?;
        Ok::<_, LayoutError>(picture.multi_slice_move::<_, Ix2>(&planes)?.len())
    };
    (0..passes).map(|_| lend().unwrap_or(usize::MAX)).sum()
}

/// Whether any two of so many rows share an item, which none do: by pairs, or sorted.
fn compare_rows(rows: usize, sorted: bool, passes: usize) -> usize {
    let view = Strided::new(Ix2(rows, 8), Ix2(8, 1), 1, rows * 8, CanIndexCheckMode::ReadOnly).expect("a layout");
    let slices = Named::InNoOrder.rows(rows);
    let find = || {
        let (view, slices) = (black_box(&view), black_box(&slices[..]));
        if sorted {
            view.first_intersection_sorted(slices, Fit::Strict)
        } else {
            view.first_intersection(slices, Fit::Strict)
        }
    };
    (0..passes).map(|_| if find() == Ok(None) { 1 } else { usize::MAX }).fold(0, usize::max)
}

/// Fills so many items, or adds them up: rows of 1000, each of which has a gap after it.
fn go_over_items(items: usize, fills: bool, passes: usize) -> usize {
    let [rows, columns] = [items.div_ceil(1000), items.min(1000)];
    let mut data = vec![1u32; rows * (columns + 1)];
    let mut array = ArrayViewMut::from_shape(ShapeBuilder::strides(Ix2(rows, columns), Ix2(columns + 1, 1)), &mut data)
        .expect("a layout");
    let mut pass = |pass: usize| {
        if fills {
            array.fill(black_box(pass as u32));
            return pass;
        }
        black_box(&array).iter().sum::<u32>() as usize
    };
    (0..passes).map(|at| black_box(pass(at))).fold(0, usize::max)
}

/// Lends each of so many rows of 8 items at once, as a part with a shape, from the first one on by a step.
fn lend_row_parts(rows: usize, [first, step]: [isize; 2], passes: usize) -> usize {
    let mut items = vec![0u8; rows * 8];
    let slices: Vec<_> = (0..rows as isize).map(|row| s![first + row * step, ..]).collect();
    let mut lend = || {
        let mut array = ArrayViewMut::from_shape(Ix2(rows, 8), &mut items)?;
        Ok::<_, LayoutError>(array.multi_slice_mut(&slices[..])?.len())
    };
    (0..passes).map(|_| lend().unwrap_or(usize::MAX)).sum()
}

/// Lends the three planes of such a picture as parts with shapes.
fn lend_plane_parts(pixels: usize, passes: usize) -> usize {
    let mut items = vec![0u8; pixels * 3];
    let mut lend = || {
        let mut picture = ArrayViewMut::from_shape(Ix3(pixels.div_ceil(1000), pixels.min(1000), 3), &mut items)?;
        Ok::<_, LayoutError>(picture.multi_slice_mut([0, 1, 2].map(|plane| s![.., .., plane]))?.len())
    };
    (0..passes).map(|_| lend().unwrap_or(usize::MAX)).sum()
}

/// The call of that name on arguments of a size, made so many times.
fn call_of(name: &str, size: usize) -> Box<dyn Fn(usize) -> usize> {
    let of_layout = |call: usize, lists: Lists| move |passes| ours::layouts(call, &lists, passes);
    match name {
        "can_index_slice" => Box::new(of_layout(0, layout(size))),
        "dim_stride_overlap" => Box::new(of_layout(1, out_of_order(size))),
        "index_checked" => Box::new(of_layout(2, layout(size))),
        "is_contiguous" => Box::new(of_layout(3, out_of_order(size))),
        "default_strides" => {
            let dims = layout(size).dims;
            Box::new(move |passes| ours::default_strides(size, &dims, passes))
        }
        "co_broadcast" => {
            let dims = layout(size).dims;
            Box::new(move |passes| ours::co_broadcast(0, size, &dims, &dims, passes))
        }
        "slice" => {
            let lists = layout(size);
            Box::new(move |passes| ours::slice_axes(&lists.dims, &lists.strides, lists.lens[0], passes))
        }
        "slices_intersect" => Box::new(move |passes| two_slices(size, passes)),
        "reshape" => Box::new(of_view(view(size, Order::RowMajor), |view| view.reshape(view.dim(), Order::RowMajor))),
        "permuted_axes" => {
            let axes: Vec<Axis> = (0..size).rev().map(Axis).collect();
            Box::new(of_view(view(size, Order::RowMajor), move |view| view.permuted_axes(&axes)))
        }
        "nearest" => Box::new(of_view(view(size, Order::ColumnMajor), |view| Ok(view.duplicate()?.nearest()))),
        "_fastest_varying_stride_order" => {
            Box::new(of_view(view(size, Order::RowMajor), |view| Ok(view.strides()._fastest_varying_stride_order()?)))
        }
        "nd_layout_start_reason" => Box::new(move |passes| growth_reasons(0, size, passes)),
        "nd_reshape_reason" => Box::new(move |passes| growth_reasons(1, size, passes)),
        "nd_permuted_axes_reason" => Box::new(move |passes| growth_reasons(2, size, passes)),
        "run" => Box::new(move |passes| ours::steps(size, passes)),
        "places" => {
            Box::new(move |passes| ours::places(size.div_ceil(1000), size.min(1000), [size.min(1000), 1], size, passes))
        }
        "multi_set in order" => Box::new(move |passes| ours::rows(size, 8, [0, 1], passes)),
        "multi_set against it" => Box::new(move |passes| ours::rows(size, 8, [size as isize - 1, -1], passes)),
        "multi_slice_move in order" => Box::new(move |passes| lend_rows(size, Named::InOrder, passes)),
        "multi_slice_move against it" => Box::new(move |passes| lend_rows(size, Named::AgainstIt, passes)),
        "multi_slice_move in no order" => Box::new(move |passes| lend_rows(size, Named::InNoOrder, passes)),
        "first_intersection in no order" => Box::new(move |passes| compare_rows(size, false, passes)),
        "first_intersection_sorted in no order" => Box::new(move |passes| compare_rows(size, true, passes)),
        "fill" => Box::new(move |passes| go_over_items(size, true, passes)),
        "iter().sum()" => Box::new(move |passes| go_over_items(size, false, passes)),
        "multi_slice_move of planes" => Box::new(move |passes| lend_planes(size, passes)),
        "multi_slice_mut in order" => Box::new(move |passes| lend_row_parts(size, [0, 1], passes)),
        "multi_slice_mut against it" => Box::new(move |passes| lend_row_parts(size, [size as isize - 1, -1], passes)),
        "multi_slice_mut of planes" => Box::new(move |passes| lend_plane_parts(size, passes)),
        _ => panic!("{name} is no call here"),
    }
}

fn time_ns(call: &dyn Fn(usize) -> usize, passes: usize) -> f64 {
    let start = Instant::now();
    let sum = black_box(call(black_box(passes)));
    assert_ne!(sum, usize::MAX, "the arguments can't be made");
    start.elapsed().as_nanos() as f64
}

fn least_ns(call: &dyn Fn(usize) -> usize, passes: usize) -> f64 {
    (0..ROUNDS).map(|_| time_ns(call, passes)).fold(f64::INFINITY, f64::min)
}

/// So many passes that they take a round's time beside that of making the arguments, which differs from round to round.
fn passes_of(call: &dyn Fn(usize) -> usize, without: f64) -> usize {
    let mut passes = 1;
    while time_ns(call, passes) < 2.0 * without + ROUND_NS {
        passes *= 2;
    }
    passes
}

fn print_time(call: &dyn Fn(usize) -> usize) {
    let without = least_ns(call, 0);
    let passes = passes_of(call, without);
    println!("{}", (least_ns(call, passes) - without) / passes as f64);
}

/// What Linux calls the high-water mark of the memory of this process.
fn peak_kib() -> usize {
    let status = std::fs::read_to_string("/proc/self/status").expect("Linux");
    let line = status.lines().find(|line| line.starts_with("VmHWM")).expect("a peak");
    line.split_whitespace().nth(1).expect("a number").parse().expect("a number")
}

fn main() {
    let words: Vec<String> = std::env::args().skip(1).collect();
    let call = call_of(&words[1], words[2].parse().expect("a size"));
    if words[0] == "time" {
        print_time(&*call);
    } else {
        black_box(call(words[3].parse().expect("a count")));
        println!("{}", peak_kib());
    }
}

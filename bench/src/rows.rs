//! The calls that are timed. Each works on the tables of numbers that it is given.
use super::ours;
use crate::tables::{self, Lists, Parts, RawElem, SETS, Sharing};
use crate::theirs;
use crate::timing::{Row, row};

/// How many places, or indices, the greatest shapes have.
const PLACES: usize = 1_000_000;

/// Keeps a table as long as the program lives.
fn kept<T>(table: T) -> &'static T {
    Box::leak(Box::new(table))
}

/// A table of layouts for each dimension type: its name, its kind, its count of axes, the greatest length.
fn by_kind(table: fn(usize, usize, usize) -> Lists) -> Vec<(&'static str, &'static Lists)> {
    let kinds = [
        ("Ix2", 2, 2, 60),
        ("Ix3", 3, 3, 20),
        ("Ix4", 4, 4, 8),
        ("Ix6", 6, 6, 4),
        ("IxDyn(4)", 14, 4, 8),
        ("IxDyn(6)", 16, 6, 4),
    ];
    kinds.map(|(name, kind, axes, most)| (name, kept(table(kind, axes, most)))).to_vec()
}

fn layout_row(call: usize, name: String, t: &'static Lists, data: &'static [u32]) -> Row {
    row(name, SETS, move |n| theirs::layouts(call, t, data, n), move |n| ours::layouts(call, t, n))
}

/// Calls that read a layout.
fn of_layouts() -> Vec<Row> {
    let data = kept(vec![0u32; 1 << 20]);
    let (any, gapless, long) = (by_kind(tables::lists), by_kind(tables::gapless_lists), by_kind(tables::long_lists));
    let row_of = |call, name, t| layout_row(call, name, t, data);
    let mut rows = vec![];
    for (call, name) in ["can_index_slice", "dim_stride_overlap", "index_checked"].iter().enumerate() {
        rows.extend(any.iter().map(|(kind, t)| row_of(call, format!("{name} {kind}"), t)));
    }
    for (name, kind, axes, most) in [("Ix3", 3, 3, 20), ("Ix4", 4, 4, 8), ("IxDyn(4)", 14, 4, 8)] {
        let t = kept(tables::row_lists(kind, axes, most));
        rows.push(row_of(1, format!("dim_stride_overlap {name}, row-major"), t));
    }
    for at in [2, 4] {
        let kind = any[at].0;
        rows.push(row_of(3, format!("is_contiguous {kind}, contiguous"), gapless[at].1));
        rows.push(row_of(3, format!("is_contiguous {kind}, with gaps"), any[at].1));
    }
    rows.push(row_of(4, "is_layout_c Ix4, row-major".into(), kept(tables::row_lists(4, 4, 8))));
    rows.push(row_of(4, "is_layout_c Ix4, in any order".into(), gapless[2].1));
    rows.extend([0, 2, 4].map(|at| row_of(5, format!("min_stride_axis {}", long[at].0), long[at].1)));
    for (kind, t) in [any[1], any[4]] {
        let name = format!("stride_offset {kind}");
        rows.push(row(name, SETS, |n| theirs::stride_offset_loop(t, n), |n| ours::stride_offset(t, n)));
    }
    rows
}

/// Calls that make or change lists of lengths.
fn of_shapes() -> Vec<Row> {
    let dims = &kept(tables::lists(14, 4, 8)).dims;
    let [firsts, seconds] = kept(tables::pairs());
    let packed = kept(tables::gapless_lists(4, 4, 8));
    let places = kept(tables::places(packed));
    let name = "default_strides IxDyn(4)";
    let mut rows = vec![row(name, SETS, |n| theirs::default_strides(dims, n), |n| ours::default_strides(4, dims, n))];
    for (kind, name) in [(4, "Ix4"), (14, "IxDyn(4)")] {
        rows.push(row(
            format!("co_broadcast {name}"),
            SETS,
            move |n| theirs::co_broadcast_loop(kind, firsts, seconds, n),
            move |n| ours::co_broadcast(kind, 4, firsts, seconds, n),
        ));
        for (call, edit) in [(0, "merge_axes"), (1, "do_collapse_axis")] {
            rows.push(row(
                format!("{edit} {name}, of a copy"),
                SETS,
                move |n| theirs::edits(call, kind, packed, places, n),
                move |n| ours::edits(call, kind, packed, places, n),
            ));
        }
    }
    rows
}

/// Slices of an axis and of views.
fn of_slices() -> Vec<Row> {
    let axes = kept(tables::axes());
    let (ix2, dyn4) = (kept(tables::lists(2, 2, 60)), kept(tables::lists(14, 4, 8)));
    let two = kept(tables::elems(&ix2.dims, 2, |rng| rng.below(2)));
    let four = kept(tables::elems(&dyn4.dims, 4, |rng| rng.below(8)));
    let mut rows = vec![row("do_slice", SETS, |n| theirs::do_slice_loop(axes, n), |n| ours::do_slice(axes, n))];
    for (name, t, elems) in
        [("Strided::slice Ix2 to Ix1 *", ix2, two), ("Strided::slice IxDyn(4) *", dyn4, four)]
    {
        rows.push(row(name, SETS, move |n| theirs::slice(t, elems, n), move |n| ours::slice(t, elems, n)));
    }
    rows
}

fn intersection_row(name: String, dims: &'static [usize], axes: usize, elems: &'static [Vec<RawElem>; 2]) -> Row {
    row(name, SETS, move |n| theirs::intersect(axes, dims, elems, n), move |n| ours::intersect(axes, dims, elems, n))
}

/// Reshapes, and whether two slice arguments share an element.
fn of_reshapes_and_intersections() -> Vec<Row> {
    let mut rows = vec![];
    for (name, kind, by_columns, fails) in [
        ("reshape_dim Ix4 to Ix3", 4, false, false),
        ("reshape_dim Ix4 to Ix3, an error at the last joint", 4, false, true),
        ("reshape_dim IxDyn(4) to 3, row-major", 14, false, false),
        ("reshape_dim IxDyn(4) to 3, column-major", 14, true, false),
        ("Strided::reshape IxDyn(4) to 3 *", 0, false, false),
    ] {
        let t = kept(tables::reshapes(by_columns, fails));
        rows.push(row(name, SETS, move |n| theirs::reshapes(kind, t, n), move |n| ours::reshapes(kind, t, n)));
    }
    for (name, t) in [("Ix2", tables::lists(2, 2, 60)), ("IxDyn(4)", tables::lists(14, 4, 8))] {
        // (arguments on axes of one coordinate always share it)
        let dims = kept(t.dims.iter().map(|&len| len + 2).collect::<Vec<usize>>());
        for (how, sharing) in [
            ("they share an element", Sharing::Some),
            ("apart on the last axis", Sharing::AllButLast),
            ("with an index", Sharing::WithIndex),
        ] {
            let elems = kept(tables::slice_pairs(dims, t.axes, sharing));
            rows.push(intersection_row(format!("slices_intersect {name}, {how}"), dims, t.axes, elems));
        }
    }
    rows
}

fn array_row(call: (&str, bool), name: &str, shape: [usize; 2], t: &'static Parts, many: usize) -> Row {
    let writes = call.1;
    // (a large part is timed by its items, a small one as a whole)
    let items = if many == SETS { many } else { many * t.count };
    row(
        format!("{}, {name}", call.0),
        items,
        move |n| theirs::owned(writes, shape, t, n),
        move |n| ours::owned(writes, shape, t, n),
    )
}

/// Runs of steps, and arrays that own their items.
fn of_runs_and_arrays() -> Vec<Row> {
    let runs = kept(tables::runs(&tables::lists(14, 4, 8)));
    let name = "run of 3 steps IxDyn(4), of a copy *";
    let mut rows = vec![row(name, SETS, |n| theirs::run_steps(runs, n), |n| ours::run(&runs.rows, &runs.elems, n))];
    let large = [1000, 1000];
    for (name, shape, part, many) in [
        ("a row *, an item", large, [1, 1000], 16),
        ("a column *, an item", large, [1000, 1], 16),
        ("two columns *, an item", large, [1000, 2], 16),
        ("all of 1000x2 *, an item", [1000, 2], [1000, 2], 16),
        ("a tile of 3x3 *", large, [3, 3], SETS),
        ("a row of 10x10 *", [10, 10], [1, 10], SETS),
    ] {
        let t = kept(tables::parts(many, shape, part));
        rows.push(array_row(("items", false), name, shape, t, many));
        rows.push(array_row(("multi_set", true), name, shape, t, many));
    }
    let name = "multi_set, all rows *, a row";
    rows.push(row(name, 1000, |n| theirs::rows(1000, 1000, n), |n| ours::rows(1000, 1000, [0, 1], n)));
    let name = "multi_set, all 2500 tiles *, a tile";
    rows.push(row(name, 2500, |n| theirs::tiles(50, 20, n), |n| ours::tiles(50, 20, n)));
    rows
}

/// Loops over the places of a view, each beside two others: nested loops by hand, and ndarray's steps from index to index.
fn of_place_iterators() -> Vec<Row> {
    const LISTS: [&[usize]; 2] = [&[1000, 1000], &[1000, 1]];
    let data = kept((0..PLACES).map(|at| at as u8).collect::<Vec<u8>>());
    let mut rows = vec![];
    for (name, kind) in [("Ix2", 2), ("IxDyn", 0)] {
        for (how, reads) in [("mixed", false), ("read", true)] {
            for (beside, hand) in [("loops", true), ("next_for", false)] {
                let way = theirs::PlacesWay { hand, reads, kind };
                rows.push(row(
                    format!("iter_places {name} beside {beside} *, {how}"),
                    PLACES,
                    move |n| theirs::iter_places(way, LISTS, data, n),
                    move |n| ours::iter_places(kind, reads, LISTS, data, n),
                ));
            }
        }
    }
    rows
}

/// Iterators over all indices of a shape, and all places of a view.
fn of_iterators() -> Vec<Row> {
    let mut rows = vec![];
    for (name, row_by_row) in
        [("places beside next_for *, a place", false), ("places beside rows *, a place", true)]
    {
        rows.push(row(
            name,
            PLACES,
            move |n| theirs::places(row_by_row, 1000, 1000, [1000, 1], n),
            move |n| ours::places(1000, 1000, [1000, 1], PLACES, n),
        ));
    }
    for (name, by_columns) in
        [("IndicesIter, an index", false), ("indices_iter_f, an index", true)]
    {
        rows.push(row(
            name,
            PLACES,
            move |n| theirs::indices_two(by_columns, [1000, 1000], n),
            move |n| ours::indices_two(by_columns, [1000, 1000], n),
        ));
    }
    let name = "IndicesIter 100x100x100, an index";
    rows.push(row(name, PLACES, |n| theirs::indices_three([100; 3], n), |n| ours::indices_three([100; 3], n)));
    rows
}

pub fn all() -> Vec<Row> {
    let groups = [
        of_layouts(),
        of_shapes(),
        of_slices(),
        of_reshapes_and_intersections(),
        of_runs_and_arrays(),
        of_iterators(),
        of_place_iterators(),
    ];
    groups.into_iter().flatten().collect()
}

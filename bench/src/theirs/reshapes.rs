//! Reshapes, and runs that end with one.
use super::*;

struct ReshapeCase<D, E> {
    from: D,
    strides: D,
    to: E,
    order: Order,
}

#[inline(never)]
fn reshaped_strides<D: Dimension, E: Dimension>(case: &ReshapeCase<D, E>) -> Result<E, ShapeError> {
    reshape_dim(&case.from, &case.strides, &case.to, case.order)
}

fn run_reshapes<D: Dimension, E: Dimension>(t: &Reshapes, passes: usize) -> usize {
    let order = if t.by_columns { Order::ColumnMajor } else { Order::RowMajor };
    let each = t.dims.chunks_exact(4).zip(t.strides.chunks_exact(4)).zip(t.tos.chunks_exact(3));
    let case = |((dim, strides), to): ((&[usize], &[usize]), &[usize])| ReshapeCase {
        from: dimension(dim),
        strides: dimension(strides),
        to: dimension(to),
        order,
    };
    let cases: Vec<ReshapeCase<D, E>> = each.map(case).collect();
    let mut sum = 0usize;
    for _ in 0..passes {
        for case in &cases {
            let number = match reshaped_strides(case) {
                Ok(strides) => strides.slice().first().copied().unwrap_or(0),
                Err(error) => number_of_kind(error.kind()),
            };
            sum = sum.wrapping_add(number);
        }
    }
    sum
}

pub fn reshapes(kind: usize, t: &Reshapes, passes: usize) -> usize {
    match kind {
        4 => run_reshapes::<Ix4, Ix3>(t, passes),
        _ => run_reshapes::<IxDyn, IxDyn>(t, passes),
    }
}

struct RunCase {
    view: View<IxDyn>,
    info: [SliceInfoElem; 4],
    axis: usize,
    coordinate: usize,
    to: IxDyn,
}

/// Three steps by hand, of a copy: a slice, one coordinate of an axis, and a reshape.
#[inline(never)]
fn three_steps(case: &RunCase) -> Result<View<IxDyn>, ShapeError> {
    let view = View { start: case.view.start, dim: case.view.dim.clone(), strides: case.view.strides.clone() };
    let mut view = slice_view(&view, &case.info[..]);
    assert!(case.axis < view.dim.ndim() && case.coordinate < view.dim[case.axis]);
    let offset = do_collapse_axis(&mut view.dim, &view.strides, case.axis, case.coordinate);
    let strides = reshape_dim(&view.dim, &view.strides, &case.to, Order::RowMajor)?;
    Ok(View { start: (view.start as isize + offset) as usize, dim: case.to.clone(), strides })
}

pub fn run_steps(runs: &Runs, passes: usize) -> usize {
    let each = runs.rows.chunks_exact(14).zip(runs.elems.chunks_exact(4));
    let case = |(row, elems): (&[usize], &[RawElem])| {
        let (dim, strides): (IxDyn, IxDyn) = (dimension(&row[..4]), dimension(&row[4..8]));
        let start = offset_from_low_addr_ptr_to_logical_ptr(&dim, &strides);
        let info = [0, 1, 2, 3].map(|axis| elem_of(&elems[axis]));
        RunCase {
            view: View { start, dim, strides },
            info,
            axis: row[8],
            coordinate: row[9],
            to: dimension(&row[10..13]),
        }
    };
    let cases: Vec<RunCase> = each.map(case).collect();
    let mut sum = 0usize;
    for _ in 0..passes {
        for case in &cases {
            let number = match three_steps(case) {
                Ok(view) => view.start.wrapping_add(view.strides.slice().first().copied().unwrap_or(0)),
                Err(_) => 1_000_000,
            };
            sum = sum.wrapping_add(number);
        }
    }
    sum
}

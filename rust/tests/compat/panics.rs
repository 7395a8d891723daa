//! Where ndarray panics, the call of `compat` does, with what is wrong.

use ndarray_layout::compat::{
    Array0, Array1, Array2, ArrayExt, Axis, Dimension, DimensionExt, Ix0, Ix1, Ix2, Ix3, IxDyn, Order, RemoveAxis,
    Slice, SliceInfoElem, co_broadcast, do_collapse_axis, do_slice, extended_gcd, merge_axes, reshape_dim, s,
    slice_min_max, slices_intersect, solve_linear_diophantine_eq, to_abs_slice,
};
use std::cell::RefCell;
use std::panic::{UnwindSafe, catch_unwind, set_hook, take_hook};

/// What a call says as it panics.
fn said<T>(call: impl FnOnce() -> T + UnwindSafe) -> String {
    let payload = catch_unwind(call).err().expect("a call that panics");
    let text = payload.downcast_ref::<String>().cloned();
    text.or_else(|| payload.downcast_ref::<&str>().map(ToString::to_string)).expect("a text")
}

const PAST_THE_END: &str = "ShapeError/OutOfBounds: out of bounds indexing";

const NO_STEP: &str = "ShapeError/Unsupported: unsupported operation";

#[test]
fn a_slice_that_does_not_fit_its_axis() {
    assert_eq!(said(|| to_abs_slice(4, Slice::new(5, None, 1))), PAST_THE_END);
    assert_eq!(said(|| to_abs_slice(4, Slice::new(-5, None, 1))), PAST_THE_END);
    assert_eq!(said(|| do_slice(&mut 4, &mut 1, Slice::new(0, Some(5), 1))), PAST_THE_END);
    assert_eq!(said(|| slice_min_max(4, Slice::new(5, Some(2), 1))), PAST_THE_END);
    assert_eq!(said(|| slices_intersect(&Ix1(4), s![..], s![..9])), PAST_THE_END);
    assert_eq!(said(|| Array1::<u8>::zeros(4).slice(s![4]).len()), PAST_THE_END);
    let no_step = Slice { start: 0, end: None, step: 0 };
    assert_eq!(said(|| to_abs_slice(4, no_step)), NO_STEP);
    assert_eq!(said(|| do_slice(&mut 4, &mut 1, no_step)), NO_STEP);
    assert_eq!(said(|| slice_min_max(4, no_step)), NO_STEP);
    let bare = [SliceInfoElem::from(no_step)];
    assert_eq!(said(|| slices_intersect(&IxDyn(&[4]), &bare[..], &bare[..])), NO_STEP);
}

#[test]
fn an_axis_or_a_coordinate_that_is_not_there() {
    assert_eq!(said(|| do_collapse_axis(&mut Ix2(4, 5), &Ix2(5, 1), 1, 5)), "there is no such coordinate");
    assert!(said(|| do_collapse_axis(&mut Ix2(4, 5), &Ix2(5, 1), 2, 0)).contains("out of bounds"));
    assert!(said(|| merge_axes(&mut Ix2(4, 5), &mut Ix2(5, 1), Axis(0), Axis(2))).contains("out of bounds"));
    assert!(said(|| Ix2(4, 5).axis(Axis(2))).contains("out of bounds"));
    assert_eq!(said(|| Ix2(4, 5).insert_axis(Axis(3))), "an axis is inserted past the last one");
    assert_eq!(said(|| Ix2(4, 5).try_remove_axis(Axis(2))), "there is no such axis");
    assert_eq!(said(|| IxDyn(&[4]).remove_axis(Axis(1))), "there is no such axis");
    assert_eq!(said(|| IxDyn(&[]).set_last_elem(1)), "there is no axis");
    assert_eq!(said(|| Ix0().min_stride_axis(&Ix0())), "there is no axis");
    assert_eq!(said(|| IxDyn(&[]).max_stride_axis(&IxDyn(&[]))), "there is no axis");
}

#[test]
fn a_count_of_axes_that_the_type_does_not_have() {
    assert_eq!(said(|| Ix2::zeros(3)), "the type has another count of axes");
    assert_eq!(said(|| co_broadcast::<Ix2, Ix1, Ix3>(&Ix2(4, 5), &Ix1(5))), "the type has another count of axes");
}

#[test]
fn a_layout_of_two_counts_of_axes() {
    let other_count = said(|| reshape_dim(&IxDyn(&[4]), &IxDyn(&[]), &Ix1(4), Order::C));
    assert!(other_count.contains("as many strides as axes"));
}

#[test]
fn a_number_past_its_type() {
    assert_eq!(said(|| extended_gcd(isize::MIN, 0)), "a number is past isize: TryFromIntError(())");
    assert_eq!(said(|| solve_linear_diophantine_eq(0, 6, 3)), "an equation has a factor of 0");
    let said = said(|| Array1::<u64>::zeros(usize::MAX).stored().len());
    assert_eq!(said, "the array is not made: ShapeError/Overflow: arithmetic overflow");
}

thread_local! {
    /// The file in which this thread has panicked last.
    static FILE: RefCell<String> = RefCell::default();
}

#[test]
fn a_panic_names_the_line_that_made_the_call() {
    let print = take_hook();
    set_hook(Box::new(move |panic| {
        FILE.set(panic.location().map_or_else(String::new, |place| place.file().to_string()));
        print(panic);
    }));
    let file_of = |call: fn()| (said(call), FILE.take()).1;
    assert_eq!(file_of(|| _ = to_abs_slice(4, Slice::new(5, None, 1))), file!());
    assert_eq!(file_of(|| _ = slices_intersect(&Ix1(4), s![..], s![..9])), file!());
    assert_eq!(file_of(|| _ = Array1::<u8>::zeros(4).slice(s![4]).len()), file!());
    assert_eq!(file_of(|| _ = Array1::<u64>::zeros(usize::MAX)), file!());
    assert_eq!(file_of(|| _ = Array2::<u64>::zeros((2, 3))[(2, 0)]), file!());
    assert_eq!(file_of(|| Array2::<u64>::zeros((2, 3)).rows().for_each(|row| _ = row[3])), file!());
    assert_eq!(file_of(|| _ = Array0::from_elem((), 1).into_dyn().outer_iter()), file!());
}

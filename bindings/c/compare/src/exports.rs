//! The exports of the library, whose names have a suffix, and those of the package, each in a function over slices.

use crate::ndarray_layout_c::elements::RawElem;
use crate::ndarray_layout_c::reasons::Reason;

/// Functions over lists, each of which calls C's function of its name: a list is a pointer and a count there.
macro_rules! exports {
    (@$name:ident $suffix:tt [$($taken:tt)*] [$($declared:tt)*] [$($passed:tt)*] $list:ident: &[$item:ty], $($rest:tt)*) => {
        exports!(@$name $suffix [$($taken)* $list: &[$item],] [$($declared)* _: *const $item, _: usize,]
            [$($passed)* $list.as_ptr(), $list.len(),] $($rest)*);
    };
    (@$name:ident $suffix:tt [$($taken:tt)*] [$($declared:tt)*] [$($passed:tt)*] $list:ident: &mut [$item:ty], $($rest:tt)*) => {
        exports!(@$name $suffix [$($taken)* $list: &mut [$item],] [$($declared)* _: *mut $item, _: usize,]
            [$($passed)* $list.as_mut_ptr(), $list.len(),] $($rest)*);
    };
    (@$name:ident $suffix:tt [$($taken:tt)*] [$($declared:tt)*] [$($passed:tt)*] $place:ident: &mut $item:ty, $($rest:tt)*) => {
        exports!(@$name $suffix [$($taken)* $place: &mut $item,] [$($declared)* _: *mut $item,] [$($passed)* $place,] $($rest)*);
    };
    (@$name:ident $suffix:tt [$($taken:tt)*] [$($declared:tt)*] [$($passed:tt)*] $number:ident: $type:ty, $($rest:tt)*) => {
        exports!(@$name $suffix [$($taken)* $number: $type,] [$($declared)* _: $type,] [$($passed)* $number,] $($rest)*);
    };
    (@$name:ident ($($suffix:tt)*) [$($taken:tt)*] [$($declared:tt)*] [$($passed:tt)*]) => {
        pub fn $name($($taken)*) -> i32 {
            #[link(name = "ndarray_layout", kind = "static")]
            unsafe extern "C" {
                #[link_name = concat!(stringify!($name), $($suffix)*)]
                fn $name($($declared)*) -> i32;
            }
            // SAFETY: each list is a slice with its own count; what is written is borrowed for the call alone.
            unsafe { $name($($passed)*) }
        }
    };
    ($($name:ident($($parameters:tt)*);)*) => {
        /// The name of each.
        pub const CALLS: &[&str] = &[$(stringify!($name)),*];

        pub mod proved {
            use super::*;
            $(exports!(@$name (env!("ND_SUFFIX")) [] [] [] $($parameters)*,);)*
        }

        pub mod erased {
            use super::*;
            $(exports!(@$name ("") [] [] [] $($parameters)*,);)*
        }
    };
}

exports! {
    nd_layout_start(shape: &[usize], strides: &[usize], elem_size: usize, len: usize, mode: i32, start: &mut usize);
    nd_check_layout(start: usize, shape: &[usize], strides: &[usize], elem_size: usize, len: usize, mode: i32);
    nd_has_overlap(shape: &[usize], strides: &[usize], answer: &mut i32);
    nd_default_strides(shape: &[usize], strides: &mut [usize]);
    nd_fortran_strides(shape: &[usize], strides: &mut [usize]);
    nd_is_contiguous(shape: &[usize], strides: &[usize], answer: &mut i32);
    nd_is_layout_c(shape: &[usize], strides: &[usize], answer: &mut i32);
    nd_is_layout_f(shape: &[usize], strides: &[usize], answer: &mut i32);
    nd_place(start: usize, shape: &[usize], strides: &[usize], index: &[usize], place: &mut usize);
    nd_next_index(shape: &[usize], index: &mut [usize], order: i32, has_next: &mut i32);
    nd_places(start: usize, shape: &[usize], strides: &[usize], order: i32, places: &mut [usize]);
    nd_rows(start: usize, shape: &[usize], strides: &[usize], order: i32, starts: &mut [usize], stride: &mut isize,
        len: &mut usize);
    nd_joined_in_all(shape: &[usize], strides: &[usize], order: i32, new_strides: &mut [usize], count: &mut usize,
        len: &mut usize);
    nd_slice(start: usize, shape: &[usize], strides: &[usize], elems: &[RawElem], fit: i32, new_start: &mut usize,
        new_shape: &mut [usize], new_strides: &mut [usize]);
    nd_slices_intersect(shape: &[usize], first: &[RawElem], second: &[RawElem], fit: i32, answer: &mut i32);
    nd_first_intersection(shape: &[usize], elems: &[RawElem], counts: &[usize], fit: i32, pair: &mut [usize],
        found: &mut i32);
    nd_picked(shape: &[usize], elems: &[RawElem], fit: i32, count: &mut usize);
    nd_co_broadcast(first: &[usize], second: &[usize], common: &mut [usize]);
    nd_broadcast(shape: &[usize], strides: &[usize], target: &[usize], new_strides: &mut [usize]);
    nd_merge_axes(shape: &mut [usize], strides: &mut [usize], take: usize, into: usize, merged: &mut i32);
    nd_reshape(shape: &[usize], strides: &[usize], new_shape: &[usize], order: i32, new_strides: &mut [usize]);
    nd_permuted_axes(shape: &[usize], strides: &[usize], axes: &[usize], new_shape: &mut [usize], new_strides: &mut [usize]);
    nd_windows(shape: &[usize], strides: &[usize], window: &[usize], new_shape: &mut [usize], new_strides: &mut [usize]);
    nd_exact_chunks(shape: &[usize], strides: &[usize], chunk: &[usize], new_shape: &mut [usize], new_strides: &mut [usize]);
    nd_split_at(start: usize, shape: &[usize], strides: &[usize], axis: usize, index: usize, new_starts: &mut [usize],
        new_shapes: &mut [usize], new_strides: &mut [usize]);
    nd_diag(shape: &[usize], strides: &[usize], len: &mut usize, stride: &mut isize);
    nd_stretch(start: usize, shape: &[usize], strides: &[usize], order: i32, first: &mut usize, end: &mut usize,
        found: &mut i32);
    nd_slice_reason(shape: &[usize], elems: &[RawElem], fit: i32, reason: &mut Reason);
    nd_layout_start_reason(shape: &[usize], strides: &[usize], elem_size: usize, len: usize, mode: i32, reason: &mut Reason);
    nd_check_layout_reason(start: usize, shape: &[usize], strides: &[usize], elem_size: usize, len: usize, mode: i32,
        reason: &mut Reason);
    nd_reshape_reason(shape: &[usize], strides: &[usize], new_shape: &[usize], order: i32, reason: &mut Reason);
    nd_permuted_axes_reason(shape: &[usize], axes: &[usize], reason: &mut Reason);
    nd_index_reason(shape: &[usize], index: &[usize], reason: &mut Reason);
    nd_co_broadcast_reason(first: &[usize], second: &[usize], reason: &mut Reason);
    nd_broadcast_reason(shape: &[usize], target: &[usize], reason: &mut Reason);
    nd_windows_reason(shape: &[usize], window: &[usize], reason: &mut Reason);
    nd_exact_chunks_reason(shape: &[usize], chunk: &[usize], reason: &mut Reason);
    nd_split_at_reason(shape: &[usize], axis: usize, index: usize, reason: &mut Reason);
    nd_merge_axes_reason(shape: &[usize], take: usize, into: usize, reason: &mut Reason);
    nd_version(major: &mut i32, minor: &mut i32, patch: &mut i32);
    nd_status_text(status: i32, text: &mut [u8], used: &mut usize);
}

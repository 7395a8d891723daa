//! What programs over ndarray write most, an idiom to a line: by its own text, by one of the package that is near it, or by another one.

#![allow(
    clippy::useless_conversion,
    clippy::double_ended_iterator_last,
    clippy::manual_next_back,
    reason = "ndarray's texts"
)]

use ndarray_layout::Order;
use ndarray_layout::compat::prelude::*;
use std::collections::HashSet;
use std::error::Error;

type Tested = Result<(), Box<dyn Error>>;

/// Two equal arrays, 0 1 2, 3 4 5; their items as a list; 0 1 2 3 4; `[2,3,2]` of 0, 1, .. 11; and the first of any number of axes.
#[allow(clippy::type_complexity)]
fn arrays() -> (Array2<i32>, Array2<i32>, Vec<i32>, Array1<i32>, Array3<i32>, ArrayD<i32>) {
    let two_rows = Array::from_shape_fn((2, 3), |(row, column)| (3 * row + column) as i32);
    let cube = Array::from_exact_vec((2, 3, 2), (0..12).collect()).expect("a cube");
    (two_rows.clone(), two_rows.clone(), (0..6).collect(), Array::from_iter(0..5), cube, two_rows.into_dyn())
}

/// Tests, each of idioms of one subject over new arrays of those names. An idiom has a form, its text, its value, and what ndarray has for
/// it where that is another text: `same` has none; `near` has another name, another type of an argument, a `?`, a `&` or a `.view()`; `other`
/// is another expression. (Where its value is an array, `to_vec()?` has the items, and isn't part of it.)
macro_rules! idioms {
    (
        $a:ident $b:ident $list:ident $one:ident $cube:ident $any:ident
        $(#[$test:meta] fn $subject:ident { $($form:ident $code:expr => $value:expr $(, $theirs:literal)?;)* })*
    ) => {$(
        #[$test]
        fn $subject() -> Tested {
            $({
                #[allow(unused)]
                let (mut $a, mut $b, mut $list, $one, $cube, $any) = arrays();
                assert_eq!($code, $value, "{}", stringify!($code));
            })*
            Ok(())
        }
    )*};
}

idioms! {
    a b list one cube any

    #[test]
    fn arrays_are_made {
        same Array2::<i32>::zeros((2, 3)).len() => 6;
        same Array2::<i32>::zeros((2, 3).f()).shape() => [2, 3];
        same Array::from_elem((2, 3), 7)[[1, 2]] => 7;
        same Array::from_shape_fn((2, 3), |(row, column)| 10 * row + column)[[1, 2]] => 12;
        near Array::from_exact_vec((2, 3), list)?[[1, 0]] => 3, "Array::from_shape_vec((2, 3), list)?";
        near Array::from_exact_vec((2, 3).f(), list)?[[1, 0]] => 1, "Array::from_shape_vec((2, 3).f(), list)?";
        same Array::from_vec(list).len() => 6;
        same Array::from_iter(0..5)[3] => 3;
        same (0..5).collect::<Array1<i32>>()[3] => 3;
        same Array1::from(vec![7, 8, 9])[1] => 8;
        same Array2::from(vec![[1, 2], [3, 4]])[[1, 0]] => 3;
        same array![1, 2, 3].len() => 3;
        same array![[1, 2], [3, 4]].shape() => [2, 2];
        other Array::from_exact_vec((2, 2, 1), vec![1, 2, 3, 4])?.shape() => [2, 2, 1],
            "array![[[1], [2]], [[3], [4]]]";
        same arr1(&[1, 2])[1] => 2;
        same arr2(&[[1, 2], [3, 4]])[[1, 0]] => 3;
        other Array::from_elem((), 7)[()] => 7, "arr0(7)";
        same ArrayD::<i32>::zeros(IxDyn(&[2, 3])).ndim() => 2;
    }

    #[test]
    fn arrays_are_made_of_others {
        same ArrayD::<i32>::zeros(vec![2, 3]).ndim() => 2;
        same Array::from_elem(a.raw_dim(), 7).shape() => [2, 3];
        same Array2::<i32>::zeros(a.raw_dim()).shape() => [2, 3];
        near Array2::<f32>::zeros(*a.dim()).shape() => [2, 3], "Array2::<f32>::zeros(a.dim())";
        other Array::from_elem((2, 3), u8::default())[[1, 2]] => 0, "Array2::<u8>::default((2, 3))";
        other Array::from_shape_fn((2, 3), |_| 5)[[1, 2]] => 5, "Array::from_shape_simple_fn((2, 3), || 5)";
        same ArrayView::from_shape((2, 3), &list)?[[1, 0]] => 3;
        same ArrayView2::from_shape((2, 3).strides((1, 2)), &list)?[[1, 0]] => 1;
        same ArrayView1::from(&list).len() => 6;
        near ArrayView::from(&list).len() => 6, "aview1(&list)";
        same ArrayViewMut::from_shape((2, 3), &mut list)?.len() => 6;
        other Array::from_elem((2, 3), 1.0)[[1, 2]] => 1.0, "Array2::<f64>::ones((2, 3))";
        other Array::from_shape_fn((3, 3), |(row, column)| i32::from(row == column))[[2, 2]] => 1,
            "Array2::<i32>::eye(3)";
    }

    #[test]
    fn an_array_is_asked {
        same a.shape() => [2, 3];
        same a.shape()[0] => 2;
        same a.ndim() => 2;
        same a.len() => 6;
        same !a.is_empty() => true;
        near a.dim().into_pattern() => (2, 3), "a.dim()";
        same a.raw_dim() => Ix2(2, 3);
        same a.len_of(Axis(1)) => 3;
        same a.nrows() => 2;
        same a.ncols() => 3;
        same !a.is_square() => true;
        same a.is_standard_layout() => true;
        same a.stride_of(Axis(0)) => 3;
        other a.strided().strides().slice() => [3, 1], "a.strides()";
    }

    #[test]
    fn items_are_read_and_written {
        same a[[1, 2]] => 5;
        same a[(1, 2)] => 5;
        same a.view()[[1, 2]] => 5;
        same one[3] => 3;
        same cube[[1, 0, 1]] => 7;
        same any[[1, 2]] => 5;
        same any[&[1, 2][..]] => 5;
        same { a[[1, 2]] = 7; a[[1, 2]] } => 7;
        same { a[(0, 1)] += 1; a[(0, 1)] } => 2;
        near a.get(&(1, 2)) => Some(5), "a.get((1, 2))";
        near a.get(&[1, 3]) => None, "a.get([1, 3])";
        near a.view().get(&(1, 2)) => Some(&5), "a.view().get((1, 2))";
        near a.get_mut(&(1, 2)) => Some(&mut 5), "a.get_mut((1, 2))";
        same a.first() => Some(&0);
        same a.last() => Some(&5);
        same a.first_mut() => Some(&mut 0);
        same a.last_mut() => Some(&mut 5);
        near a.swap(&(0, 0), &(1, 2)) => true, "a.swap((0, 0), (1, 2))";
        other a[(1, 2)] => 5, "unsafe { *a.uget((1, 2)) }";
    }

    #[test]
    fn slices_are_taken {
        same a.slice(s![1, ..]).to_vec()? => [3, 4, 5];
        same a.slice(s![.., 1]).to_vec()? => [1, 4];
        same a.slice(s![.., 1..]).to_vec()? => [1, 2, 4, 5];
        same a.slice(s![..1, ..2]).to_vec()? => [0, 1];
        same a.slice(s![0..2, 1..3]).to_vec()? => [1, 2, 4, 5];
        same a.slice(s![1..=1, ..]).to_vec()? => [3, 4, 5];
        same a.slice(s![.., ..;2]).to_vec()? => [0, 2, 3, 5];
        same a.slice(s![..;-1, ..]).to_vec()? => [3, 4, 5, 0, 1, 2];
        same a.slice(s![-1, ..]).to_vec()? => [3, 4, 5];
        same a.slice(s![.., -2..]).to_vec()? => [1, 2, 4, 5];
        same a.slice(s![.., ..-1]).to_vec()? => [0, 1, 3, 4];
        same a.slice(s![NewAxis, .., 1]).shape() => [1, 2];
        same a.slice(s![0, 1])[()] => 1;
        same one.slice(s![1..4]).to_vec()? => [1, 2, 3];
        same one.slice(s![..;-2]).to_vec()? => [4, 2, 0];
        same cube.slice(s![.., 0, ..]).to_vec()? => [0, 1, 6, 7];
        same { let (start, end) = (1_usize, 3_usize); a.slice(s![0, start..end]).to_vec()? } => [1, 2];
        same any.slice(s![1, ..]).to_vec()? => [3, 4, 5];
        near a.view().slice(s![1, ..])?.to_vec()? => [3, 4, 5], "a.view().slice(s![1, ..])";
        near a.view_mut().slice_move(s![1, ..])?.to_vec()? => [3, 4, 5], "a.view_mut().slice_move(s![1, ..])";
        near a.slice_mut(s![0, ..])?.to_vec()? => [0, 1, 2], "a.slice_mut(s![0, ..])";
        near { a.slice_mut(s![.., 1])?.fill(9); a[[1, 1]] } => 9, "a.slice_mut(s![.., 1]).fill(9)";
        near a.multi_slice_mut((s![0, ..], s![1, ..]))?.1.len() => 3, "a.multi_slice_mut((s![0, ..], s![1, ..]))";
        other a.slice(s![1.., ..]).shape() => [1, 3], "a.slice_collapse(s![1.., ..])";
        other a.view().split_at(Axis(1), 1)?.1.shape() => [2, 2], "a.slice_axis(Axis(1), Slice::from(1..))";
    }

    #[test]
    fn rows_and_columns_are_taken {
        near a.row(1)?.to_vec()? => [3, 4, 5], "a.row(1)";
        near a.column(1)?.to_vec()? => [1, 4], "a.column(1)";
        near a.row_mut(1)?.to_vec()? => [3, 4, 5], "a.row_mut(1)";
        near a.column_mut(1)?.to_vec()? => [1, 4], "a.column_mut(1)";
        near a.index_axis(Axis(0), 1)?.to_vec()? => [3, 4, 5], "a.index_axis(Axis(0), 1)";
        near a.index_axis_mut(Axis(1), 2)?.to_vec()? => [2, 5], "a.index_axis_mut(Axis(1), 2)";
        near a.view().index_axis(Axis(0), 1)?.len() => 3, "a.view().index_axis_move(Axis(0), 1)";
        same a.rows().into_iter().count() => 2;
        same a.rows().into_iter().map(|row| row[0]).collect::<Vec<_>>() => [0, 3];
        same { let mut lens = vec![]; for row in a.rows() { lens.push(row.len()); } lens } => [3, 3];
        same a.columns().into_iter().map(|column| column[1]).collect::<Vec<_>>() => [3, 4, 5];
        same { for mut row in a.rows_mut() { row[0] = 9; } a[[1, 0]] } => 9;
        same { for mut column in a.columns_mut() { column[0] = 9; } a[[0, 2]] } => 9;
        same a.outer_iter().enumerate().last().map(|(row, items)| (row, items[0])) => Some((1, 3));
        same a.outer_iter().rev().map(|row| row[2]).collect::<Vec<_>>() => [5, 2];
        near { for mut row in a.outer_iter_mut()? { row.fill(7); } a[[1, 2]] } => 7, "a.outer_iter_mut()";
    }

    #[test]
    fn parts_are_taken {
        near a.axis_iter(Axis(1))?.map(|column| column[1]).collect::<Vec<_>>() => [3, 4, 5], "a.axis_iter(Axis(1))";
        near a.axis_iter_mut(Axis(1))?.count() => 3, "a.axis_iter_mut(Axis(1))";
        near a.axis_chunks_iter(Axis(1), 2)?.map(|part| part.len()).collect::<Vec<_>>() => [4, 2],
            "a.axis_chunks_iter(Axis(1), 2)";
        near a.axis_chunks_iter_mut(Axis(1), 2)?.count() => 2, "a.axis_chunks_iter_mut(Axis(1), 2)";
        near a.lanes(Axis(0))?.into_iter().count() => 3, "a.lanes(Axis(0))";
        near a.lanes_mut(Axis(0))?.into_iter().count() => 3, "a.lanes_mut(Axis(0))";
        near a.view().into_exact_chunks(&Ix2(1, 2))?.count() => 2, "a.exact_chunks((1, 2))";
        near a.view_mut().into_tiles(&Ix2(1, 2))?.count() => 2, "a.exact_chunks_mut((1, 2))";
        near a.view().into_windows(&Ix2(2, 2))?.map(|window| window[[0, 0]]).collect::<Vec<_>>() => [0, 1],
            "a.windows((2, 2))";
        near a.view().split_at(Axis(0), 1)?.0.to_vec()? => [0, 1, 2], "a.view().split_at(Axis(0), 1)";
        near a.view_mut().split_at(Axis(1), 1)?.1.to_vec()? => [1, 2, 4, 5], "a.view_mut().split_at(Axis(1), 1)";
        near a.view().diag().to_vec()? => [0, 4], "a.diag()";
        near { a.view_mut().diag().fill(9); a[[1, 1]] } => 9, "a.diag_mut()";
        other one.view().into_windows(&Ix1(2))?.count() => 4, "one.axis_windows(Axis(0), 2)";
    }

    #[test]
    fn items_are_iterated_over {
        same a.iter().sum::<i32>() => 15;
        same a.iter().map(|item| item * 2).collect::<Vec<_>>() => [0, 2, 4, 6, 8, 10];
        near a.view().iter().copied().max() => Some(5), "a.iter().copied().max()";
        near a.view().iter().cloned().collect::<Vec<i32>>() => list, "a.iter().cloned().collect::<Vec<i32>>()";
        near a.view().iter().position(|&item| item == 4) => Some(4), "a.iter().position(|&item| item == 4)";
        same a.view().iter().filter(|&&item| item > 2).count() => 3;
        near a.view().iter().rev().next() => Some(&5), "a.iter().rev().next()";
        same a.iter().zip(b.iter()).filter(|(item, other)| item == other).count() => 6;
        near a.view().iter().enumerate().last() => Some((5, &5)), "a.iter().enumerate().last()";
        same { a.iter_mut().for_each(|item| *item += 1); a[[1, 2]] } => 6;
        same { for item in &mut a { *item += 1; } a[[1, 2]] } => 6;
        same { for item in a.iter_mut() { *item *= 2; } a[[1, 2]] } => 10;
        same { let mut sum = 0; for item in &a { sum += item; } sum } => 15;
        same a.into_iter().collect::<Vec<i32>>() => list;
        same a.indexed_iter().last() => Some(((1, 2), &5));
        same { for ((row, column), item) in a.indexed_iter_mut() { *item = 10 * row as i32 + column as i32; } a[[1, 2]] } => 12;
    }

    #[test]
    fn items_are_mapped {
        near a.map(|item| item * 2)?[[1, 2]] => 10, "a.map(|item| item * 2)";
        near a.map(|item| item * 2)?[[1, 2]] => 10, "a.mapv(|item| item * 2)";
        other a.map(|item| f64::from(*item))?[[1, 2]] => 5.0, "a.mapv(f64::from)";
        near { a.view_mut().map_in_place(|item| *item += 1); a[[1, 2]] } => 6, "a.map_inplace(|item| *item += 1)";
        other { a.view_mut().map_in_place(|item| *item += 1); a[[1, 2]] } => 6, "a.mapv_inplace(|item| item + 1)";
        near { let mut sum = 0; a.view().for_each(|item| sum += item); sum } => 15, "a.for_each(|item| sum += item)";
        near { a.zip_mut_with(&b.view(), |item, other| *item += other)?; a[[1, 2]] } => 10,
            "a.zip_mut_with(&b, |item, other| *item += other)";
        other { a.zip_mut_with(&b.view(), |item, other| *item += other)?; a[[1, 2]] } => 10,
            "Zip::from(&mut a).and(&b).for_each(|item, other| *item += other)";
        other { a.zip_mut_with_two(&b.view(), &b.view(), |item, other, third| *item += other * third)?; a[[1, 2]] } => 30,
            "Zip::from(&mut a).and(&b).and(&b).for_each(|item, other, third| *item += other * third)";
        other { a.indexed_iter_mut().for_each(|((row, column), item)| *item = (row * column) as i32); a[[1, 2]] } => 2,
            "Zip::indexed(&mut a).for_each(|(row, column), item| *item = row * column)";
        other Array::from_exact_vec((2, 3), a.iter().zip(b.iter()).map(|(item, other)| item + other).collect())?[[1, 2]] => 10,
            "Zip::from(&a).and(&b).map_collect(|item, other| item + other)";
        same { for (mut row, factor) in a.rows_mut().into_iter().zip([10, 100]) { row.iter_mut().for_each(|item| *item *= factor); } a[[1, 2]] } => 500;
        near a.view().fold(0, |sum, item| sum + item) => 15, "a.fold(0, |sum, item| sum + item)";
        other a.map_axis(Axis(0), |lane| lane.fold(0, |sum, item| sum + item))?.to_vec()? => [3, 5, 7],
            "a.fold_axis(Axis(0), 0, |sum, item| sum + item)";
        near a.map_axis(Axis(0), |lane| lane[1] - lane[0])?.to_vec()? => [3, 3, 3],
            "a.map_axis(Axis(0), |lane| lane[1] - lane[0])";
        near a.map_axis(Axis(1), |lane| lane.iter().copied().max())?.to_vec()? => [Some(2), Some(5)],
            "a.map_axis(Axis(1), |lane| lane.iter().copied().max())";
        other a.map(|item| item + 1)?[[1, 2]] => 6, "a.mapv_into(|item| item + 1)";
    }

    #[test]
    fn whole_arrays_are_written {
        same { a.fill(7); a[[1, 2]] } => 7;
        near { a.assign(&b.view())?; a } => b, "a.assign(&b)";
        near { a.row_mut(0)?.assign(&array![7, 8, 9].view())?; a[[0, 2]] } => 9,
            "a.row_mut(0).assign(&array![7, 8, 9])";
        near { a.slice_mut(s![.., 1..])?.assign(&array![[7, 8], [9, 10]].view())?; a[[1, 1]] } => 9,
            "a.slice_mut(s![.., 1..]).assign(&array![[7, 8], [9, 10]])";
        other { a.assign(&array![7, 8, 9].view().broadcast(&Ix2(2, 3))?)?; a[[1, 2]] } => 9,
            "a.assign(&array![7, 8, 9])";
        near { a.row_mut(1)?.fill(0); a[[1, 2]] } => 0, "a.row_mut(1).fill(0)";
        same { std::mem::swap(&mut a, &mut b); a } => b;
        same { a.clone_from(&b); a } => b;
    }

    #[test]
    fn arrays_are_lent_and_copied {
        same a.view().len() => 6;
        same a.view_mut().len() => 6;
        same a.to_owned() => b;
        same a.view().to_owned() => b;
        same a.t().to_owned().shape() => [3, 2];
        same a.clone() => b;
        same a.slice(s![1, ..]).to_owned() => array![3, 4, 5];
        near a.view().to_owned() => b, "a.view().into_owned()";
        near a.view_mut().reborrow()?.len() => 6, "a.view_mut().reborrow()";
        same a.as_slice() => Some(&list[..]);
        same a.as_slice_mut() => Some(&mut list[..]);
        same a.t().as_slice_memory_order() => Some(&list[..]);
        same a.view().to_slice() => Some(&list[..]);
        near a.view_mut().into_slice().ok() => Some(&mut list[..]), "a.view_mut().into_slice()";
        near a.into_stored() => list, "a.into_raw_vec_and_offset()";
        other a.stored().as_ptr() => &raw const a[[0, 0]], "a.as_ptr()";
        near a.t().to_owned().shape() => [3, 2], "a.t().as_standard_layout()";
    }

    #[test]
    fn axes_are_changed {
        near a.view().reshape(&Ix2(3, 2), Order::RowMajor)?[[2, 0]] => 4, "a.to_shape((3, 2))?";
        near a.view().reshape(&Ix1(6), Order::RowMajor)?[4] => 4, "a.to_shape(6)?";
        near a.view().reshape(&Ix2(3, 2), Order::RowMajor)?[[2, 0]] => 4, "a.view().into_shape_with_order((3, 2))?";
        other Array::from_exact_vec((3, 2), a.into_iter().collect())?[[2, 0]] => 4, "a.into_shape_with_order((3, 2))?";
        other Array::from_iter(a.iter()).len() => 6, "a.flatten()";
        same a.into_dyn().shape() => [2, 3];
        same any.into_dimensionality::<Ix2>()?.shape() => [2, 3];
        near a.view().insert_axis(Axis(0))?.shape() => [1, 2, 3], "a.view().insert_axis(Axis(0))";
        near a.view().insert_axis(Axis(2))?.shape() => [2, 3, 1], "a.insert_axis(Axis(2))";
        near a.view().index_axis(Axis(0), 0)?.to_vec()? => [0, 1, 2], "a.view().remove_axis(Axis(0))";
        near { let mut v = a.view(); v.swap_axes(Axis(0), Axis(1))?; v[[2, 1]] } => 5, "v.swap_axes(0, 1)";
        near a.view().permuted_axes(&[Axis(1), Axis(0)])?.shape() => [3, 2], "a.view().permuted_axes([1, 0])";
        same a.view().reversed_axes().shape() => [3, 2];
        near a.view().reversed_axes().shape() => [3, 2], "a.reversed_axes()";
        same a.t()[[2, 1]] => 5;
        near { let mut v = a.view(); v.invert_axis(Axis(0))?; v[[0, 0]] } => 3, "v.invert_axis(Axis(0))";
        near { let mut v = a.view(); v.merge(Axis(0), Axis(1))? } => true, "v.merge_axes(Axis(0), Axis(1))";
        near { let mut v = a.view(); v.collapse(Axis(0), 1)?; v.to_vec()? } => [3, 4, 5],
            "v.collapse_axis(Axis(0), 1)";
        near a.view().broadcast(&Ix3(4, 2, 3))?.len() => 24, "a.broadcast((4, 2, 3))";
        other a.slice(s![0, 1])[()] => 1, "a.slice(s![0, 1]).into_scalar()";
    }

    #[test]
    fn arrays_are_compared_and_printed {
        same a == b => true;
        same a != array![[1, 2], [3, 4]] => true;
        same a == b.view() => true;
        same a.slice(s![0, ..]) => array![0, 1, 2];
        near a.row(0)? => array![0, 1, 2], "a.row(0)";
        same a.to_string() => "[[0, 1, 2],\n [3, 4, 5]]";
        same format!("{:?}", one.slice(s![..2])) => "[0, 1], shape=[2], strides=[1], layout=CFcf (0xf), const ndim=1";
        same format!("{:.1}", array![0.25, 0.5]) => "[0.2, 0.5]";
        same format!("{:02x}", array![10, 11]) => "[0a, 0b]";
        same HashSet::from([a]).contains(&b) => true;
        same <Array1<i32> as Default>::default().len() => 0;
    }

    #[test]
    fn numbers_are_computed {
        other a.iter().sum::<i32>() => 15, "a.sum()";
        other a.iter().product::<i32>() => 0, "a.product()";
        other a.iter().sum::<i32>() / a.len() as i32 => 2, "a.mean()";
        other a.map_axis(Axis(0), |lane| lane.iter().sum::<i32>())?.to_vec()? => [3, 5, 7], "a.sum_axis(Axis(0))";
        other a.map(|item| item * 2)?[[1, 2]] => 10, "&a * 2";
        other { a.zip_mut_with(&b.view(), |item, other| *item += other)?; a[[1, 2]] } => 10, "a += &b";
        other { a.view_mut().map_in_place(|item| *item *= 2); a[[1, 2]] } => 10, "a *= 2";
    }
}

/// The idioms that no call gives, by the pages' names.
const NONE: [&str; 12] = [
    "from_diag",
    "linspace",
    "range",
    "slice_each_axis",
    "into_shared",
    "&a + &b",
    "a.dot(&b)",
    "concatenate!",
    "stack!",
    "push_row",
    "append",
    "a.select(..)",
];

#[test]
fn the_guide_counts_idioms_of_each_form() {
    let lines = || include_str!("most_used.rs").lines().map(str::trim_start);
    let count = |form: &str| lines().filter(|line| line.starts_with(form) && line.contains(" => ")).count();
    let (same, near, other, none) = (count("same "), count("near "), count("other "), NONE.len());
    let guide = include_str!("../../GUIDE.md").replace('\n', " ");
    let counts = [
        format!("Of {} idioms ", same + near + other + none),
        format!(
            " {same} are the same here, {near} have another name, another type of an argument, a `?`, a `&` or a `.view()`, "
        ),
        format!(" {other} are another expression, and {none} have none."),
    ];
    for part in counts {
        assert!(guide.contains(&part), "the guide hasn't:{part}");
    }
}

#[test]
fn the_pages_name_what_no_call_gives() {
    let pages = [include_str!("../../GUIDE.md"), include_str!("../../../docs/DIFFERENCES.md")];
    for idiom in NONE {
        assert!(pages.iter().any(|page| page.contains(&format!("`{idiom}`"))), "no page names {idiom}");
    }
}

//! The table of ndarray's idioms in the guide: the text of each cell that is said to compile stands here.

use ndarray_layout::compat::prelude::*;
use ndarray_layout::{Order, Zip};
use std::error::Error;

type Tested = Result<(), Box<dyn Error>>;

/// The array of the table: 0 1 2, 3 4 5.
fn two_rows() -> Array2<i32> {
    Array::from_exact_vec((2, 3), (0..6).collect()).expect("an array")
}

#[test]
fn arrays_and_views_are_made() -> Tested {
    let mut list: Vec<i32> = (0..6).collect();
    assert_eq!(ArrayView::from_shape((2, 3), &list)?[(1, 0)], 3);
    assert_eq!(ArrayView::from_shape((2, 3).strides((1, 2)), &list)?[(1, 0)], 1);
    ArrayViewMut::from_shape((2, 3), &mut list)?.fill(7);
    assert_eq!(ArrayView::from(&list)[5], 7);
    let again = list.clone();
    assert!(Array::from_exact_vec((2, 3), list)? == Array::from_elem((2, 3), 7));
    let list = again;
    assert_eq!(Array::from_vec(list).len(), 6);
    let sums = Array::from_shape_fn((2, 3), |(row, column)| row + column);
    assert_eq!(sums, array![[0, 1, 2], [1, 2, 3]]);
    let turned = Array::from_shape_fn((2, 3).f(), |(row, column)| 10 * row + column);
    assert_eq!((turned.stored(), turned.column(1)?), (&[0, 10, 1, 11, 2, 12][..], array![1, 11].view()));
    assert_eq!((array![[1, 2], [3, 4]], arr1(&[1, 2])), (arr2(&[[1, 2], [3, 4]]), array![1, 2]));
    assert_eq!((Array::from_iter(0..5).len(), Array::from_elem((2, 3), 1.0)[[1, 2]]), (5, 1.0));
    assert_eq!((Array::from_elem(IxDyn(&[2, 1]), 'a').shape(), Array::from_shape_fn((), |()| 7)[()]), (&[2, 1][..], 7));
    assert_eq!(Array::from_shape_fn((2, 0), |(row, column)| row + column).into_stored(), []);
    assert_eq!(Array2::<i32>::zeros((2, 3)).into_stored(), [0; 6]);
    assert_eq!(Array2::<i32>::zeros((2, 3).f()).strided().strides(), &Ix2(1, 2));
    Ok(())
}

#[test]
fn what_an_array_is_and_its_items() -> Tested {
    let mut a = two_rows();
    let b = a.clone();
    assert_eq!((a.shape(), a.ndim(), a.len()), (&[2, 3][..], 2, 6));
    assert_eq!((a.nrows(), a.ncols(), a.len_of(Axis(1))), (2, 3, 3));
    assert_eq!((a.raw_dim(), a.dim().into_pattern()), (Ix2(2, 3), (2, 3)));
    assert_eq!((a.is_square(), a.is_standard_layout()), (false, true));
    assert_eq!((a.first(), a.last(), a.view().to_slice()), (Some(&0), Some(&5), Some(&[0, 1, 2, 3, 4, 5][..])));
    assert!(a.swap(&(0, 0), &(1, 1)) && a.swap(&(1, 1), &(0, 0)));
    assert_eq!((a[[1, 2]], a[(1, 2)], a.get(&(1, 2)), a.get(&(1, 3))), (5, 5, Some(5), None));
    a[[1, 2]] = 7;
    a[[0, 0]] += 1;
    assert_eq!((a.as_slice(), a == b), (Some(&[1, 1, 2, 3, 4, 7][..]), false));
    assert_eq!((a.iter().sum::<i32>(), a.iter().max()), (18, Some(7)));
    assert_eq!(a.into_stored(), [1, 1, 2, 3, 4, 7]);
    Ok(())
}

#[test]
fn parts_of_an_array() -> Tested {
    let mut a = two_rows();
    assert_eq!(a.slice(s![.., 1..]).to_vec()?, [1, 2, 4, 5]);
    a.slice_mut(s![0, ..])?.fill(9);
    a.row_mut(1)?[0] = 8;
    let (mut first, second) = a.multi_slice_mut((s![0, ..], s![1, ..]))?;
    first[0] = second[0];
    let (row, column) = (a.row(0)?, a.column(1)?);
    assert_eq!((row.to_vec()?, column.to_vec()?), (vec![8, 9, 9], vec![9, 4]));
    assert_eq!(a.index_axis(Axis(0), 1)?.to_vec()?, [8, 4, 5]);
    assert_eq!(a.view_mut().len(), a.view().len());
    Ok(())
}

#[test]
fn axes_of_a_view() -> Tested {
    let a = two_rows();
    let v = a.view();
    assert_eq!((a.t().dim(), a.view().reversed_axes().dim()), (&Ix2(3, 2), &Ix2(3, 2)));
    assert_eq!(v.permuted_axes(&[Axis(1), Axis(0)])?.to_vec()?, [0, 3, 1, 4, 2, 5]);
    assert_eq!(v.insert_axis(Axis(0))?.dim(), &Ix3(1, 2, 3));
    let (first, second) = v.split_at(Axis(0), 1)?;
    assert_eq!((first.to_vec()?, second.to_vec()?), (vec![0, 1, 2], vec![3, 4, 5]));
    assert_eq!(v.reshape(&Ix1(6), Order::RowMajor)?[4], 4);
    assert_eq!(v.broadcast(&Ix3(4, 2, 3))?.dim(), &Ix3(4, 2, 3));
    assert_eq!(v.diag().to_vec()?, [0, 4]);
    assert_eq!(v.into_dyn().into_dimensionality::<Ix2>()?.dim(), &Ix2(2, 3));
    let (mut v, mut turned, mut one) = (a.view(), a.view(), a.view());
    v.invert_axis(Axis(0))?;
    turned.swap_axes(Axis(0), Axis(1))?;
    v.swap_axes(Axis(0), Axis(1))?;
    v.swap_axes(Axis(0), Axis(1))?;
    one.collapse(Axis(0), 1)?;
    assert_eq!((v[(0, 0)], turned[(2, 0)], one.merge(Axis(0), Axis(1))?), (3, 2, true));
    Ok(())
}

#[test]
fn iterators_over_an_array() -> Tested {
    let mut a = two_rows();
    a.iter_mut().for_each(|item| *item += 1);
    assert_eq!(a.indexed_iter().last(), Some(((1, 2), &6)));
    assert_eq!((a.rows().count(), a.outer_iter().count(), a.axis_iter(Axis(1))?.count()), (2, 2, 3));
    assert_eq!((a.lanes(Axis(0))?.count(), a.axis_chunks_iter(Axis(1), 2)?.count()), (3, 2));
    assert_eq!((a.iter().map(|item| item * 2).sum::<i32>(), a.iter().max()), (42, Some(6)));
    assert_eq!(
        (a.columns().count(), a.columns_mut().map(|mut column| column.iter_mut().count()).sum::<usize>()),
        (3, 6)
    );
    assert_eq!(a.rows().map(|row| row.iter().sum::<i32>()).collect::<Vec<_>>(), [6, 15]);
    for mut row in a.rows_mut() {
        row[0] = 0;
    }
    let v = a.view();
    let windows: ArrayView4<'_, i32> = v.windows(&Ix2(2, 2))?;
    let chunks: ArrayView4<'_, i32> = v.exact_chunks(&Ix2(2, 2))?;
    assert_eq!((windows.dim(), chunks.dim()), (&Ix4(1, 2, 2, 2), &Ix4(1, 1, 2, 2)));
    Ok(())
}

#[test]
fn values_of_whole_arrays() -> Tested {
    let (mut a, b, c) = (two_rows(), two_rows(), two_rows());
    assert_eq!(a.map(|item| item * 2)?.into_stored(), [0, 2, 4, 6, 8, 10]);
    a.zip_mut_with_two(&b.view(), &c.view(), |item, other, third| *item += other * third)?;
    assert_eq!(a.as_slice(), Some(&[0, 2, 6, 12, 20, 30][..]));
    a.assign(&b.view())?;
    Zip::from(&mut a.view_mut()).and(&b.view()).and(&c.view()).for_each(|a, b, c| *a += b * c)?;
    assert_eq!(a.as_slice(), Some(&[0, 2, 6, 12, 20, 30][..]));
    a.assign(&b.view())?;
    a.view_mut().map_in_place(|item| *item += 1);
    a.zip_mut_with(&b.view(), |item, other| *item += other)?;
    assert_eq!(a.view().fold(0, |sum, item| sum + item), 36);
    assert_eq!(a.map_axis(Axis(0), |lane| lane.iter().sum::<i32>())?.into_stored(), [8, 12, 16]);
    a.fill(7);
    a.assign(&b.view())?;
    assert_eq!(a.view().to_array()?.into_stored(), [0, 1, 2, 3, 4, 5]);
    assert_eq!(a.view().fold_with(&b.view(), 0, |sum, x, y| sum + x * y)?, 55);
    assert_eq!((a.view().fold(0, |sum, item| sum + item), a.view().diag().to_vec()?), (15, vec![0, 4]));
    assert_eq!((a == b, a.to_string()), (true, "[[0, 1, 2],\n [3, 4, 5]]".into()));
    assert_eq!((a.to_owned(), a.to_vec()?), (b, vec![0, 1, 2, 3, 4, 5]));
    let columns: Array2<i32> = a.t().to_owned();
    assert_eq!(
        (columns.to_string(), columns.into_stored()),
        ("[[0, 3],\n [1, 4],\n [2, 5]]".into(), vec![0, 3, 1, 4, 2, 5])
    );
    assert_eq!(Array::from_exact_vec((3, 2), a.into_iter().collect())?[[2, 0]], 4);
    Ok(())
}

/// The texts between backticks of a cell, in which a table escapes `|`.
fn codes(cell: &str) -> Vec<String> {
    cell.split('`').skip(1).step_by(2).map(|code| code.replace("\\|", "|")).collect()
}

#[test]
fn each_row_of_the_guide_is_compiled_here() {
    let (guide, tests) = (include_str!("../../GUIDE.md"), [include_str!("idioms.rs"), include_str!("most_used.rs")]);
    let (_, table) = guide.split_once("| ndarray | here |\n|---|---|\n").expect("the table");
    let rows: Vec<&str> = table.lines().take_while(|line| line.starts_with("| ")).collect();
    assert_eq!(rows.len(), 83);
    for row in rows {
        let (theirs, here) = row.trim_matches(['|', ' ']).split_once(" | ").expect("two cells");
        let compiled = if here.starts_with("the same") { codes(theirs) } else { codes(here) };
        assert!(here.starts_with("none") || !compiled.is_empty(), "{row}");
        for code in compiled {
            assert!(tests.iter().any(|text| text.contains(&code)), "no test compiles {code}");
        }
    }
}

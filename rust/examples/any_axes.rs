//! Numbers whose count of axes is known at run time alone: their sums along each axis, a part of them, and where one lies.
//!
//! usage: any_axes [LENGTH ..]    the lengths of the axes; 2 3 4 where none is given

use ndarray_layout::{Axis, Dimension, Ix3, IxDyn, LayoutError, OwnedArray, all_indices};
use std::env;

/// The index of an item.
fn find(array: &OwnedArray<u64, IxDyn>, item: u64) -> Result<Option<IxDyn>, LayoutError> {
    Ok(all_indices(array.dim().clone())?.into_iter().find(|index| array[index] == item))
}

fn main() -> Result<(), Box<dyn std::error::Error>> {
    let mut lens: Vec<usize> = env::args().skip(1).map(|word| word.parse()).collect::<Result<_, _>>()?;
    if lens.is_empty() {
        lens = vec![2, 3, 4];
    }
    let shape = IxDyn(&lens);
    let count = shape.size_checked().ok_or("too many items")? as u64;
    let array = OwnedArray::from_shape_vec(shape.clone(), (0..count).collect()).map_err(LayoutError::from)?;

    for axis in 0..lens.len() {
        let sums: Vec<u64> = array.axis_iter(Axis(axis))?.map(|part| part.iter().sum()).collect();
        println!("axis {axis}: {sums:?}");
    }
    let halves: Vec<usize> = lens.iter().map(|len| len / 2).collect();
    let upper = array.view().crop(&IxDyn(&halves), &shape).ok_or("a half is at most the length")?;
    println!("the upper half of each axis:\n{upper:?}");

    if let Ok(cube) = array.strided().clone().into_dimensionality::<Ix3>() {
        println!("(0, 0, 0) lies at {:?}", cube.place(&(0, 0, 0)));
    }
    println!("the last item lies at {:?}", find(&array, count.saturating_sub(1))?);
    Ok(())
}

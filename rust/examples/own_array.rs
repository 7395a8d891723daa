//! An array type of one's own over the layer: it owns its items and a layout, and lends views for all else. To turn it or to flip
//! it changes the layout alone.

use ndarray_layout::{ArrayView, ArrayViewMut, Axis, CanIndexCheckMode, Ix2, LayoutError, ShapeError, Strided, s};

struct Grid<T> {
    items: Vec<T>,
    layout: Strided<Ix2>,
}

impl<T> Grid<T> {
    /// The grid of so many rows and columns. Errors: as many items are needed.
    fn new(rows: usize, columns: usize, items: Vec<T>) -> Result<Self, LayoutError> {
        let mode = CanIndexCheckMode::OwnedMutable;
        let layout = Strided::from_shape(Ix2(rows, columns).into(), size_of::<T>(), items.len(), mode)?;
        Ok(Grid { items, layout })
    }

    fn view(&self) -> Result<ArrayView<'_, T, Ix2>, ShapeError> {
        ArrayView::over(self.layout, &self.items)
    }

    fn view_mut(&mut self) -> Result<ArrayViewMut<'_, T, Ix2>, ShapeError> {
        ArrayViewMut::over(self.layout, &mut self.items)
    }

    /// A quarter turn clockwise.
    fn turn(&mut self) -> Result<(), ShapeError> {
        self.layout.invert_axis(Axis(0))?;
        self.layout = self.layout.reversed_axes();
        Ok(())
    }
}

fn main() -> Result<(), LayoutError> {
    let mut grid = Grid::new(2, 3, vec!['a', 'b', 'c', 'd', 'e', 'f'])?;
    grid.turn()?;
    println!("{:?}", grid.view()?);
    assert_eq!(grid.view()?.to_vec()?, ['d', 'a', 'e', 'b', 'f', 'c']);

    grid.view_mut()?[(0, 1)] = 'A';
    grid.view_mut()?.slice_mut(s![1.., 0])?.fill('-');
    grid.turn()?;
    assert_eq!(grid.view()?.to_vec()?, ['-', '-', 'd', 'c', 'b', 'A']);
    assert!(Grid::new(2, 3, vec![0; 5]).is_err());
    Ok(())
}

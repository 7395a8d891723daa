//! The rules over lists.

pub mod layouts;
pub mod shapes;
pub mod slices;

/// A start, the length of each axis and its stride.
#[derive(Clone, PartialEq, Debug)]
pub struct View {
    pub start: usize,
    pub shape: Vec<usize>,
    pub strides: Vec<isize>,
}

//! Pictures of `image` as views: crops, flips, turns and half the size without a copy, beside what `image` makes of them, and writes
//! through a view.

use image::imageops::{crop_imm, flip_horizontal, flip_vertical, rotate270};
use image::{FlatSamples, RgbImage};
use ndarray_layout::{ArrayView, ArrayViewMut, Axis, CanIndexCheckMode, Ix3, LayoutError, ShapeError, Strided, s};

/// The layout of samples: rows, columns and channels. An error if and only if the bounds rule is broken, or, where they are to be
/// written, the no-alias rule.
fn layout_of<B: AsRef<[u8]>>(flat: &FlatSamples<B>, mode: CanIndexCheckMode) -> Result<Strided<Ix3>, ShapeError> {
    let of = flat.layout;
    let shape = Ix3(of.height as usize, of.width as usize, of.channels.into());
    let strides = Ix3(of.height_stride, of.width_stride, of.channel_stride);
    Strided::new(shape, strides, size_of::<u8>(), flat.samples.as_ref().len(), mode)
}

/// A picture of its own with the pixels of a view.
fn picture_of(view: &ArrayView<'_, u8, Ix3>) -> Result<RgbImage, LayoutError> {
    let (rows, columns) = (view.dim()[0] as u32, view.dim()[1] as u32);
    Ok(RgbImage::from_raw(columns, rows, view.to_vec()?).expect("three channels"))
}

fn main() -> Result<(), LayoutError> {
    let picture = RgbImage::from_fn(6, 4, |column, row| image::Rgb([row as u8, column as u8, 7]));
    let flat = picture.as_flat_samples();
    let view = ArrayView::over(layout_of(&flat, CanIndexCheckMode::ReadOnly)?, flat.samples)?;

    let crop = view.slice(s![1..3, 2..5, ..])?;
    println!("crop: {}", picture_of(&crop)? == crop_imm(&picture, 2, 1, 3, 2).to_image());
    println!("upside down: {}", picture_of(&view.slice(s![..;-1, .., ..])?)? == flip_vertical(&picture));
    println!("mirrored: {}", picture_of(&view.slice(s![.., ..;-1, ..])?)? == flip_horizontal(&picture));
    let mut turned = view.slice(s![.., ..;-1, ..])?;
    turned.swap_axes(Axis(0), Axis(1))?;
    println!("turned: {}", picture_of(&turned)? == rotate270(&picture));
    let half = picture_of(&view.slice(s![..;2, ..;2, ..])?)?;
    println!("half: {}x{}, {:?}", half.width(), half.height(), half.get_pixel(2, 1));

    let mut picture = picture;
    let flat = picture.as_flat_samples_mut();
    let layout = layout_of(&flat, CanIndexCheckMode::OwnedMutable)?;
    let mut view = ArrayViewMut::over(layout, flat.samples)?;
    view.slice_mut(s![1..3, 2..5, 0])?.fill(255);
    println!("red: {:?} and {:?}", picture.get_pixel(4, 2), picture.get_pixel(5, 2));

    let mut header = picture.as_flat_samples();
    header.layout.height_stride = 19;
    println!("{}", layout_of(&header, CanIndexCheckMode::ReadOnly).unwrap_err());
    Ok(())
}

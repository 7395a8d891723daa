//! What slices pick.

use super::View;
use ndarray_layout::{ErrorKind, Fit, SliceInfoElem};

/// Picked coordinates: the first, the distance to the next, with its sign, and how many.
#[derive(Clone, Copy)]
pub struct Picks {
    pub first: i128,
    pub step: i128,
    pub count: i128,
}

impl Picks {
    fn has(&self, coordinate: i128) -> bool {
        let distance = (coordinate - self.first) * self.step.signum();
        distance >= 0 && distance % self.step.abs() == 0 && distance / self.step.abs() < self.count
    }

    /// Every coordinate in turn, tried in the other picks.
    pub fn intersects(&self, other: &Picks) -> bool {
        let (few, many) = if self.count <= other.count { (self, other) } else { (other, self) };
        (0..few.count).any(|k| many.has(few.first + k * few.step))
    }
}

fn bound(len: usize, bound: isize, fit: Fit) -> Result<i128, ErrorKind> {
    let (len, bound) = (len as i128, bound as i128);
    let meant = if bound < 0 { len + bound } else { bound };
    match fit {
        Fit::Clamp => Ok(meant.clamp(0, len)),
        Fit::Strict if (0..=len).contains(&meant) => Ok(meant),
        Fit::Strict => Err(ErrorKind::OutOfBounds),
    }
}

/// The picks of a slice or an index on an axis.
fn picks_of(len: usize, elem: SliceInfoElem, fit: Fit) -> Result<Picks, ErrorKind> {
    let (start, end, step) = match elem {
        SliceInfoElem::NewAxis => return Ok(Picks { first: 0, step: 1, count: 1 }),
        SliceInfoElem::Index(index) => {
            let meant = if index < 0 { len as i128 + index as i128 } else { index as i128 };
            let within = (0..len as i128).contains(&meant);
            return if within { Ok(Picks { first: meant, step: 1, count: 1 }) } else { Err(ErrorKind::OutOfBounds) };
        }
        SliceInfoElem::Slice { start, end, step } => (start, end, step as i128),
    };
    let start = bound(len, start, fit)?;
    let end = end.map_or(Ok(len as i128), |end| bound(len, end, fit))?;
    if step == 0 {
        return Err(ErrorKind::Unsupported);
    }
    let count = if start < end { (end - start - 1) / step.abs() + 1 } else { 0 };
    let first = if step > 0 { start } else { end - 1 };
    Ok(Picks { first, step, count })
}

/// The picks of each element but the new axes, with its axis.
fn all_picks(shape: &[usize], elems: &[SliceInfoElem], fit: Fit) -> Result<Vec<Picks>, ErrorKind> {
    let on_axes: Vec<_> = elems.iter().filter(|elem| **elem != SliceInfoElem::NewAxis).collect();
    if on_axes.len() != shape.len() {
        return Err(ErrorKind::IncompatibleShape);
    }
    shape.iter().zip(on_axes).map(|(len, elem)| picks_of(*len, *elem, fit)).collect()
}

/// How many indices a slice leaves.
pub fn picked(shape: &[usize], elems: &[SliceInfoElem], fit: Fit) -> Result<i128, ErrorKind> {
    let picks = all_picks(shape, elems, fit)?;
    let empty = picks.iter().any(|picks| picks.count == 0);
    let product = |product: i128, picks: &Picks| product.saturating_mul(picks.count);
    Ok(if empty { 0 } else { picks.iter().fold(1, product) })
}

/// Whether two slices share an index; `None` where a list of picks is too long to try each.
pub fn slices_intersect(
    shape: &[usize],
    first: &[SliceInfoElem],
    second: &[SliceInfoElem],
    fit: Fit,
) -> Option<Result<bool, ErrorKind>> {
    let pairs = all_picks(shape, first, fit).and_then(|first| Ok((first, all_picks(shape, second, fit)?)));
    let (first, second) = match pairs {
        Ok(pairs) => pairs,
        Err(kind) => return Some(Err(kind)),
    };
    let mut all = true;
    for (a, b) in first.iter().zip(&second) {
        if a.count.min(b.count) > 1_000 {
            return None;
        }
        all &= a.intersects(b);
    }
    Some(Ok(all))
}

/// The view that a slice leaves of a view.
pub fn slice(view: &View, elems: &[SliceInfoElem], fit: Fit) -> Result<View, ErrorKind> {
    let picks = all_picks(&view.shape, elems, fit)?;
    let mut start = view.start as i128;
    let mut sliced = View { start: 0, shape: Vec::new(), strides: Vec::new() };
    let mut axes = picks.iter().zip(&view.strides);
    for elem in elems {
        if *elem == SliceInfoElem::NewAxis {
            sliced.shape.push(1);
            sliced.strides.push(0);
            continue;
        }
        let (picks, stride) = axes.next().expect("as many picks as axes");
        start += if picks.count == 0 { 0 } else { picks.first * *stride as i128 };
        if let SliceInfoElem::Slice { .. } = elem {
            sliced.shape.push(picks.count as usize);
            sliced.strides.push(if picks.count <= 1 { 0 } else { (*stride as i128 * picks.step) as isize });
        }
    }
    sliced.start = start as usize;
    Ok(sliced)
}

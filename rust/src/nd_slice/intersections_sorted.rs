// Made by `rust/erase` of `crates/nd_slice/src/intersections_sorted.rt`: edit that.
//! Two of many slice arguments that share an index, in any order: they are sorted, and so need memory.

use crate::memory::AllocError;
use crate::memory::prelude::Vec;
use crate::nd_base::{Lengths, ShapeError};
use crate::nd_slice::elems::SliceElems;
use crate::nd_slice::fit::Fit;
use crate::nd_slice::intersecting_pair::{check_slices, first_elems_intersection};
use crate::nd_slice::slices_in_groups::{Grouped, cut_on_axis, one_group};
use crate::nd_slice::slices_in_order::{FromFirst, FromLast};
use crate::nd_slice::slices_in_rows::lie_in_rows;

/// How many slices are compared pair by pair, since that is as fast.
const FEW: usize = 4;

/// How often slices are cut on each axis, at most: a cut on one may let others be cut on another.
const ROUNDS: usize = 32;

/// The number of the last group.
#[inline]
fn last_group(items: &[Grouped<'_>]) -> usize {
    match items.last() {
        Some(item) => item.group,
        None => 0,
    }
}

/// The same slices in groups that no axis cuts, or that were cut often. `None` where a range isn't known.
///
/// <details><summary>Contract (proved)</summary>
///
/// ```text
/// requires fits: All (HasNoFault fit shape.now) items.items
/// requires in_order: AreInGroups items.items
/// requires apart: AreApartAcross fit shape.now items.items
/// ensures named: IfOk result (λ found. IfSome found (λ new.
///     IsPermutation (map named items.entry.items) (map named new.items)))
/// ensures in_order: IfOk result (λ found. IfSome found (λ new. AreInGroups new.items))
/// ensures apart: IfOk result (λ found. IfSome found (λ new. AreApartAcross fit shape.now new.items))
/// ```
/// [How to read it](crate::contracts)
/// </details>
#[inline]
fn in_groups<'a>(shape: &[usize], items: Vec<Grouped<'a>>, fit: Fit) -> Result<Option<Vec<Grouped<'a>>>, AllocError> {
    let mut new = items;
    let mut idle = 0;
    for turn in 0..shape.len().saturating_mul(ROUNDS) {
        let last = last_group(new.as_slice());
        let axis = turn % shape.len();
        let Some(cut) = cut_on_axis(shape, axis, new.as_slice(), fit)? else {
            return Ok(None);
        };
        new = cut;
        idle = if last_group(new.as_slice()) == last { idle + 1 } else { 0 };
        if idle == shape.len() || last_group(new.as_slice()) == new.len() {
            break;
        }
    }
    Ok(Some(new))
}

/// The positions among all items of two of a group that share an index. The group is the items from one position up to another.
///
/// <details><summary>Contract (proved)</summary>
///
/// ```text
/// requires lens_fit: All (λ len. len < 2 ^ 63) shape.now
/// requires fits: All (HasNoFault fit shape.now) items.now
/// requires from: from ≤ to
/// requires to: to ≤ length items.now
/// ensures none: IfNone result ((i j : ℕ) → from ≤ i → i < j → j < to
///     → AreApart fit shape.now (elems_at items.now i) (elems_at items.now j))
/// ensures some: IfSome result (λ (i, j). (i < j) × (j < length items.now)
///     × Intersect fit shape.now (elems_at items.now i) (elems_at items.now j))
/// ```
/// [How to read it](crate::contracts)
/// </details>
#[inline]
fn first_in_group(shape: &[usize], items: &[Grouped<'_>], from: usize, to: usize, fit: Fit) -> Option<(usize, usize)> {
    match first_elems_intersection(shape, &items[from..to], fit) {
        Some((one, other)) => Some((from + one, from + other)),
        None => None,
    }
}

/// The positions of two items that share an index. No two of different groups do.
///
/// <details><summary>Contract (proved)</summary>
///
/// ```text
/// requires lens_fit: All (λ len. len < 2 ^ 63) shape.now
/// requires fits: All (HasNoFault fit shape.now) items.now
/// requires in_order: AreInGroups items.now
/// requires apart: AreApartAcross fit shape.now items.now
/// ensures none: IfNone result ((i j : ℕ) → i < j → j < length items.now
///     → AreApart fit shape.now (elems_at items.now i) (elems_at items.now j))
/// ensures some: IfSome result (λ (i, j). (i < j) × (j < length items.now)
///     × Intersect fit shape.now (elems_at items.now i) (elems_at items.now j))
/// ```
/// [How to read it](crate::contracts)
/// </details>
#[inline]
fn first_in_groups(shape: &[usize], items: &[Grouped<'_>], fit: Fit) -> Option<(usize, usize)> {
    let mut from = 0;
    for to in 0..items.len() {
        if items[to].group != items[from].group {
            if let Some(found) = first_in_group(shape, items, from, to, fit) {
                return Some(found);
            }
            from = to;
        }
    }
    first_in_group(shape, items, from, items.len(), fit)
}

/// The positions of two slices that share an index, the less first: what `first_elems_intersection` returns, but the
/// slices are sorted, and so may be in any order. The project's own.
///
/// Errors: out of memory.
///
/// Takes memory and time as `first_intersection_sorted` says.
///
/// # Conditions
///
/// The caller ensures that each fits, and that each length is below 2^63. Otherwise this call or a later one panics or
/// returns unspecified values.
///
/// <details><summary>Contract (proved)</summary>
///
/// ```text
/// requires lens_fit: All (λ len. len < 2 ^ 63) shape.now
/// requires fit: slices_fault fit shape.now (map S.list slices.now) ≡ None
/// ensures IfOk result (IsIntersection fit shape.now (map S.list slices.now))
/// ```
/// [How to read it](crate::contracts)
/// </details>
#[inline]
pub fn first_elems_intersection_sorted<S: SliceElems>(
    shape: &[usize],
    slices: &[S],
    fit: Fit,
) -> Result<Option<(usize, usize)>, AllocError> {
    if lie_in_rows::<S, FromFirst>(shape, slices, fit) {
        return Ok(None);
    }
    if lie_in_rows::<S, FromLast>(shape, slices, fit) {
        return Ok(None);
    }
    let items = one_group(slices)?;
    let Some(groups) = in_groups(shape, items, fit)? else {
        return Ok(first_elems_intersection(shape, slices, fit));
    };
    let Some((one, other)) = first_in_groups(shape, groups.as_slice(), fit) else {
        return Ok(None);
    };
    let (one, other) = (groups[one].position, groups[other].position);
    Ok(Some((one.min(other), one.max(other))))
}

/// The positions of two slices that share an index, the less first: what `first_elems_intersection_sorted` returns. The
/// project's own.
///
/// Takes memory for more than four slices; if an allocation fails, they are found without it.
///
/// # Conditions
///
/// The caller ensures that each fits, and that each length is below 2^63. Otherwise this call or a later one panics or
/// returns unspecified values.
///
/// <details><summary>Contract (proved)</summary>
///
/// ```text
/// requires lens_fit: All (λ len. len < 2 ^ 63) shape.now
/// requires fit: slices_fault fit shape.now (map S.list slices.now) ≡ None
/// ensures IsIntersection fit shape.now (map S.list slices.now) result
/// ```
/// [How to read it](crate::contracts)
/// </details>
#[inline]
#[must_use]
pub fn any_elems_intersection<S: SliceElems>(shape: &[usize], slices: &[S], fit: Fit) -> Option<(usize, usize)> {
    if slices.len() > FEW {
        let found = first_elems_intersection_sorted(shape, slices, fit);
        if let Ok(found) = found {
            return found;
        }
    }
    first_elems_intersection(shape, slices, fit)
}

/// Two of many slice arguments on a shape that share an index, as `first_intersection` returns them:
/// their positions in the list, the less first. Where several pairs do, it is any of them. `None` if
/// and only if no two share one.
///
/// Sorts five arguments or more, and so takes memory in proportion to their count `k`. They may be in
/// any order. They are separated by gaps between their picks, on one axis after another, again and
/// again; on an axis where all that pick more than one coordinate have one step, also by the remainders
/// of their picks divided by it. Rows, columns, tiles of an array, with steps or without, and all blocks
/// that such cuts separate take time in proportion to `k * log(k)` for each time that each axis is cut.
/// Those that no cut separates are compared as by `first_intersection`, and so are all if one of them
/// has new axes.
///
/// `2..,2..`, `..2,..2`, `2..,..2`, `..2,2..` and `1,1` on `[4,4]`: `Some((1, 4))`, by (1,1). The
/// project's own.
///
/// # Errors
///
/// Those of `check_slice` for the first argument with one. All are checked before any two are
/// compared. If an allocation fails, the result is found without memory, as by `first_intersection`.
///
/// # Conditions
///
/// The caller ensures that each length is below 2^63. Otherwise this call or a later one panics or returns unspecified
/// values.
///
/// <details><summary>Contract (proved)</summary>
///
/// ```text
/// requires All (λ len. len < 2 ^ 63) (D.list dim.now)
/// ensures fault: result_err result ≡ slices_fault fit (D.list dim.now) (map S.list slices.now)
/// ensures intersection: IfOk result (λ found. IsIntersection fit (D.list dim.now) (map S.list slices.now) found)
/// ```
/// [How to read it](crate::contracts)
/// </details>
#[inline]
pub fn first_intersection_sorted<D: Lengths, S: SliceElems>(
    dim: &D,
    slices: &[S],
    fit: Fit,
) -> Result<Option<(usize, usize)>, ShapeError> {
    let shape = dim.slice();
    check_slices(shape, slices, fit)?;
    Ok(any_elems_intersection(shape, slices, fit))
}

// Made by `rust/erase` of `crates/nd_slice/src/slices_in_groups.rt`: edit that.
//! Slices in groups of which no two share an index: groups of few slices, where most are apart on some axis.

use crate::memory::AllocError;
use crate::memory::prelude::{FallibleVec, Vec};
use crate::nd_slice::elem::SliceInfoElem;
use crate::nd_slice::elems::SliceElems;
use crate::nd_slice::fit::Fit;
use crate::nd_slice::ranges_apart::{range_on, step_on};

/// A slice of a list with its position there, in a group of slices, and its range on an axis.
#[derive(Clone, Copy)]
pub(crate) struct Grouped<'a> {
    pub(crate) group: usize,
    pub(crate) start: usize,
    pub(crate) end: usize,
    pub(crate) position: usize,
    pub(crate) elems: &'a [SliceInfoElem],
}

impl SliceElems for Grouped<'_> {
    #[inline]
    fn elems(&self) -> &[SliceInfoElem] {
        self.elems
    }
}

/// All slices of a list, as one group.
///
/// <details><summary>Contract (proved)</summary>
///
/// ```text
/// ensures named: IfOk result (λ items. map named items.items ≡ enumerate_from 0 (map S.list slices.now))
/// ensures group: IfOk result (λ items. All (λ item. item.group ≡ 0) items.items)
/// ```
/// [How to read it](crate::contracts)
/// </details>
#[inline]
pub(crate) fn one_group<S: SliceElems>(slices: &[S]) -> Result<Vec<Grouped<'_>>, AllocError> {
    let mut items = Vec::fallible_with_capacity(slices.len())?;
    for position in 0..slices.len() {
        items.fallible_push(Grouped { group: 0, start: 0, end: 0, position, elems: slices[position].elems() })?;
    }
    Ok(items)
}

/// The distance between the picks of an axis where that is the same for all slices that pick more than one; else 1. Divided by it the
/// picks of a slice leave one remainder.
///
/// <details><summary>Contract (proved)</summary>
///
/// ```text
/// requires All (HasNoFault fit shape.now) items.now
/// ensures some: 0 < result
/// ensures remainders: All (λ item. HasRemainderOn result fit shape.now axis item.elems.now) items.now
/// ```
/// [How to read it](crate::contracts)
/// </details>
#[inline]
fn common_step(shape: &[usize], axis: usize, items: &[Grouped<'_>], fit: Fit) -> usize {
    let mut common = 0;
    for item in items {
        let step = step_on(shape, axis, item.elems, fit);
        if common == 0 {
            common = step;
        } else if step != 0 && step != common {
            return 1;
        }
    }
    common.max(1)
}

/// The same slices with their ranges on an axis; or, where `by` isn't 0, with the remainders that their picks leave, divided by it.
/// `None` where one of them isn't known.
///
/// <details><summary>Contract (proved)</summary>
///
/// ```text
/// requires fits: All (HasNoFault fit shape.now) items.now
/// requires remainders: 0 < by → All (λ item. HasRemainderOn by fit shape.now axis item.elems.now) items.now
/// ensures kept: IfOk result (λ found. IfSome found (λ new. map kept new.items ≡ map kept items.now))
/// ensures on_axis: IfOk result (λ found. IfSome found (λ new. All (IsOnAxis fit shape.now axis by) new.items))
/// ```
/// [How to read it](crate::contracts)
/// </details>
#[inline]
fn on_axis<'a>(
    shape: &[usize],
    axis: usize,
    by: usize,
    items: &[Grouped<'a>],
    fit: Fit,
) -> Result<Option<Vec<Grouped<'a>>>, AllocError> {
    let mut new = Vec::fallible_with_capacity(items.len())?;
    for item in items {
        let Some((start, end)) = range_on(shape, axis, item.elems, fit) else {
            return Ok(None);
        };
        let (start, end) = if by == 0 { (start, end) } else { (start % by, start % by + 1) };
        new.fallible_push(Grouped { group: item.group, start, end, position: item.position, elems: item.elems })?;
    }
    Ok(Some(new))
}

/// The same slices in more groups: one ends where the next slice begins past all of it.
///
/// <details><summary>Contract (proved)</summary>
///
/// ```text
/// requires AreSorted items.now
/// ensures named: IfOk result (λ cut. map named cut.items ≡ map named items.now)
/// ensures in_order: IfOk result (λ cut. AreInGroups cut.items)
/// ensures cut: IfOk result (λ cut. IsCut items.now cut.items)
/// ```
/// [How to read it](crate::contracts)
/// </details>
#[inline]
fn cut<'a>(items: &[Grouped<'a>]) -> Result<Vec<Grouped<'a>>, AllocError> {
    let mut cut = Vec::fallible_with_capacity(items.len())?;
    // The number of the group, which it had before, and where all of it ends.
    let (mut group, mut last, mut reach) = (0, 0, 0);
    for item in items {
        if item.group != last || reach <= item.start {
            group += 1;
            last = item.group;
            reach = 0;
        }
        reach = reach.max(item.end);
        cut.fallible_push(Grouped {
            group,
            start: item.start,
            end: item.end,
            position: item.position,
            elems: item.elems,
        })?;
    }
    Ok(cut)
}

/// The same slices in more groups, in order of these: those are apart that lie apart on an axis, or, where `by` isn't 0, whose picks
/// leave other remainders there, divided by it. `None` where a range isn't known.
///
/// <details><summary>Contract (proved)</summary>
///
/// ```text
/// requires fits: All (HasNoFault fit shape.now) items.now
/// requires remainders: 0 < by → All (λ item. HasRemainderOn by fit shape.now axis item.elems.now) items.now
/// requires apart: AreApartAcross fit shape.now items.now
/// ensures named: IfOk result (λ found. IfSome found (λ new.
///     IsPermutation (map named items.now) (map named new.items)))
/// ensures in_order: IfOk result (λ found. IfSome found (λ new. AreInGroups new.items))
/// ensures apart: IfOk result (λ found. IfSome found (λ new. AreApartAcross fit shape.now new.items))
/// ```
/// [How to read it](crate::contracts)
/// </details>
#[inline]
fn cut_along<'a>(
    shape: &[usize],
    axis: usize,
    by: usize,
    items: &[Grouped<'a>],
    fit: Fit,
) -> Result<Option<Vec<Grouped<'a>>>, AllocError> {
    let Some(mut new) = on_axis(shape, axis, by, items, fit)? else {
        return Ok(None);
    };
    new.sort_unstable_by_key(|item| (item.group, item.start));
    Ok(Some(cut(new.as_slice())?))
}

/// The same slices in more groups, in order of these: those are apart that lie apart on an axis, or whose picks leave other remainders
/// there, divided by a step that all have. `None` where a range isn't known.
///
/// <details><summary>Contract (proved)</summary>
///
/// ```text
/// requires fits: All (HasNoFault fit shape.now) items.now
/// requires apart: AreApartAcross fit shape.now items.now
/// ensures named: IfOk result (λ found. IfSome found (λ new.
///     IsPermutation (map named items.now) (map named new.items)))
/// ensures in_order: IfOk result (λ found. IfSome found (λ new. AreInGroups new.items))
/// ensures apart: IfOk result (λ found. IfSome found (λ new. AreApartAcross fit shape.now new.items))
/// ```
/// [How to read it](crate::contracts)
/// </details>
#[inline]
pub(crate) fn cut_on_axis<'a>(
    shape: &[usize],
    axis: usize,
    items: &[Grouped<'a>],
    fit: Fit,
) -> Result<Option<Vec<Grouped<'a>>>, AllocError> {
    let step = common_step(shape, axis, items, fit);
    if step == 1 {
        return cut_along(shape, axis, 0, items, fit);
    }
    match cut_along(shape, axis, step, items, fit)? {
        Some(classes) => cut_along(shape, axis, 0, classes.as_slice(), fit),
        None => Ok(None),
    }
}

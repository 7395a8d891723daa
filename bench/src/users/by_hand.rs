//! Loops by hand. Those beside calls and adapters are the best that we know for a form, over slices of constant lengths. Those of `steps`, `indices` and
//! `walk::<true>` stand beside a `for`: they are the slice's own if the form is the whole list, and else move by strides that are known only when they run. No `for`
//! over such an iterator is vectorised, so these aren't either.

use super::forms::Form::{self, Crop, Reversed, Steps, Threes, Transposed, Whole};
use super::forms::{CUT, WIDE, Walk};
use std::{arch::asm, hint::black_box};

/// Calls a function at each item, in row-major order, and the rows of a crop: their names, and those of std for such slices.
macro_rules! each {
    ($each:ident, $rows:ident, $iter:ident, $chunks:ident $(, $mut:tt)?) => {
        #[inline(always)]
        fn $rows<T>(items: &$($mut)? [T]) -> impl Iterator<Item = &$($mut)? [T]> {
            let end = items.len() - CUT * WIDE;
            items[CUT * WIDE..end].$chunks(WIDE).map(|row| &$($mut)? row[CUT..WIDE - CUT])
        }

        #[inline(always)]
        pub fn $each<T>(form: Form, items: &$($mut)? [T], mut f: impl FnMut(&$($mut)? T)) {
            match form {
                Whole => items.$iter().for_each(f),
                Crop => $rows(items).for_each(|row| row.$iter().for_each(&mut f)),
                Steps => items.$chunks(WIDE).step_by(2).for_each(|row| row.$chunks(2).for_each(|two| f(&$($mut)? two[0]))),
                Reversed => items.$iter().rev().for_each(f),
                Transposed => (0..WIDE).for_each(|at| items[at..].$iter().step_by(WIDE).for_each(&mut f)),
                Threes => items.$chunks(4).for_each(|four| four[..3].$iter().for_each(&mut f)),
            }
        }
    };
}

each!(each, rows, iter, chunks_exact);
each!(each_mut, rows_mut, iter_mut, chunks_exact_mut, mut);

#[inline(always)]
pub fn each_two<T>(form: Form, items: &mut [T], others: &[T], mut f: impl FnMut((&mut T, &T))) {
    let mut both = |row: &mut [T], other: &[T]| row.iter_mut().zip(other).for_each(&mut f);
    match form {
        Whole => both(items, others),
        Crop => rows_mut(items).zip(rows(others)).for_each(|(row, other)| both(row, other)),
        Steps => items.chunks_exact_mut(WIDE).zip(others.chunks_exact(WIDE)).step_by(2).for_each(|(row, other)| {
            row.chunks_exact_mut(2).zip(other.chunks_exact(2)).for_each(|(two, other)| f((&mut two[0], &other[0])));
        }),
        Reversed => items.iter_mut().zip(others).rev().for_each(f),
        Transposed => (0..WIDE).for_each(|at| {
            items[at..].iter_mut().step_by(WIDE).zip(others[at..].iter().step_by(WIDE)).for_each(&mut f);
        }),
        Threes => items.chunks_exact_mut(4).zip(others.chunks_exact(4)).for_each(|(row, other)| both(&mut row[..3], &other[..3])),
    }
}

/// What a function makes of each item, in row-major order.
#[inline(always)]
pub fn collected<T>(form: Form, items: &[T], f: impl Fn(&T) -> T) -> Vec<T> {
    let Walk(_, [high, wide], _) = form.walk(items.len());
    let mut list = Vec::with_capacity(high * wide);
    match form {
        Whole => list.extend(items.iter().map(f)),
        Crop => rows(items).for_each(|row| list.extend(row.iter().map(&f))),
        Steps => items.chunks_exact(WIDE).step_by(2).for_each(|row| list.extend(row.chunks_exact(2).map(|two| f(&two[0])))),
        Reversed => list.extend(items.iter().rev().map(f)),
        Transposed => (0..WIDE).for_each(|at| list.extend(items[at..].iter().step_by(WIDE).map(&f))),
        Threes => items.chunks_exact(4).for_each(|four| list.extend([&four[0], &four[1], &four[2]].map(&f))),
    }
    list
}

#[inline(always)]
pub fn fill<T: Clone>(form: Form, items: &mut [T], item: T) {
    match form {
        Whole | Reversed | Transposed => items.fill(item),
        Crop => rows_mut(items).for_each(|row| row.fill(item.clone())),
        Steps | Threes => each_mut(form, items, |x| x.clone_from(&item)),
    }
}

#[inline(always)]
pub fn assign<T: Clone>(form: Form, items: &mut [T], others: &[T]) {
    match form {
        Whole | Reversed | Transposed => items.clone_from_slice(others),
        Crop => rows_mut(items).zip(rows(others)).for_each(|(row, other)| row.clone_from_slice(other)),
        Steps | Threes => each_two(form, items, others, |(x, y)| x.clone_from(y)),
    }
}

#[inline(always)]
pub fn equal<T: PartialEq>(form: Form, items: &[T], others: &[T]) -> bool {
    match form {
        Whole | Reversed | Transposed => items == others,
        Crop => rows(items).zip(rows(others)).all(|(row, other)| row == other),
        Steps => items
            .chunks_exact(WIDE)
            .zip(others.chunks_exact(WIDE))
            .step_by(2)
            .all(|(row, other)| row.chunks_exact(2).zip(other.chunks_exact(2)).all(|(two, other)| two[0] == other[0])),
        Threes => items.chunks_exact(4).zip(others.chunks_exact(4)).all(|(row, other)| row[..3] == other[..3]),
    }
}

/// Fills the upper half of the rows with one item, and the lower with another.
#[inline(always)]
pub fn fill_halves<T: Clone>(form: Form, items: &mut [T], [upper, lower]: [T; 2]) {
    let (middle, border) = (items.len() / 2, if form == Crop { CUT * WIDE } else { 0 });
    if form == Transposed {
        return items.chunks_exact_mut(WIDE / 2).enumerate().for_each(|(at, half)| half.fill([&upper, &lower][at % 2].clone()));
    }
    let [first, second] = if form == Reversed { [lower, upper] } else { [upper, lower] };
    fill(form, &mut items[..middle + border], first);
    fill(form, &mut items[middle - border..], second);
}

/// Calls a function with each index, in row-major order, and its place. If `SLOW` no loop is vectorised.
#[inline(always)]
pub fn walk<const SLOW: bool>(walk: Walk, mut f: impl FnMut(usize, usize, usize)) {
    let Walk(start, [high, wide], [down, along]) = black_box(walk);
    for i in 0..high {
        let mut place = start as isize + i as isize * down;
        for j in 0..wide {
            if SLOW {
                // SAFETY: these are no instructions
                unsafe { asm!("", options(nomem, nostack, preserves_flags)) };
            }
            f(i, j, place as usize);
            place += along;
        }
    }
}

/// Calls a function with the place of each item, in row-major order, as a `for` over items visits it.
#[inline(always)]
pub fn steps(form: Form, len: usize, mut f: impl FnMut(usize)) {
    if form == Whole { (0..len).for_each(f) } else { walk::<true>(form.walk(len), |_, _, place| f(place)) }
}

/// The same with each index.
#[inline(always)]
pub fn indices(form: Form, len: usize, mut f: impl FnMut(usize, usize, usize)) {
    if form == Whole {
        (0..len / WIDE).for_each(|i| (0..WIDE).for_each(|j| f(i, j, i * WIDE + j)));
    } else {
        walk::<true>(form.walk(len), f);
    }
}

/// Calls a function with the place of each index, as loops over indices compute it.
#[inline(always)]
pub fn places(form: Form, len: usize, mut f: impl FnMut(usize)) {
    let (Walk(_, [high, wide], _), w) = black_box((form.walk(len), WIDE));
    macro_rules! visit {
        ($i:ident, $j:ident => $place:expr) => {
            (0..high).for_each(|$i| (0..wide).for_each(|$j| f($place)))
        };
    }
    match form {
        Whole => visit!(i, j => i * w + j),
        Crop => visit!(i, j => (i + CUT) * w + j + CUT),
        Steps => visit!(i, j => 2 * i * w + 2 * j),
        Reversed => visit!(i, j => len - 1 - i * w - j),
        Transposed => visit!(i, j => j * w + i),
        Threes => visit!(i, j => 4 * i + j),
    }
}

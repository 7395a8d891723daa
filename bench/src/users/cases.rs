//! The calls, each by hand and as users write it. Of each type there are two modules of them, which differ in a number, so that each iterator is in two places of the
//! program.

/// Calls of a type, which may have `sum`: the name of the module, and the number.
macro_rules! calls {
    ($module:ident, $T:ty, $k:literal $(, $sum:ident)?) => {
        #[rustfmt::skip]
        pub mod $module {
            use crate::Sides::{Lists, Owned, Reads, Writes};
            use crate::{Case, Item, by_hand::*, forms::Form::{Transposed, Whole, self}};
            use ndarray_layout::{Axis, Ix2, OwnedArray, s};
            use std::hint::black_box;

            type T = $T;

            fn told(x: &T) -> u64 { x.told() }
            fn nth(number: usize) -> T { T::nth(number + $k) }
            // SAFETY: (of both) each place of a form is one of the list
            fn at(items: &[T], place: usize) -> &T { unsafe { items.get_unchecked(place) } }
            fn at_mut(items: &mut [T], place: usize) -> &mut T { unsafe { items.get_unchecked_mut(place) } }
            fn by_each(form: Form, b: &[T]) -> u64 { let mut sum = $k; each(form, b, |x| sum += x.told()); sum }
            fn by_steps(form: Form, b: &[T]) -> u64 {
                if form == Whole { return by_each(form, b) }
                let mut sum = $k;
                steps(form, b.len(), |place| sum += at(b, place).told());
                sum
            }
            fn change_steps(form: Form, a: &mut [T]) {
                if form == Whole { each_mut(form, a, |x| x.change($k)) } else { steps(form, a.len(), |place| at_mut(a, place).change($k)) }
            }
            fn by_places(form: Form, b: &[T]) -> u64 { let mut sum = $k; places(form, b.len(), |place| sum += b[place].told()); sum }
            fn change_places(form: Form, a: &mut [T]) { places(form, a.len(), |place| a[place].change($k)) }

            pub fn cases() -> Vec<Case<T>> {
                vec![
                    Case("fill", Writes(|form, a, _| fill(form, a, nth(0)), |mut a, _| a.fill(nth(0)))),
                    Case("assign", Writes(assign, |mut a, b| a.assign(&b).unwrap())),
                    Case("map_in_place", Writes(|form, a, _| each_mut(form, a, |x| x.change($k)), |mut a, _| a.map_in_place(|x| x.change($k)))),
                    Case("zip_mut_with", Writes(
                        |form, a, b| each_two(form, a, b, |(x, y)| x.add(y)), |mut a, b| a.zip_mut_with(&b, |x, y| x.add(y)).unwrap())),
                    Case("fold", Reads(|form, b, _| by_each(form, b), |b, _| b.fold($k, |sum, x| sum + x.told()))),
                    Case("for_each", Reads(|form, b, _| by_each(form, b), |b, _| { let mut sum = $k; b.for_each(|x| sum += x.told()); sum })),
                    $(Case("sum()", Reads(
                        |form, b, _| by_each(if matches!(form, Form::Reversed | Transposed) { Whole } else { form }, b) - $k, |b, _| b.$sum().unwrap())),)?
                    Case("iter().map().sum()", Reads(|form, b, _| by_each(form, b), |b, _| b.iter().map(told).sum::<u64>() + $k)),
                    Case("==", Reads(|form, b, _| equal(form, b, black_box(b)).into(), |b, _| (b == *black_box(&b)).into())),
                    Case("to_vec()", Lists(|form, b| collected(form, b, T::clone), |b| b.to_vec().unwrap())),
                    Case("map()", Lists(|form, b| collected(form, b, |x| x.changed($k)), |b| b.map(|x| x.changed($k)).unwrap().into_stored())),
                    Case("for x in iter_mut()", Writes(|form, a, _| change_steps(form, a), |mut a, _| for x in a.iter_mut() { x.change($k) })),
                    Case("for x in &view", Reads(|form, b, _| by_steps(form, b), |b, _| { let mut sum = $k; for x in &b { sum += x.told() } sum })),
                    Case("for iter().zip(iter())", Reads(
                        |form, a, b| { let mut sum = $k; steps(form, b.len(), |place| sum += at(a, place).told() ^ at(b, place).told()); sum },
                        |a, b| { let mut sum = $k; for (x, y) in a.iter().zip(b.iter()) { sum += x.told() ^ y.told() } sum })),
                    Case("for iter_mut().zip(iter())", Writes(
                        |form, a, b| steps(form, b.len(), |place| at_mut(a, place).add(at(b, place))),
                        |mut a, b| for (x, y) in a.iter_mut().zip(b.iter()) { x.add(y) })),
                    Case("for iter().enumerate()", Reads(
                        |form, b, _| { let (mut sum, mut k) = ($k, 0); steps(form, b.len(), |place| { sum ^= at(b, place).told() * k; k += 1 }); sum },
                        |b, _| { let mut sum = $k; for (k, x) in b.iter().enumerate() { sum ^= x.told() * k as u64 } sum })),
                    Case("for iter().rev()", Reads(
                        |form, b, _| {
                            let mut sum = $k;
                            if form == Whole { for x in b.iter().rev() { sum += x.told() } return sum }
                            walk::<true>(form.walk(b.len()).reversed(), |_, _, place| sum += at(b, place).told());
                            sum
                        },
                        |b, _| { let mut sum = $k; for x in b.iter().rev() { sum += x.told() } sum })),
                    Case("for indexed_iter()", Reads(
                        |form, b, _| { let mut sum = $k; indices(form, b.len(), |i, j, place| sum ^= at(b, place).told() * (3 * i + j) as u64); sum },
                        |b, _| { let mut sum = $k; for ((i, j), x) in b.indexed_iter() { sum ^= x.told() * (3 * i + j) as u64 } sum })),
                    Case("for indexed_iter_mut()", Writes(
                        |form, a, _| indices(form, a.len(), |i, j, place| *at_mut(a, place) = nth(3 * i + j)),
                        |mut a, _| for ((i, j), x) in a.indexed_iter_mut() { *x = nth(3 * i + j) })),
                    Case("iter().cloned().collect()", Lists(|form, b| collected(form, b, T::clone), |b| b.iter().cloned().collect())),
                    Case("iter().map().collect()", Lists(
                        |form, b| collected(form, b, |x| x.changed($k)), |b| b.iter().map(|x| x.changed($k)).collect())),
                    Case("sums of rows()", Reads(
                        |form, b, _| by_each(form, b),
                        |b, _| { let mut sum = $k; for row in b.rows() { sum += row.iter().map(told).sum::<u64>() } sum })),
                    Case("for x in each of rows()", Reads(
                        |form, b, _| by_steps(form, b), |b, _| { let mut sum = $k; for row in b.rows() { for x in row { sum += x.told() } } sum })),
                    Case("for x in each of rows_mut()", Writes(
                        |form, a, _| change_steps(form, a), |mut a, _| for row in a.rows_mut() { for x in row { x.change($k) } })),
                    Case("sums of lanes(Axis(0))", Reads(
                        |form, b, _| {
                            let mut sum = $k;
                            if form == Transposed { return by_each(Whole, b) }
                            walk::<false>(form.walk(b.len()).transposed(), |_, _, place| sum += at(b, place).told());
                            sum
                        },
                        |b, _| { let mut sum = $k; for lane in b.lanes(Axis(0)).unwrap() { sum += lane.iter().map(told).sum::<u64>() } sum })),
                    Case("a[(i, j)] of a view", Reads(
                        |form, b, _| by_places(form, b),
                        |b, _| { let mut sum = $k; for i in 0..b.dim()[0] { for j in 0..b.dim()[1] { sum += b[(i, j)].told() } } sum })),
                    Case("a[(i, j)] of a view, written", Writes(
                        |form, a, _| change_places(form, a), |mut a, _| for i in 0..a.dim()[0] { for j in 0..a.dim()[1] { a[(i, j)].change($k) } })),
                    Case("a[(i, j)] of an owner", Owned(
                        |form, a| by_places(form, a),
                        |a| { let mut sum = $k; for i in 0..a.dim()[0] { for j in 0..a.dim()[1] { sum += a[(i, j)].told() } } sum })),
                    Case("a[(i, j)] of an owner, written", Owned(
                        |form, a| { change_places(form, a); 0 },
                        |a| { for i in 0..a.dim()[0] { for j in 0..a.dim()[1] { a[(i, j)].change($k) } } 0 })),
                    Case("from_shape_fn", Lists(
                        |form, b| {
                            let [high, wide] = black_box(form.walk(b.len()).1);
                            let mut list = Vec::with_capacity(high * wide);
                            (0..high).for_each(|i| list.extend((0..wide).map(|j| nth(3 * i + j))));
                            list
                        },
                        |b| OwnedArray::from_shape_fn(Ix2(b.dim()[0], b.dim()[1]), |(i, j)| nth(3 * i + j)).into_stored())),
                    Case("tiles of 4x4 filled", Writes(
                        |form, a, _| {
                            let (walk, mut k) = (black_box(form.walk(a.len())), 0);
                            for (i, j) in (0..walk.1[0] / 4).flat_map(|i| (0..walk.1[1] / 4).map(move |j| (4 * i, 4 * j))) {
                                let item = nth(k);
                                k += 1;
                                if walk.2[1] == 1 { (i..i + 4).for_each(|i| a[walk.place(i, j)..][..4].fill(item.clone())) }
                                else { (0..16).for_each(|k| at_mut(a, walk.place(i + k / 4, j + k % 4)).clone_from(&item)) }
                            }
                        },
                        |a, _| for (k, mut tile) in a.into_tiles(&Ix2(4, 4)).unwrap().enumerate() { tile.fill(nth(k)) })),
                    Case("sums of windows of 3x3", Reads(
                        |form, b, _| {
                            let (walk, mut sum) = (black_box(form.walk(b.len())), $k);
                            for i in 0..walk.1[0] - 2 {
                                for j in 0..walk.1[1] - 2 { (i..i + 3).for_each(|i| (j..j + 3).for_each(|j| sum += at(b, walk.place(i, j)).told())) }
                            }
                            sum
                        },
                        |b, _| { let mut sum = $k; for window in b.into_windows(&Ix2(3, 3)).unwrap() { sum += window.iter().map(told).sum::<u64>() } sum })),
                    Case("halves by multi_slice_mut filled", Writes(
                        |form, a, _| fill_halves(form, a, [nth(1), nth(2)]),
                        |mut a, _| {
                            let half = a.dim()[0] / 2;
                            let (mut upper, mut lower) = a.multi_slice_mut((s![..half, ..], s![half.., ..])).unwrap();
                            upper.fill(nth(1));
                            lower.fill(nth(2));
                        })),
                ]
            }
        }
    };
}

/// Both modules of each type: their names, the type, and `sum` where it has that call; the rows of all.
macro_rules! types {
    ($($one:ident $other:ident $T:ty $(, $sum:ident)?;)*) => {
        $(calls!($one, $T, 1 $(, $sum)?);
        calls!($other, $T, 2 $(, $sum)?);)*

        pub fn rows(high: usize, word: &str) -> Vec<crate::Row> {
            [$(crate::rows($one::cases(), $other::cases(), high, word)),*].into_iter().flatten().collect()
        }
    };
}

types! {
    bytes bytes_again u8, sum; shorts shorts_again u16, sum; words words_again u32, sum; singles singles_again f32; doubles doubles_again f64;
    points points_again [f32; 3]; stars stars_again crate::items::Star; texts texts_again String;
}

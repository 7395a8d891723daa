//! Parts of random arrays, cut and turned by random steps, which threads write at the same time, beside the model.

use crate::model::{Picked, Plain, index_of};
use crate::numbers::Numbers;
use crate::random::{array, dimension, model, slices};
use crate::steps::step;
use ndarray_layout::{ArrayViewMut, Axis, Dimension, Ix1, Ix2, Ix3, Ix4, Ix5, IxDyn, Lengths, NdIndex, SliceInfoElem};
use std::env;
use std::sync::Barrier;
use std::thread;

/// How many threads write at once.
const THREADS: usize = 4;

/// How many arrays there are of each type; the variable `ARRAYS` says it for slower runs.
pub fn arrays() -> usize {
    env::var("ARRAYS").map_or(1_000, |count| count.parse().expect("a count"))
}

/// A part, and the places of its items.
type Piece<'a, D> = (ArrayViewMut<'a, usize, D>, Picked);

/// Cuts parts in two, each along a random axis, until there are so many, or none can be cut.
fn cut<'a, D: Lengths>(numbers: &mut Numbers, pieces: Vec<Piece<'a, D>>, count: usize) -> Vec<Piece<'a, D>> {
    let mut pieces = pieces;
    for _ in pieces.len()..count {
        let at = numbers.below(pieces.len());
        let (part, picked) = pieces.swap_remove(at);
        if picked.shape.is_empty() {
            pieces.push((part, picked));
            continue;
        }
        let axis = numbers.below(picked.shape.len());
        let index = numbers.below(picked.shape[axis] + 1);
        let (first, second) = part.split_at(Axis(axis), index).expect("an axis");
        let (low, high) = picked.split(axis, index);
        pieces.extend([(first, low), (second, high)]);
    }
    pieces
}

/// Writes a number at each item of a part in one of the ways that there are, and reads what was there before and after.
fn write<D: Lengths + NdIndex<D>>((part, picked): &mut Piece<'_, D>, number: usize) {
    let indices = || (0..picked.places.len()).map(|number| dimension::<D>(index_of(&picked.shape, number).into_iter()));
    for (index, place) in indices().zip(&picked.places) {
        assert_eq!(part.get(&index), Some(place), "{picked:?}");
    }
    match number % 6 {
        0 => part.fill(number),
        1 => part.map_in_place(|item| *item = number),
        2 => indices().for_each(|index| assert!(part.set(&index, number))),
        3 => indices().for_each(|index| part[index] = number),
        4 => indices().for_each(|index| *part.get_mut(&index).expect("an item") = number),
        _ => indices().zip(&picked.places).for_each(|(index, place)| {
            assert_eq!(part.replace(&index, number), Ok(*place));
        }),
    }
    let mut count = 0;
    part.map_in_place(|item| {
        assert_eq!(*item, number);
        count += 1;
    });
    assert_eq!((count, part.len()), (picked.places.len(), picked.places.len()));
}

/// Lets threads write the pieces, a share of them each, all at the same time.
fn write_in_threads<D: Lengths + NdIndex<D> + Send>(pieces: Vec<Piece<'_, D>>, share: usize) {
    let together = Barrier::new(THREADS);
    let mut shares: Vec<Vec<(usize, Piece<'_, D>)>> = (0..THREADS).map(|_| Vec::new()).collect();
    for (number, piece) in pieces.into_iter().enumerate() {
        shares[number * share % THREADS].push((number, piece));
    }
    thread::scope(|scope| {
        for mut pieces in shares {
            let together = &together;
            scope.spawn(move || {
                together.wait();
                pieces.iter_mut().for_each(|(number, piece)| write(piece, 1_000_000 + *number));
            });
        }
    });
}

/// Lends parts of an array, cuts and turns them, and has them written. Returns how many items were.
fn lend_and_write<D>(numbers: &mut Numbers, plain: &Plain) -> usize
where
    D: Dimension + NdIndex<D> + Send,
{
    let mut items: Vec<usize> = (0..plain.len).collect();
    let picked = slices(numbers, &plain.shape);
    let Ok(expected) = model(plain, &picked) else {
        return 0;
    };
    let whole = array::<_, D>(plain, &mut items);
    let lent =
        whole.multi_slice_move(&picked.iter().map(Vec::as_slice).collect::<Vec<&[SliceInfoElem]>>()).expect("parts");
    let stepped = lent.into_iter().zip(expected).map(|(part, picked)| step(numbers, part, picked)).collect();
    let pieces = cut(numbers, stepped, 9);
    let expected: Vec<Vec<usize>> = pieces.iter().map(|(_, picked)| picked.places.clone()).collect();
    write_in_threads(pieces, 1 + numbers.below(3));
    let mut left: Vec<usize> = (0..plain.len).collect();
    for (number, places) in expected.iter().enumerate() {
        places.iter().for_each(|place| left[*place] = 1_000_000 + number);
    }
    assert_eq!(items, left, "{plain:?}");
    expected.iter().map(Vec::len).sum()
}

/// Cuts a whole array, without slices, and has the pieces written.
fn cut_and_write<D>(numbers: &mut Numbers, plain: &Plain)
where
    D: Lengths + NdIndex<D> + Send,
{
    let mut items: Vec<usize> = (0..plain.len).collect();
    let pieces = cut(numbers, vec![(array::<_, D>(plain, &mut items), plain.whole())], 8);
    let expected: Vec<Vec<usize>> = pieces.iter().map(|(_, picked)| picked.places.clone()).collect();
    write_in_threads(pieces, 1);
    let mut left: Vec<usize> = (0..plain.len).collect();
    for (number, places) in expected.iter().enumerate() {
        places.iter().for_each(|place| left[*place] = 1_000_000 + number);
    }
    assert_eq!(items, left, "{plain:?}");
}

/// A random layout of so many axes.
fn plain_of(numbers: &mut Numbers, axes: usize) -> Plain {
    loop {
        let plain = Plain::any(numbers);
        if plain.shape.len() == axes {
            return plain;
        }
    }
}

#[test]
fn threads_write_parts_of_random_arrays_at_once() {
    let mut numbers = Numbers::new(1_950_001);
    let mut written = 0;
    for _ in 0..arrays() {
        let plain = Plain::any(&mut numbers);
        written += match plain.shape.len() {
            1 => lend_and_write::<Ix1>(&mut numbers, &plain),
            2 => lend_and_write::<Ix2>(&mut numbers, &plain),
            3 => lend_and_write::<Ix3>(&mut numbers, &plain),
            4 => lend_and_write::<Ix4>(&mut numbers, &plain),
            5 => lend_and_write::<Ix5>(&mut numbers, &plain),
            _ => lend_and_write::<IxDyn>(&mut numbers, &plain),
        };
    }
    assert!(written > 5 * arrays(), "{written} items");
}

#[test]
fn threads_write_pieces_of_random_arrays_at_once() {
    let mut numbers = Numbers::new(1_960_001);
    for _ in 0..arrays() / 5 {
        let plain: [Plain; 6] = std::array::from_fn(|axes| plain_of(&mut numbers, axes));
        cut_and_write::<Ix1>(&mut numbers, &plain[1]);
        cut_and_write::<Ix2>(&mut numbers, &plain[2]);
        cut_and_write::<Ix3>(&mut numbers, &plain[3]);
        cut_and_write::<Ix4>(&mut numbers, &plain[4]);
        cut_and_write::<Ix5>(&mut numbers, &plain[5]);
        let any = numbers.below(6);
        cut_and_write::<IxDyn>(&mut numbers, &plain[any]);
    }
}

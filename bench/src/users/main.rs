//! Calls and loops as users write them, over items of each type in each form, beside the same by hand over the same lists.
//!
//! usage: users PASSES ROUNDS HIGH [WORD]   over lists of 160 KB and HIGH rows at most, for each case whose name has WORD: its call, type and form, nanoseconds of an item by hand, and by the package

mod by_hand;
mod cases;
mod forms;
mod items;

use forms::Form::{self, Threes, Transposed, Whole};
use forms::{WIDE, Walk};
use items::Item;
use ndarray_layout::{ArrayView, ArrayViewMut, CanIndexCheckMode, Ix2, OwnedArray, ShapeBuilder, Strided};
use std::{cell::RefCell, hint::black_box, rc::Rc, time::Instant};

type Mut<'a, T> = ArrayViewMut<'a, T, Ix2>;
type View<'a, T> = ArrayView<'a, T, Ix2>;

/// A call by hand and by the package: it writes the first list, reads one or both, makes a list, or has an array that owns its items.
pub enum Sides<T> {
    Writes(fn(Form, &mut [T], &[T]), fn(Mut<T>, View<T>)),
    Reads(fn(Form, &[T], &[T]) -> u64, fn(View<T>, View<T>) -> u64),
    Lists(fn(Form, &[T]) -> Vec<T>, fn(View<T>) -> Vec<T>),
    Owned(fn(Form, &mut [T]) -> u64, fn(&mut OwnedArray<T, Ix2>) -> u64),
}

/// A call with its name.
pub struct Case<T>(&'static str, Sides<T>);

/// The list that calls write, and another one.
#[derive(PartialEq)]
struct Data<T>(Vec<T>, Vec<T>);

/// A case in one form: its call, type and form, how many items it has, and both sides with the least nanoseconds of a call.
struct Row {
    name: String,
    items: usize,
    sides: [Box<dyn FnMut()>; 2],
    least_ns: [f64; 2],
}

impl<T: Item> Data<T> {
    /// Lists of 160 KB at most, and at most so many rows, of which 8 divides the count.
    fn new(high: usize) -> Self {
        let len = high.min(125 / size_of::<T>() * 8) * WIDE;
        Data((0..len).map(|at| T::nth(7 * at + 3)).collect(), (0..len).map(|at| T::nth(5 * at)).collect())
    }

    fn layout(&self, form: Form) -> Strided<Ix2> {
        let Walk(start, [high, wide], [down, along]) = form.walk(self.0.len());
        let (shape, strides, mode) = (Ix2(high, wide), Ix2(down as usize, along as usize), CanIndexCheckMode::OwnedMutable);
        black_box(Strided::from_parts(start, shape, strides, size_of::<T>(), self.0.len(), mode).unwrap())
    }
}

impl<T: Item> Case<T> {
    fn has(&self, form: Form) -> bool {
        match self {
            Case("from_shape_fn", _) => matches!(form, Whole | Threes),
            Case("tiles of 4x4 filled", _) => form != Threes,
            Case(_, sides) => !matches!(sides, Sides::Owned(..)) || matches!(form, Whole | Transposed),
        }
    }

    /// What the call returns: a number or a list.
    fn by_hand(&self, form: Form, Data(a, b): &mut Data<T>) -> (u64, Vec<T>) {
        let (form, a, b) = black_box((form, &mut a[..], &b[..]));
        match self.1 {
            Sides::Writes(call, _) => (call(form, a, b), (0, vec![])).1,
            Sides::Reads(call, _) => (call(form, b, a), vec![]),
            Sides::Lists(call, _) => (0, call(form, b)),
            Sides::Owned(call, _) => (call(form, a), vec![]),
        }
    }

    fn by_package(&self, form: Form, data: &mut Data<T>) -> (u64, Vec<T>) {
        let layout = data.layout(form);
        if let Sides::Owned(_, call) = self.1 {
            let shape = layout.dim().strides(*layout.strides()).unwrap();
            let mut array = OwnedArray::from_shape_vec(shape, std::mem::take(&mut data.0)).ok().unwrap();
            let number = call(black_box(&mut array));
            data.0 = array.into_stored();
            return (number, vec![]);
        }
        let (a, b) = black_box((&mut data.0[..], ArrayView::over(layout, &data.1).unwrap()));
        match self.1 {
            Sides::Writes(_, call) => (call(ArrayViewMut::over(layout, a).unwrap(), b), (0, vec![])).1,
            Sides::Reads(_, call) => (call(b, ArrayView::over(layout, a).unwrap()), vec![]),
            Sides::Lists(_, call) => (0, call(b)),
            Sides::Owned(..) => unreachable!("it returned before"),
        }
    }

    fn row(self: &Rc<Self>, form: Form, name: String, data: &Rc<RefCell<Data<T>>>) -> Row {
        let [high, wide] = form.walk(data.borrow().0.len()).1;
        let [(first, its), (second, same)] = [(); 2].map(|()| (self.clone(), data.clone()));
        let by_hand = move || drop(black_box(first.by_hand(form, &mut its.borrow_mut())));
        let by_package = move || drop(black_box(second.by_package(form, &mut same.borrow_mut())));
        Row { name, items: high * wide, sides: [Box::new(by_hand), Box::new(by_package)], least_ns: [f64::INFINITY; 2] }
    }
}

/// The rows of a type whose names have a word, checked, as is the other case of each.
fn rows<T: Item>(cases: Vec<Case<T>>, again: Vec<Case<T>>, high: usize, word: &str) -> Vec<Row> {
    let (data, mut rows) = (Rc::new(RefCell::new(Data::new(high))), vec![]);
    for (case, again) in cases.into_iter().map(Rc::new).zip(again) {
        for form in Form::ALL.into_iter().filter(|form| case.has(*form)) {
            let of = std::any::type_name::<T>().rsplit("::").next().unwrap();
            let name = format!("{}, {of}, {form:?}", case.0);
            if name.contains(word) {
                for case in [&*case, &again] {
                    let (mut data, mut other) = (Data::new(high), Data::new(high));
                    let is_same = case.by_hand(form, &mut data) == case.by_package(form, &mut other) && data == other;
                    assert!(is_same, "{name}: the sides end otherwise");
                }
                rows.push(case.row(form, name, &data));
            }
        }
    }
    rows
}

/// The sides take turns, so that both have the good moments of a busy machine. A round has so many calls that it takes 20 us.
fn time(row: &mut Row, rounds: usize) {
    for turn in 0..2 * rounds {
        let side = turn % 2;
        let calls = (20_000.0 / row.least_ns[side]).clamp(1.0, 200.0) as usize;
        let start = Instant::now();
        (0..calls).for_each(|_| (row.sides[side])());
        row.least_ns[side] = row.least_ns[side].min(start.elapsed().as_nanos() as f64 / calls as f64);
    }
}

fn main() {
    let words: Vec<String> = std::env::args().skip(1).collect();
    let [passes, rounds, high] = [0, 1, 2].map(|at| words[at].parse().expect("a number"));
    let word = words.get(3).map_or("", String::as_str);
    let mut all = cases::rows(high, word);
    (0..passes).for_each(|_| all.iter_mut().for_each(|row| time(row, rounds)));
    for Row { name, items, least_ns, .. } in all {
        let [by_hand, by_package] = least_ns.map(|ns| ns / items as f64);
        println!("{name}\t{by_hand:.3}\t{by_package:.3}");
    }
}

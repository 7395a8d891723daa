//! Calls with random arguments beside the model.

use crate::numbers::Numbers;
use ndarray_layout::{CanIndexCheckMode, ErrorKind, Fit, LayoutError, Order};
use std::collections::BTreeMap;
use std::fmt::Debug;
use std::panic::resume_unwind;
use std::thread::scope;

pub const CALLS: usize = 100_000;
const THREADS: usize = 4;
pub const MODES: [CanIndexCheckMode; 2] = [CanIndexCheckMode::ReadOnly, CanIndexCheckMode::OwnedMutable];
pub const ORDERS: [Order; 2] = [Order::RowMajor, Order::ColumnMajor];
pub const FITS: [Fit; 2] = [Fit::Strict, Fit::Clamp];

/// How many calls returned `Ok`, and how many each error.
#[derive(Default)]
struct Tally(BTreeMap<String, usize>);

impl Tally {
    fn count<T>(&mut self, result: &Result<T, ErrorKind>) {
        let name = result.as_ref().map_or_else(|kind| format!("{kind:?}"), |_| "Ok".into());
        *self.0.entry(name).or_default() += 1;
    }

    /// Prints the counts; a test that hardly ever meets one of these outcomes shows nothing of it.
    fn has(&self, call: &str, outcomes: &[&str]) {
        println!("{call}: {:?}", self.0);
        for outcome in outcomes {
            assert!(self.0.get(*outcome).is_some_and(|count| *count >= 200), "{call}: few {outcome}: {:?}", self.0);
        }
    }
}

/// Calls a function with 100,000 sets of arguments, in several threads, and compares each result with the model's.
pub fn compare<A: Debug, T: PartialEq + Debug, E: Into<LayoutError>>(
    call: &str,
    outcomes: &[&str],
    arguments: impl Fn(&mut Numbers) -> A + Sync,
    ours: impl Fn(&A) -> Vec<Result<T, E>> + Sync,
    model: impl Fn(&A) -> Result<T, ErrorKind> + Sync,
) {
    let tally_of = &|thread: usize| {
        let mut numbers = Numbers::new((call.len() + thread) as u64 * 1_000_003);
        let mut tally = Tally::default();
        for _ in 0..CALLS / THREADS {
            let arguments = arguments(&mut numbers);
            let expected = model(&arguments);
            for result in ours(&arguments) {
                assert_eq!(result.map_err(kind_of), expected, "{call} of {arguments:?}");
            }
            tally.count(&expected);
        }
        tally
    };
    let mut tally = Tally::default();
    scope(|scope| {
        let threads: Vec<_> = (0..THREADS).map(|thread| scope.spawn(move || tally_of(thread))).collect();
        for thread in threads {
            for (name, count) in thread.join().unwrap_or_else(|panic| resume_unwind(panic)).0 {
                *tally.0.entry(name).or_default() += count;
            }
        }
    });
    tally.has(call, outcomes);
}

fn kind_of(error: impl Into<LayoutError>) -> ErrorKind {
    match error.into() {
        LayoutError::Shape(error) => error.kind(),
        LayoutError::Memory(error) => panic!("{error}"),
    }
}

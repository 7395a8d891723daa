//! How a call is timed: the least of many rounds, less what making its table takes.
use std::hint::black_box;
use std::time::Instant;

/// A call over a whole table, so many times; the sum over the results.
pub type Call = Box<dyn Fn(usize) -> usize>;

/// One call of all sides.
pub struct Row {
    pub name: String,
    /// How many calls, indices or items a pass is.
    pub items: usize,
    /// ndarray's and ours.
    pub sides: Vec<Call>,
}

pub fn row(
    name: impl Into<String>,
    items: usize,
    theirs: impl Fn(usize) -> usize + 'static,
    ours: impl Fn(usize) -> usize + 'static,
) -> Row {
    Row { name: name.into(), items, sides: vec![Box::new(theirs), Box::new(ours)] }
}

/// A row with the passes of a round, and for each side the least of all rounds, without a pass and with them.
struct Timed<'a> {
    row: &'a Row,
    passes: usize,
    least_ns: Vec<[f64; 2]>,
}

fn time_ns(call: &Call, passes: usize) -> f64 {
    let start = Instant::now();
    black_box(call(black_box(passes)));
    start.elapsed().as_nanos() as f64
}

/// So many passes that the calls take a round's time, and making the table little of it.
fn passes_of(row: &Row, round_ns: f64) -> usize {
    let least = |call: &Call, passes| (0..8).map(|_| time_ns(call, passes)).fold(f64::INFINITY, f64::min);
    let some = if row.items > 100_000 { 1 } else { 32 };
    let each = row.sides.iter().map(|call| (least(call, some) - least(call, 0)) / some as f64);
    ((round_ns / each.fold(100.0, f64::max)) as usize).max(1)
}

/// The sides take turns, so that all have the good moments of a busy machine.
fn time_round(timed: &mut Timed, round: usize) {
    let sides = timed.row.sides.len();
    for turn in 0..sides {
        let side = (turn + round) % sides;
        for (at, passes) in [0, timed.passes].into_iter().enumerate() {
            let ns = time_ns(&timed.row.sides[side], passes);
            timed.least_ns[side][at] = timed.least_ns[side][at].min(ns);
        }
    }
}

/// The nanoseconds that an item of each row takes, on each side.
pub fn times(rows: &[Row], rounds: usize, round_ns: f64) -> Vec<Vec<f64>> {
    let mut all: Vec<Timed> = vec![];
    for row in rows {
        let least_ns = vec![[f64::INFINITY; 2]; row.sides.len()];
        all.push(Timed { row, passes: passes_of(row, round_ns), least_ns });
    }
    for round in 0..rounds {
        all.iter_mut().for_each(|timed| time_round(timed, round));
    }
    let per_item = |timed: &Timed| {
        let items = (timed.passes * timed.row.items) as f64;
        timed.least_ns.iter().map(|[without, with]| (with - without) / items).collect()
    };
    all.iter().map(per_item).collect()
}

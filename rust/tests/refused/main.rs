//! Each call that may allocate, with its first allocation failing, then its second, and so on until none fails.

mod allocator;
mod arrays;
mod axes;
mod call;
mod copies;
mod dimensions;
mod lent;
mod lists;
#[path = "../../programs/ndl_session/mod.rs"]
mod ndl_session;
mod parts;
mod runs;
mod sessions;
mod table;
mod views;
mod written;

use call::Call;
use table::Row;

/// What a call returns, as the table writes it; nothing where no call has its name.
fn answer(call: &Call) -> Option<String> {
    match call.at {
        "view" => views::of_view(call),
        "axis" => views::of_axis(call),
        "any" => dimensions::of_any(call),
        "six" => dimensions::of_six(call),
        "list" => lists::answer(call),
        "array" => arrays::answer(call),
        "lent" => lent::answer(call),
        "parts" => parts::answer(call),
        "steps" => runs::answer(call),
        _ if call.name == "session" => Some(sessions::answer(call)),
        _ => None,
    }
}

/// Each way in which a call differs from its row. The allocation that fails has to be reached, and a call without such a
/// one makes just those that its row has.
fn differences(row: &Row) -> Vec<String> {
    let failing = row.failing.len();
    let of_allocation = |(number, expected): (usize, &Vec<String>)| {
        let call = Call::read(&row.call, number);
        let told = answer(&call).unwrap_or_else(|| "no such call".to_owned());
        let made = call.made();
        let is_expected = expected.contains(&told) && if number < failing { made > number } else { made == failing };
        (!is_expected)
            .then(|| format!("{}, allocation {number} fails: {told} after {made}, not {expected:?}", row.call))
    };
    row.failing.iter().chain([&row.answer]).enumerate().filter_map(of_allocation).collect()
}

#[test]
fn each_row_holds_with_each_allocation_failing() {
    let rows = table::rows();
    let differences: Vec<String> = rows.iter().flat_map(differences).collect();
    assert!(!rows.is_empty() && differences.is_empty(), "{}", differences.join("\n"));
}

//! Slices and slice arguments: rows of their calls, and what no row can say.

mod arguments;
mod calls;
mod infos;
mod ndarray;
mod texts;

//! Views, arrays and reshapes: rows of their calls, and what no row can say.

mod arrays;
mod axes;
mod blocks;
mod calls;
mod from_parts;
mod iterated;
mod layout;
mod memory;
mod ranges;
mod reshapes;
mod runs;
mod sequences;
mod twin;

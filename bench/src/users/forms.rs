//! How the items of a case lie in their list.

use Form::{Crop, Reversed, Steps, Threes, Transposed, Whole};

/// How many items are in a row of the list, and how many a crop lacks on each side.
pub const WIDE: usize = 160;
pub const CUT: usize = 5;

/// All rows; those inside a border; every other row and column; all items from the last on; columns as rows; three of each four items.
#[derive(Clone, Copy, Debug, PartialEq)]
pub enum Form {
    Whole,
    Crop,
    Steps,
    Reversed,
    Transposed,
    Threes,
}

/// The place of the first item, how many rows and columns there are, and how far the next of each is.
pub struct Walk(pub usize, pub [usize; 2], pub [isize; 2]);

impl Form {
    pub const ALL: [Form; 6] = [Whole, Crop, Steps, Reversed, Transposed, Threes];

    /// The form in a list of so many items.
    pub fn walk(self, len: usize) -> Walk {
        let (high, wide) = (len / WIDE, WIDE as isize);
        match self {
            Whole => Walk(0, [high, WIDE], [wide, 1]),
            Crop => Walk(CUT * WIDE + CUT, [high - 2 * CUT, WIDE - 2 * CUT], [wide, 1]),
            Steps => Walk(0, [high / 2, WIDE / 2], [2 * wide, 2]),
            Reversed => Walk(len - 1, [high, WIDE], [-wide, -1]),
            Transposed => Walk(0, [WIDE, high], [1, wide]),
            Threes => Walk(0, [len / 4, 3], [4, 1]),
        }
    }
}

impl Walk {
    /// From the last item to the first.
    pub fn reversed(self) -> Self {
        Walk(self.place(self.1[0] - 1, self.1[1] - 1), self.1, self.2.map(|step| -step))
    }

    pub fn transposed(self) -> Self {
        let Walk(start, [high, wide], [down, along]) = self;
        Walk(start, [wide, high], [along, down])
    }

    #[inline]
    pub fn place(&self, i: usize, j: usize) -> usize {
        (self.0 as isize + i as isize * self.2[0] + j as isize * self.2[1]) as usize
    }
}

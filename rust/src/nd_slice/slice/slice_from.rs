// Made by `rust/erase` of `crates/nd_slice/src/slice/slice_from.rt`: edit that.
//! Slices from ranges.

use super::{LIMIT, Slice};
use core::ops::Range;
use core::ops::RangeFrom;
use core::ops::RangeFull;
use core::ops::RangeInclusive;
use core::ops::RangeTo;
use core::ops::RangeToInclusive;

impl From<RangeFull> for Slice {
    #[inline]
    fn from(_range: RangeFull) -> Slice {
        Slice::new(0, None, 1)
    }
}

impl From<Range<isize>> for Slice {
    #[inline]
    fn from(range: Range<isize>) -> Slice {
        Slice::new(range.start, Some(range.end), 1)
    }
}

impl From<RangeFrom<isize>> for Slice {
    #[inline]
    fn from(range: RangeFrom<isize>) -> Slice {
        Slice::new(range.start, None, 1)
    }
}

impl From<RangeTo<isize>> for Slice {
    #[inline]
    fn from(range: RangeTo<isize>) -> Slice {
        Slice::new(0, Some(range.end), 1)
    }
}

impl From<Range<i32>> for Slice {
    #[inline]
    fn from(range: Range<i32>) -> Slice {
        Slice::new(range.start as isize, Some(range.end as isize), 1)
    }
}

impl From<RangeFrom<i32>> for Slice {
    #[inline]
    fn from(range: RangeFrom<i32>) -> Slice {
        Slice::new(range.start as isize, None, 1)
    }
}

impl From<RangeTo<i32>> for Slice {
    #[inline]
    fn from(range: RangeTo<i32>) -> Slice {
        Slice::new(0, Some(range.end as isize), 1)
    }
}

impl From<RangeInclusive<i32>> for Slice {
    #[inline]
    fn from(range: RangeInclusive<i32>) -> Slice {
        Slice::inclusive(*range.start() as isize, *range.end() as isize)
    }
}

impl From<RangeToInclusive<i32>> for Slice {
    #[inline]
    fn from(range: RangeToInclusive<i32>) -> Slice {
        Slice::to_inclusive(range.end as isize)
    }
}

impl From<Range<usize>> for Slice {
    #[inline]
    fn from(range: Range<usize>) -> Slice {
        Slice::of_usize(range.start.min(LIMIT), range.end.min(LIMIT))
    }
}

impl From<RangeFrom<usize>> for Slice {
    #[inline]
    fn from(range: RangeFrom<usize>) -> Slice {
        Slice::from_usize(range.start.min(LIMIT))
    }
}

impl From<RangeTo<usize>> for Slice {
    #[inline]
    fn from(range: RangeTo<usize>) -> Slice {
        Slice::to_usize(range.end.min(LIMIT))
    }
}

impl From<RangeInclusive<usize>> for Slice {
    #[inline]
    fn from(range: RangeInclusive<usize>) -> Slice {
        Slice::inclusive_usize((*range.start()).min(LIMIT), (*range.end()).min(LIMIT - 1))
    }
}

impl From<RangeToInclusive<usize>> for Slice {
    #[inline]
    fn from(range: RangeToInclusive<usize>) -> Slice {
        Slice::to_inclusive_usize(range.end.min(LIMIT - 1))
    }
}

impl From<RangeInclusive<isize>> for Slice {
    #[inline]
    fn from(range: RangeInclusive<isize>) -> Slice {
        let last = *range.end();
        Slice::inclusive(*range.start(), if last == isize::MAX { last - 1 } else { last })
    }
}

impl From<RangeToInclusive<isize>> for Slice {
    #[inline]
    fn from(range: RangeToInclusive<isize>) -> Slice {
        Slice::from(0..=range.end)
    }
}

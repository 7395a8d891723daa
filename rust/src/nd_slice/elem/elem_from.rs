// Made by `rust/erase` of `crates/nd_slice/src/elem/elem_from.rt`: edit that.
//! Elements of a slice argument from ranges and numbers.

use super::{NewAxis, SliceInfoElem};
use crate::nd_slice::slice::{LIMIT, Slice};
use core::ops::Range;
use core::ops::RangeFrom;
use core::ops::RangeFull;
use core::ops::RangeInclusive;
use core::ops::RangeTo;
use core::ops::RangeToInclusive;

impl From<RangeFull> for SliceInfoElem {
    #[inline]
    fn from(range: RangeFull) -> SliceInfoElem {
        Slice::from(range).into()
    }
}

impl From<Range<isize>> for SliceInfoElem {
    #[inline]
    fn from(range: Range<isize>) -> SliceInfoElem {
        Slice::from(range).into()
    }
}

impl From<RangeFrom<isize>> for SliceInfoElem {
    #[inline]
    fn from(range: RangeFrom<isize>) -> SliceInfoElem {
        Slice::from(range).into()
    }
}

impl From<RangeTo<isize>> for SliceInfoElem {
    #[inline]
    fn from(range: RangeTo<isize>) -> SliceInfoElem {
        Slice::from(range).into()
    }
}

impl From<Range<i32>> for SliceInfoElem {
    #[inline]
    fn from(range: Range<i32>) -> SliceInfoElem {
        Slice::from(range).into()
    }
}

impl From<RangeFrom<i32>> for SliceInfoElem {
    #[inline]
    fn from(range: RangeFrom<i32>) -> SliceInfoElem {
        Slice::from(range).into()
    }
}

impl From<RangeTo<i32>> for SliceInfoElem {
    #[inline]
    fn from(range: RangeTo<i32>) -> SliceInfoElem {
        Slice::from(range).into()
    }
}

impl From<RangeInclusive<i32>> for SliceInfoElem {
    #[inline]
    fn from(range: RangeInclusive<i32>) -> SliceInfoElem {
        Slice::from(range).into()
    }
}

impl From<RangeToInclusive<i32>> for SliceInfoElem {
    #[inline]
    fn from(range: RangeToInclusive<i32>) -> SliceInfoElem {
        Slice::from(range).into()
    }
}

impl From<Range<usize>> for SliceInfoElem {
    #[inline]
    fn from(range: Range<usize>) -> SliceInfoElem {
        Slice::from(range).into()
    }
}

impl From<RangeFrom<usize>> for SliceInfoElem {
    #[inline]
    fn from(range: RangeFrom<usize>) -> SliceInfoElem {
        Slice::from(range).into()
    }
}

impl From<RangeTo<usize>> for SliceInfoElem {
    #[inline]
    fn from(range: RangeTo<usize>) -> SliceInfoElem {
        Slice::from(range).into()
    }
}

impl From<RangeInclusive<usize>> for SliceInfoElem {
    #[inline]
    fn from(range: RangeInclusive<usize>) -> SliceInfoElem {
        Slice::from(range).into()
    }
}

impl From<RangeToInclusive<usize>> for SliceInfoElem {
    #[inline]
    fn from(range: RangeToInclusive<usize>) -> SliceInfoElem {
        Slice::from(range).into()
    }
}

impl From<RangeInclusive<isize>> for SliceInfoElem {
    #[inline]
    fn from(range: RangeInclusive<isize>) -> SliceInfoElem {
        Slice::from(range).into()
    }
}

impl From<RangeToInclusive<isize>> for SliceInfoElem {
    #[inline]
    fn from(range: RangeToInclusive<isize>) -> SliceInfoElem {
        Slice::from(range).into()
    }
}

impl From<Slice> for SliceInfoElem {
    #[inline]
    fn from(slice: Slice) -> SliceInfoElem {
        let Slice { start, end, step } = slice;
        SliceInfoElem::Slice { start, end, step }
    }
}

impl From<isize> for SliceInfoElem {
    #[inline]
    fn from(index: isize) -> SliceInfoElem {
        SliceInfoElem::Index(index)
    }
}

impl From<i32> for SliceInfoElem {
    #[inline]
    fn from(index: i32) -> SliceInfoElem {
        SliceInfoElem::Index(index as isize)
    }
}

impl From<usize> for SliceInfoElem {
    #[inline]
    fn from(index: usize) -> SliceInfoElem {
        SliceInfoElem::index_usize(index.min(LIMIT))
    }
}

impl From<NewAxis> for SliceInfoElem {
    #[inline]
    fn from(_axis: NewAxis) -> SliceInfoElem {
        SliceInfoElem::NewAxis
    }
}

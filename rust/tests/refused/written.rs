//! What a call returns, as the table writes it.

use ndarray_layout::{
    AllocError, ArrayView, ArrayViewMut, IxDyn, IxDynImpl, LayoutError, Lengths, Order, OwnedArray, ReadySlice, Shape,
    SplitViews, StrideShape, Strided,
};

/// A value as the table writes it.
pub trait Written {
    fn written(&self) -> String;
}

/// Numbers with commas between them, or `-` for none; great ones are strides below 0.
pub fn list(numbers: &[usize]) -> String {
    if numbers.is_empty() {
        return "-".to_owned();
    }
    numbers.iter().map(|number| ndarray_layout::signed(*number).to_string()).collect::<Vec<_>>().join(",")
}

/// Types, and the text of a value of each.
macro_rules! written {
    ($($type:ty: |$value:ident| $text:expr;)*) => {$(
        impl Written for $type {
            fn written(&self) -> String {
                let $value = self;
                $text
            }
        }
    )*};
}

written! {
    AllocError: |_error| "memory".to_owned();
    LayoutError: |error| match error {
        LayoutError::Shape(error) => format!("{:?}", error.kind()),
        LayoutError::Memory(error) => error.written(),
    };
    usize: |number| number.to_string();
    Vec<usize>: |numbers| list(numbers);
    IxDyn: |dim| list(dim.slice());
    IxDynImpl: |numbers| list(numbers);
    Shape<IxDyn>: |shape| shape.raw_dim().written();
    StrideShape<IxDyn>: |shape| shape.dim.written();
    (IxDyn, Option<Order>): |shape| shape.0.written();
    Strided<IxDyn>: |view| format!("{} {} {}", view.dim().written(), view.strides().written(), view.start());
    ArrayView<'_, usize, IxDyn>: |array| array.strided().written();
    ArrayViewMut<'_, usize, IxDyn>: |array| array.strided().written();
    OwnedArray<usize, IxDyn>: |array| array.strided().written();
    SplitViews<IxDyn>: |parts| format!("{} and {} at {}", parts.first.written(), parts.second.written(), parts.cut);
    ReadySlice<IxDyn>: |ready| ready.moves().written();
    Vec<ArrayViewMut<'_, usize, IxDyn>>: |parts| {
        parts.iter().map(|part| format!("{};", part.written())).collect::<Vec<_>>().join(" ")
    };
}

/// Two parts.
impl<T: Written> Written for (T, T) {
    fn written(&self) -> String {
        format!("{} and {}", self.0.written(), self.1.written())
    }
}

/// What may not be there.
impl<T: Written> Written for Option<T> {
    fn written(&self) -> String {
        self.as_ref().map_or("none".to_owned(), T::written)
    }
}

/// A value or an error.
impl<T: Written, E: Written> Written for Result<T, E> {
    fn written(&self) -> String {
        match self {
            Ok(value) => value.written(),
            Err(error) => error.written(),
        }
    }
}

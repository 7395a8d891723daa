//! Arrays of one shape side by side, as ndarray's `Zip` calls a closure: with an argument for each.

use crate::lent::nd_loops::LentView;
use crate::{ArrayViewMut, Lengths, ShapeError, Zip};

macro_rules! for_each {
    ($($beside:ty, $nested:pat => $($item:ident $name:ident),*;)*) => {$(
        impl<'z, T, D: Lengths, $($item),*> Zip<&'z mut ArrayViewMut<'_, T, D>, $beside> {
            /// Calls a closure at each item of the part and at those of the same index of the arrays beside it, in row-major order, to
            /// change the first in place. Other items are unchanged. ndarray's `for_each`. It hands the items of nested pairs to the
            /// closure one by one: `for_each_nested` is proved, this isn't. Not proved.
            ///
            /// # Errors
            ///
            /// `IncompatibleShape` where another array has another shape; the closure isn't called.
            #[inline]
            pub fn for_each(self, mut f: impl FnMut(&mut T, $(&$item),*)) -> Result<(), ShapeError> {
                self.for_each_nested(|item, $nested| f(item, $($name),*))
            }
        }
    )*};
}

for_each! {
    ((), LentView<'z, A>), ((), a) => A a;
    (((), LentView<'z, A>), LentView<'z, B>), (((), a), b) => A a, B b;
    ((((), LentView<'z, A>), LentView<'z, B>), LentView<'z, C>), ((((), a), b), c) => A a, B b, C c;
    (((((), LentView<'z, A>), LentView<'z, B>), LentView<'z, C>), LentView<'z, E>), (((((), a), b), c), d)
        => A a, B b, C c, E d;
    ((((((), LentView<'z, A>), LentView<'z, B>), LentView<'z, C>), LentView<'z, E>), LentView<'z, F>),
        ((((((), a), b), c), d), e) => A a, B b, C c, E d, F e;
}

//! The types of items, and what loops do with one.

pub trait Item: Clone + PartialEq + 'static {
    fn nth(number: usize) -> Self;

    fn change(&mut self, by: u32);

    fn add(&mut self, other: &Self);

    /// A number that says what the item is.
    fn told(&self) -> u64;

    #[inline]
    fn changed(&self, by: u32) -> Self {
        let mut item = self.clone();
        item.change(by);
        item
    }
}

/// Items: the type, and what each function does.
macro_rules! items {
    ($($T:ty: nth $k:ident $nth:expr; change $a:ident $by:ident $change:expr; add $b:ident $add:expr; told $told:expr;)*) => {$(
        #[rustfmt::skip]
        impl Item for $T {
            #[inline] fn nth($k: usize) -> Self { $nth }
            #[inline] fn change(&mut self, $by: u32) { let $a = self; $change; }
            #[inline] fn add(&mut self, $b: &Self) { let $a = self; $add; }
            #[inline] fn told(&self) -> u64 { let $a = self; $told }
        }
    )*};
}

/// A struct of 24 bytes.
#[derive(Clone, Copy, PartialEq)]
pub struct Star {
    place: [f64; 2],
    class: u32,
    seen: u32,
}

const COLOURS: [&str; 4] = ["red", "green", "blue", "ultramarine"];

items! {
    u8: nth k k as u8; change a by *a = a.wrapping_add(by as u8); add b *a = a.wrapping_add(*b); told u64::from(*a);
    u16: nth k k as u16; change a by *a = a.wrapping_add(by as u16); add b *a = a.wrapping_add(*b); told u64::from(*a);
    u32: nth k k as u32; change a by *a = a.wrapping_add(by); add b *a = a.wrapping_add(*b); told u64::from(*a);
    f32: nth k k as f32; change a by *a += by as f32; add b *a += *b; told u64::from(a.to_bits());
    f64: nth k k as f64; change a by *a += f64::from(by); add b *a += *b; told a.to_bits() >> 32;
    [f32; 3]:
        nth k [k as f32, 1.0, 2.0];
        change a by a.iter_mut().for_each(|part| *part += by as f32);
        add b a.iter_mut().zip(b).for_each(|(part, other)| *part += *other);
        told a.iter().map(|part| u64::from(part.to_bits())).sum();
    Star:
        nth k Star { place: [k as f64, 1.0], class: k as u32, seen: 0 };
        change a by a.seen = a.seen.wrapping_add(by);
        add b a.place.iter_mut().zip(b.place).for_each(|(part, other)| *part += other);
        told u64::from(a.class) + u64::from(a.seen) + (a.place[0].to_bits() >> 32);
    String:
        nth k String::from(COLOURS[k % 4]); change a _by a.make_ascii_uppercase(); add b a.clone_from(b);
        told a.len() as u64 + u64::from(a.as_bytes()[0]);
}

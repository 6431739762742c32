//! Values as bytes.

use crate::Handle;

/// A value that is kept as a fixed number of bytes. Integers, floats, `bool`, `char`, arrays and tuples of such values and handles
/// are some; integers and floats are kept with their low byte first.
///
/// ```
/// use vigbuso::{Handle, Record};
///
/// /// A word's place in a grid, and the next one.
/// struct Slot { row: u8, column: u8, next: Option<Handle<Slot>> }
///
/// impl Record for Slot {
///     const BYTES: usize = <(u8, u8, Option<Handle<Slot>>)>::BYTES;
///
///     fn write(&self, bytes: &mut [u8]) {
///         (self.row, self.column, self.next).write(bytes);
///     }
///
///     fn read(bytes: &[u8]) -> Slot {
///         let (row, column, next) = Record::read(bytes);
///         Slot { row, column, next }
///     }
/// }
/// assert_eq!(Slot::BYTES, 10);
/// ```
pub trait Record {
    /// How many bytes it is kept as: at most [`Class::MAX_BYTES`](crate::Class::MAX_BYTES).
    const BYTES: usize;

    /// Writes it into just so many bytes.
    fn write(&self, bytes: &mut [u8]);

    /// Reads it from just so many bytes, as they were written.
    fn read(bytes: &[u8]) -> Self;
}

macro_rules! numbers {
    ($($number:ty)*) => {$(
        impl Record for $number {
            const BYTES: usize = size_of::<$number>();

            fn write(&self, bytes: &mut [u8]) {
                bytes.copy_from_slice(&self.to_le_bytes());
            }

            fn read(bytes: &[u8]) -> $number {
                let mut number = [0; size_of::<$number>()];
                number.copy_from_slice(bytes);
                <$number>::from_le_bytes(number)
            }
        }
    )*};
}

numbers!(u8 u16 u32 u64 u128 i8 i16 i32 i64 i128 f32 f64);

/// One byte, 0 or 1.
impl Record for bool {
    const BYTES: usize = 1;

    fn write(&self, bytes: &mut [u8]) {
        u8::from(*self).write(bytes);
    }

    fn read(bytes: &[u8]) -> bool {
        u8::read(bytes) != 0
    }
}

/// Its number, in four bytes. Bytes that are no character's read as the replacement character.
impl Record for char {
    const BYTES: usize = 4;

    fn write(&self, bytes: &mut [u8]) {
        u32::from(*self).write(bytes);
    }

    fn read(bytes: &[u8]) -> char {
        char::from_u32(u32::read(bytes)).unwrap_or(char::REPLACEMENT_CHARACTER)
    }
}

/// No bytes.
impl Record for () {
    const BYTES: usize = 0;

    fn write(&self, _: &mut [u8]) {}

    fn read(_: &[u8]) {}
}

/// One value after the other.
impl<T: Record, const N: usize> Record for [T; N] {
    const BYTES: usize = N * T::BYTES;

    fn write(&self, bytes: &mut [u8]) {
        for (place, value) in self.iter().enumerate() {
            value.write(&mut bytes[place * T::BYTES..][..T::BYTES]);
        }
    }

    fn read(bytes: &[u8]) -> [T; N] {
        core::array::from_fn(|place| T::read(&bytes[place * T::BYTES..][..T::BYTES]))
    }
}

/// One value after the other, without a gap.
macro_rules! tuples {
    ($($($part:ident $place:tt)*;)*) => {$(
        impl<$($part: Record),*> Record for ($($part,)*) {
            const BYTES: usize = 0 $(+ $part::BYTES)*;

            fn write(&self, bytes: &mut [u8]) {
                let rest = bytes;
                $(
                    let (part, rest) = rest.split_at_mut($part::BYTES);
                    self.$place.write(part);
                )*
                debug_assert!(rest.is_empty());
            }

            #[allow(unused_assignments)] // nothing is behind the last part
            fn read(bytes: &[u8]) -> Self {
                let mut rest = bytes;
                ($({
                    let (part, behind) = rest.split_at($part::BYTES);
                    rest = behind;
                    $part::read(part)
                },)*)
            }
        }
    )*};
}

tuples! {
    A 0;
    A 0 B 1;
    A 0 B 1 C 2;
    A 0 B 1 C 2 D 3;
    A 0 B 1 C 2 D 3 E 4;
    A 0 B 1 C 2 D 3 E 4 F 5;
}

/// Its number, in eight bytes. Bytes that are no handle's read as one that no region has.
impl<T: ?Sized> Record for Handle<T> {
    const BYTES: usize = 8;

    fn write(&self, bytes: &mut [u8]) {
        self.bits().write(bytes);
    }

    fn read(bytes: &[u8]) -> Handle<T> {
        <Option<Handle<T>>>::read(bytes).unwrap_or(Handle::NOBODYS)
    }
}

/// Its number, in eight bytes, and 0 for none. Bytes that are no handle's read as none.
impl<T: ?Sized> Record for Option<Handle<T>> {
    const BYTES: usize = 8;

    fn write(&self, bytes: &mut [u8]) {
        self.map_or(0, Handle::bits).write(bytes);
    }

    fn read(bytes: &[u8]) -> Option<Handle<T>> {
        Handle::from_bits(u64::read(bytes))
    }
}

#[cfg(test)]
mod tests {
    use super::*;
    use std::fmt::Debug;
    use std::vec;

    /// A value is read as it was written, and takes just its bytes.
    fn keeps<T: Record + PartialEq + Debug>(value: &T, written: &[u8]) {
        let mut bytes = vec![0xee; T::BYTES];
        value.write(&mut bytes);
        assert_eq!((&bytes[..], T::BYTES), (written, written.len()));
        assert_eq!(T::read(&bytes), *value);
    }

    #[test]
    fn values_as_bytes() {
        keeps(&(-2_i16), &[0xfe, 0xff]);
        keeps(&i128::MIN, &[[0; 15].as_slice(), &[0x80]].concat());
        keeps(&1.5_f32, &[0, 0, 0xc0, 0x3f]);
        keeps(&f64::NEG_INFINITY, &[0, 0, 0, 0, 0, 0, 0xf0, 0xff]);
        keeps(&[true, false], &[1, 0]);
        keeps(&'é', &[0xe9, 0, 0, 0]);
        keeps(&(), &[]);
        keeps(&[[1_u16, 2], [3, 4]], &[1, 0, 2, 0, 3, 0, 4, 0]);
        keeps(&(1_u8, -1_i8, (true, 5_u16)), &[1, 0xff, 1, 5, 0]);
        keeps(&(1_u8, 2_u8, 3_u8, 4_u8, 5_u8, [6_u8; 2]), &[1, 2, 3, 4, 5, 6, 6]);
    }

    #[test]
    fn handles_as_bytes() {
        let handle = Handle::<u32>::new(258, 3).expect("an odd use");
        keeps(&handle, &[3, 0, 0, 0, 2, 1, 0, 0]);
        keeps(&Some(handle), &[3, 0, 0, 0, 2, 1, 0, 0]);
        keeps(&None::<Handle<str>>, &[0; 8]);
        assert_eq!(<Option<Handle>>::read(&[2; 8]), None, "an even use");
        assert_eq!(Handle::<u8>::read(&[0; 8]), Handle::NOBODYS);
        assert!(bool::read(&[7]));
        assert_eq!(char::read(&[0xff; 4]), char::REPLACEMENT_CHARACTER);
    }
}

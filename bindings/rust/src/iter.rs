//! Iterators over what has parts by their numbers.

use std::fmt;
use std::iter::FusedIterator;
use std::ops::Range;

/// An iterator over the parts of `C` by their numbers: rows, cells, columns, values or sets.
///
/// ```
/// # fn main() -> Result<(), mysql_session::Error> {
/// let mut receiver = mysql_session::Receiver::new(b"SELECT ?, ?", 1, 1 << 24)?;
/// receiver.feed(b"\x0c\0\0\0\x03SELECT 7, 8")?;
/// for set in &receiver {
///     let mut contents = set.into_iter();
///     assert_eq!(contents.len(), 2);
///     assert_eq!(contents.next_back(), set.content(1));
///     assert_eq!(format!("{contents:?}"), "[Int(7)]");
/// }
/// # Ok(())
/// # }
/// ```
pub struct Iter<C, T> {
    of: C,
    part: fn(&C, usize) -> T,
    left: Range<usize>,
}

impl<C, T> Iter<C, T> {
    /// An iterator over so many parts, each of which the call shows.
    pub(crate) fn new(of: C, count: usize, part: fn(&C, usize) -> T) -> Iter<C, T> {
        let left = 0..count;
        Iter { of, part, left }
    }
}

impl<C, T> Iterator for Iter<C, T> {
    type Item = T;

    fn next(&mut self) -> Option<T> {
        let number = self.left.next()?;
        Some((self.part)(&self.of, number))
    }

    fn size_hint(&self) -> (usize, Option<usize>) {
        self.left.size_hint()
    }

    fn nth(&mut self, count: usize) -> Option<T> {
        let number = self.left.nth(count)?;
        Some((self.part)(&self.of, number))
    }
}

impl<C, T> DoubleEndedIterator for Iter<C, T> {
    fn next_back(&mut self) -> Option<T> {
        let number = self.left.next_back()?;
        Some((self.part)(&self.of, number))
    }
}

impl<C, T> ExactSizeIterator for Iter<C, T> {}

impl<C, T> FusedIterator for Iter<C, T> {}

impl<C: Clone, T> Clone for Iter<C, T> {
    fn clone(&self) -> Self {
        Iter {
            of: self.of.clone(),
            part: self.part,
            left: self.left.clone(),
        }
    }
}

/// The parts that are left.
impl<C: Clone, T: fmt::Debug> fmt::Debug for Iter<C, T> {
    fn fmt(&self, formatter: &mut fmt::Formatter<'_>) -> fmt::Result {
        formatter.debug_list().entries(self.clone()).finish()
    }
}

/// Has a type that shows its parts by `iter` be gone over by `for`, itself or by a reference.
macro_rules! goes_over {
    ($of:ident, $part:ty) => {
        impl<'a> IntoIterator for $of<'a> {
            type Item = $part;
            type IntoIter = crate::iter::Iter<$of<'a>, $part>;

            fn into_iter(self) -> Self::IntoIter {
                self.iter()
            }
        }

        impl<'a> IntoIterator for &$of<'a> {
            type Item = $part;
            type IntoIter = crate::iter::Iter<$of<'a>, $part>;

            fn into_iter(self) -> Self::IntoIter {
                self.iter()
            }
        }
    };
}

pub(crate) use goes_over;

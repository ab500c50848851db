//! R\*-trees of boxes of whole numbers, windows that are told what edits change in them, and scripts over tables of boxes, by
//! the library of Juicedelta.
//!
//! A tree, live windows or a shell are freed when they are dropped. They may go to another thread (`Send`), and what takes
//! `&self` only reads, so that several threads may search one tree at once (`Sync`). A call that is refused answers an [`Error`] and
//! changes nothing, unless it says otherwise. A thread keeps the memory that its searches write to, 1 MiB at most; a
//! search that needs more than is kept runs twice.
#![warn(missing_docs)]

mod calls;
mod found;
mod grid;
mod live;
mod many;
mod rows;
mod shell;
#[cfg(test)]
mod tests;
mod tree;

use std::fmt;

pub use grid::{Grid, OffGrid};
pub use live::{Change, Kind, Live};
pub use many::Many;
pub use rows::{Iter, RowsError};
pub use shell::Shell;
pub use tree::{Axes, Supported, Tree};

/// A box of D axes, with both ends; `min` is at most `max` on each.
///
/// ```
/// use juicedelta::Rect;
/// assert_eq!(Rect::new([0, 0], [20, 8]), Rect { min: [0, 0], max: [20, 8] });
/// ```
#[repr(C)]
#[derive(Clone, Copy, Debug, PartialEq, Eq, Hash)]
pub struct Rect<const D: usize> {
    /// The least number on each axis.
    pub min: [i32; D],
    /// The greatest number on each axis.
    pub max: [i32; D],
}

impl<const D: usize> Rect<D> {
    /// The box with these ends.
    pub const fn new(min: [i32; D], max: [i32; D]) -> Self {
        Self { min, max }
    }
}

/// A row of a tree.
#[derive(Clone, Copy, Debug, PartialEq, Eq, Hash)]
pub struct Row<const D: usize> {
    /// Which row of the tree it is.
    pub id: i64,
    /// Its box.
    pub rect: Rect<D>,
}

/// Which rows a window finds. A window whose `min` is above its `max` on some axis has no point: nothing touches it or
/// lies within it, and each row holds it.
#[repr(u32)]
#[derive(Clone, Copy, Debug, Default, PartialEq, Eq, Hash)]
pub enum Relation {
    /// The row's box and the window have a point in common.
    #[default]
    Touches = 0,
    /// Each point of the row's box lies in the window.
    Within = 1,
    /// Each point of the window lies in the row's box.
    Holds = 2,
}

/// Why a call was refused, numbered as in `juicedelta.h`. Its text is the library's.
///
/// ```
/// use juicedelta::{Error, Tree};
/// let error = Tree::<2>::new()?.remove(7).unwrap_err();
/// assert_eq!((error, error.to_string().as_str()), (Error::IdMissing, "no row or window has that id"));
/// # Ok::<(), Error>(())
/// ```
#[repr(i32)]
#[derive(Clone, Copy, Debug, PartialEq, Eq, Hash)]
#[non_exhaustive]
pub enum Error {
    /// Nothing is held.
    Closed = 1,
    /// An object of another kind is held.
    OtherKind = 2,
    /// An object is held already.
    AlreadyOpen = 3,
    /// The capacity is not from 5 to 51.
    BadCapacity = 4,
    /// On some axis min is above max.
    BadBox = 5,
    /// The id is taken.
    IdTaken = 6,
    /// No row or window has that id.
    IdMissing = 7,
    /// The result is longer than the buffer.
    BufferTooSmall = 8,
    /// No memory is left.
    OutOfMemory = 9,
    /// The tree has as many rows as a tree may have.
    TreeFull = 10,
    /// The script has ended.
    Ended = 11,
    /// The script is longer than 2^63 bytes.
    TooLong = 12,
    /// The text is not the dump of a sound tree.
    BadDump = 13,
    /// A box, a point or a list has a wrong length.
    BadLength = 14,
    /// A tree has one, two or three axes.
    BadAxes = 15,
    /// A relation is touches, within or holds.
    BadRelation = 16,
    /// The tree has no rows.
    Empty = 17,
    /// The bytes are not those of a sound tree.
    BadBytes = 18,
}

impl Error {
    /// All of them, by their numbers.
    const ALL: [Self; 18] = [
        Self::Closed,
        Self::OtherKind,
        Self::AlreadyOpen,
        Self::BadCapacity,
        Self::BadBox,
        Self::IdTaken,
        Self::IdMissing,
        Self::BufferTooSmall,
        Self::OutOfMemory,
        Self::TreeFull,
        Self::Ended,
        Self::TooLong,
        Self::BadDump,
        Self::BadLength,
        Self::BadAxes,
        Self::BadRelation,
        Self::Empty,
        Self::BadBytes,
    ];
}

impl fmt::Display for Error {
    fn fmt(&self, f: &mut fmt::Formatter<'_>) -> fmt::Result {
        let (mut text, mut length) = ([0; 128], 0);
        // SAFETY: there is room for as many bytes as the call is told.
        unsafe { calls::juicedelta_words(*self as i32, text.as_mut_ptr(), text.len(), &mut length) };
        let words = text.get(..length as usize).unwrap_or_default();
        f.write_str(std::str::from_utf8(words).unwrap_or_default())
    }
}

impl std::error::Error for Error {}

/// What a call answered.
fn check(code: i32) -> Result<(), Error> {
    (code as usize).checked_sub(1).map_or(Ok(()), |place| Err(Error::ALL[place]))
}

/// The library's version: 1,002,003 stands for 1.2.3.
///
/// ```
/// assert!(juicedelta::version() >= 1_000);
/// ```
pub fn version() -> u32 {
    // SAFETY: it takes nothing.
    unsafe { calls::juicedelta_version() }
}

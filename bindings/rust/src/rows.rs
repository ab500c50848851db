//! Lists of rows, given and read.

use std::{fmt, vec};

use crate::calls;
use crate::found::{room_for, Found};
use crate::{check, Error, Rect, Row, Tree};

/// Why many rows were refused.
///
/// ```
/// use juicedelta::{Error, Rect, Row, Tree};
/// let row = Row { id: 7, rect: Rect::new([0], [5]) };
/// let refused = Tree::from_rows(&[row, row]).unwrap_err();
/// assert_eq!((refused.error, refused.at), (Error::IdTaken, Some(1)));
/// ```
#[derive(Clone, Copy, Debug, PartialEq, Eq, Hash)]
pub struct RowsError {
    /// What the call was refused with.
    pub error: Error,
    /// The place of the first row that is refused so, if it is one of them.
    pub at: Option<usize>,
}

impl RowsError {
    /// Of what a call answered that writes such a place.
    pub(crate) fn check(code: i32, at: u64) -> Result<(), Self> {
        check(code).map_err(|error| match error {
            Error::BadBox | Error::IdTaken => Self { error, at: Some(at as usize) },
            _ => error.into(),
        })
    }
}

impl fmt::Display for RowsError {
    fn fmt(&self, f: &mut fmt::Formatter<'_>) -> fmt::Result {
        self.error.fmt(f)?;
        self.at.map_or(Ok(()), |at| write!(f, ", at place {at}"))
    }
}

impl std::error::Error for RowsError {
    fn source(&self) -> Option<&(dyn std::error::Error + 'static)> {
        Some(&self.error)
    }
}

impl From<Error> for RowsError {
    fn from(error: Error) -> Self {
        Self { error, at: None }
    }
}

impl From<RowsError> for Error {
    fn from(refused: RowsError) -> Self {
        refused.error
    }
}

/// Rows as the calls take them.
pub(crate) struct Lists<const D: usize> {
    pub ids: Vec<i64>,
    pub rects: Vec<Rect<D>>,
}

impl<const D: usize> Lists<D> {
    pub fn of(rows: &[Row<D>]) -> Result<Self, Error> {
        let mut lists = Self { ids: room_for(rows.len())?, rects: room_for(rows.len())? };
        lists.ids.extend(rows.iter().map(|row| row.id));
        lists.rects.extend(rows.iter().map(|row| row.rect));
        Ok(lists)
    }
}

/// The rows of a tree, in an order of its own, read a few thousand at a time: see [`Tree::iter`].
#[derive(Debug)]
pub struct Iter<'a, const D: usize> {
    tree: &'a Tree<D>,
    part: vec::IntoIter<Row<D>>,
    place: usize,
}

impl<'a, const D: usize> Iter<'a, D> {
    pub(crate) fn of(tree: &'a Tree<D>) -> Self {
        Self { tree, part: Vec::new().into_iter(), place: 0 }
    }
}

impl<const D: usize> Iter<'_, D> {
    /// How many rows aren't read yet.
    fn left(&self) -> usize {
        self.tree.len() - self.place
    }
}

impl<const D: usize> Iterator for Iter<'_, D> {
    type Item = Row<D>;

    /// # Panics
    ///
    /// If there is no memory for the next part.
    fn next(&mut self) -> Option<Row<D>> {
        if self.part.len() == 0 {
            let place = self.place as u64;
            // SAFETY: there is room for that many ids, and for as many boxes.
            let read = |ids, room, rects, total: &mut _| unsafe {
                let code = calls::juicedelta_tree_rows(&self.tree.0, place, ids, room, rects, 2 * D * room, total);
                *total = (room as u64).min(total.saturating_sub(place));
                code
            };
            let part = Found::first(self.left().min(4096), 1 + D, read).and_then(Found::rows);
            let part: Vec<Row<D>> = part.expect("an open tree tells its rows");
            self.place += part.len();
            self.part = part.into_iter();
        }
        self.part.next()
    }

    fn size_hint(&self) -> (usize, Option<usize>) {
        let left = self.part.len() + self.left();
        (left, Some(left))
    }
}

impl<const D: usize> ExactSizeIterator for Iter<'_, D> {}

//! Trees.

use std::fmt;
use std::mem::MaybeUninit;

use crate::calls::{self, Handle};
use crate::found::{room_for, Found};
use crate::rows::Lists;
use crate::{check, Error, Iter, Many, Rect, Relation, Row, RowsError};

/// A number of axes.
#[derive(Clone, Copy, Debug)]
pub struct Axes<const D: usize>;

/// That a tree may have that many axes: one, two or three.
///
/// ```compile_fail
/// let _ = juicedelta::Tree::<4>::new();
/// ```
pub trait Supported: sealed::Sealed {}

mod sealed {
    pub trait Sealed {}
    impl Sealed for super::Axes<1> {}
    impl Sealed for super::Axes<2> {}
    impl Sealed for super::Axes<3> {}
}

impl<const D: usize> Supported for Axes<D> where Self: sealed::Sealed {}

/// A map from ids to boxes of D axes, 1 to 3, that is searched by boxes.
///
/// `collect`, `extend` and `default` panic where the method that they stand for is refused.
///
/// ```
/// use juicedelta::{Rect, Relation, Tree};
/// let mut shops = Tree::<2>::new()?;
/// shops.insert(1, &Rect::new([10, 5], [14, 9]))?;
/// shops.insert(2, &Rect::new([30, 0], [42, 6]))?;
/// assert_eq!(shops.search(&Rect::new([0, 0], [20, 8]))?, [1]);
/// assert_eq!(shops.search_where(Relation::Within, &Rect::new([30, 0], [50, 50]))?, [2]);
/// assert_eq!(shops.nearest(&[29, 3], 1)?[0].id, 2);
/// # Ok::<(), juicedelta::Error>(())
/// ```
pub struct Tree<const D: usize>(pub(crate) Handle);

impl<const D: usize> Tree<D>
where
    Axes<D>: Supported,
{
    /// With nodes of at most 51 cells, as SQLite's.
    ///
    /// ```
    /// # use juicedelta::Tree;
    /// let tree = Tree::<3>::new()?;
    /// assert!(tree.is_empty());
    /// # Ok::<(), juicedelta::Error>(())
    /// ```
    pub fn new() -> Result<Self, Error> {
        Self::with_capacity(51)
    }

    /// With nodes of at most `capacity` cells, from 5 to 51 (`BadCapacity`).
    ///
    /// ```
    /// # use juicedelta::{Error, Tree};
    /// assert_eq!(Tree::<2>::with_capacity(4).unwrap_err(), Error::BadCapacity);
    /// ```
    pub fn with_capacity(capacity: u32) -> Result<Self, Error> {
        // SAFETY: the handle holds nothing yet.
        let open =
            |new: &mut _, first, second| unsafe { calls::juicedelta_tree_open(new, D as u32, capacity, first, second) };
        Handle::opened(open).map(Self)
    }

    /// With these rows, packed all at once: much sooner made and searched than by many insertions (`BadBox`, `IdTaken`,
    /// with the place of the row; `TreeFull`).
    ///
    /// ```
    /// # use juicedelta::{Rect, Row, Tree};
    /// let rows = [1, 2].map(|id| Row { id, rect: Rect::new([0], [5]) });
    /// assert_eq!(Tree::from_rows(&rows)?.count(&Rect::new([3], [9]))?, 2);
    /// # Ok::<(), juicedelta::Error>(())
    /// ```
    pub fn from_rows(rows: &[Row<D>]) -> Result<Self, RowsError> {
        Self::from_rows_with_capacity(rows, 51)
    }

    /// As `from_rows`, with nodes of at most `capacity` cells (`BadCapacity`).
    ///
    /// ```
    /// # use juicedelta::{Rect, Row, Tree};
    /// let tree = Tree::from_rows_with_capacity(&[Row { id: 1, rect: Rect::new([0], [5]) }], 5)?;
    /// assert!(tree.dump()?.starts_with(b"rtree 1 5 "));
    /// # Ok::<(), juicedelta::Error>(())
    /// ```
    pub fn from_rows_with_capacity(rows: &[Row<D>], capacity: u32) -> Result<Self, RowsError> {
        let (lists, mut at) = (Lists::of(rows)?, 0);
        let (ids, rects, length) = (lists.ids.as_ptr(), lists.rects.as_ptr().cast(), Self::NUMBERS * rows.len());
        let mut answer = 0;
        // SAFETY: the lists have these lengths.
        let open = |new: &mut _, first, second| unsafe {
            let axes = D as u32;
            let code = calls::juicedelta_tree_open_rows(
                new,
                axes,
                capacity,
                ids,
                rows.len(),
                rects,
                length,
                first,
                second,
                &mut at,
            );
            answer = code;
            code
        };
        let opened = Handle::opened(open);
        RowsError::check(answer, at)?;
        Ok(opened.map(Self)?)
    }

    /// The tree of a dump, which `dump` or a script's `.nodes` wrote; if its nodes stand in another order, its rows, packed
    /// (`BadDump`, `TreeFull`).
    ///
    /// ```
    /// # use juicedelta::{Rect, Row, Tree};
    /// let tree = Tree::from_rows(&[Row { id: 1, rect: Rect::new([0], [5]) }])?;
    /// assert_eq!(Tree::<1>::from_dump(&tree.dump()?)?.get(1)?, Some(Rect::new([0], [5])));
    /// # Ok::<(), juicedelta::Error>(())
    /// ```
    pub fn from_dump(text: &[u8]) -> Result<Self, Error> {
        // SAFETY: the text has that length.
        let open = |new: &mut _, first, second| unsafe {
            calls::juicedelta_tree_open_dump(new, D as u32, text.as_ptr(), text.len(), first, second)
        };
        Handle::opened(open).map(Self)
    }

    /// The tree that `to_bytes` wrote (`BadBytes`, `TreeFull`).
    ///
    /// ```
    /// # use juicedelta::{Error, Tree};
    /// assert_eq!(Tree::<1>::from_bytes(b"no tree").unwrap_err(), Error::BadBytes);
    /// ```
    pub fn from_bytes(bytes: &[u8]) -> Result<Self, Error> {
        // SAFETY: that many bytes are there.
        let open = |new: &mut _, first, second| unsafe {
            calls::juicedelta_tree_open_bytes(new, D as u32, bytes.as_ptr(), bytes.len(), first, second)
        };
        Handle::opened(open).map(Self)
    }
}

impl<const D: usize> Tree<D> {
    /// The numbers of a box.
    const NUMBERS: usize = 2 * D;
    /// The words of an id and a box.
    const WORDS: usize = 1 + D;

    /// Inserts a row (`BadBox`, `IdTaken`, `TreeFull`).
    ///
    /// ```
    /// # use juicedelta::{Error, Rect, Tree};
    /// let mut tree = Tree::<1>::new()?;
    /// tree.insert(7, &Rect::new([0], [5]))?;
    /// assert_eq!(tree.insert(7, &Rect::new([0], [5])), Err(Error::IdTaken));
    /// # Ok::<(), juicedelta::Error>(())
    /// ```
    pub fn insert(&mut self, id: i64, rect: &Rect<D>) -> Result<(), Error> {
        // SAFETY: a box has that many numbers, here and below.
        check(unsafe { calls::juicedelta_tree_insert(&mut self.0, id, numbers(rect), Self::NUMBERS) })
    }

    /// Inserts all of these rows, or none (`BadBox`, `IdTaken`, with the place of the row; `TreeFull`).
    ///
    /// ```
    /// # use juicedelta::{Rect, Row, Tree};
    /// let mut tree = Tree::<1>::new()?;
    /// let rows = [1, 2, 1].map(|id| Row { id, rect: Rect::new([0], [5]) });
    /// assert_eq!((tree.insert_rows(&rows).unwrap_err().at, tree.len()), (Some(2), 0));
    /// tree.insert_rows(&rows[..2])?;
    /// # Ok::<(), juicedelta::Error>(())
    /// ```
    pub fn insert_rows(&mut self, rows: &[Row<D>]) -> Result<(), RowsError> {
        let (lists, mut at) = (Lists::of(rows)?, 0);
        let (ids, rects, length) = (lists.ids.as_ptr(), lists.rects.as_ptr().cast(), Self::NUMBERS * rows.len());
        // SAFETY: the lists have these lengths.
        let code = unsafe { calls::juicedelta_tree_insert_rows(&mut self.0, ids, rows.len(), rects, length, &mut at) };
        RowsError::check(code, at)
    }

    /// Gives the row with that id this box (`BadBox`, `IdMissing`).
    ///
    /// ```
    /// # use juicedelta::{Rect, Row, Tree};
    /// let mut tree = Tree::from_rows(&[Row { id: 7, rect: Rect::new([0], [5]) }])?;
    /// tree.update(7, &Rect::new([3], [9]))?;
    /// assert_eq!(tree.get(7)?, Some(Rect::new([3], [9])));
    /// # Ok::<(), juicedelta::Error>(())
    /// ```
    pub fn update(&mut self, id: i64, rect: &Rect<D>) -> Result<(), Error> {
        check(unsafe { calls::juicedelta_tree_move(&mut self.0, id, numbers(rect), Self::NUMBERS) })
    }

    /// Removes a row (`IdMissing`). It needs no memory.
    ///
    /// ```
    /// # use juicedelta::{Error, Rect, Row, Tree};
    /// let mut tree = Tree::from_rows(&[Row { id: 7, rect: Rect::new([0], [5]) }])?;
    /// assert_eq!((tree.remove(7), tree.remove(7)), (Ok(()), Err(Error::IdMissing)));
    /// # Ok::<(), juicedelta::Error>(())
    /// ```
    pub fn remove(&mut self, id: i64) -> Result<(), Error> {
        check(unsafe { calls::juicedelta_tree_remove(&mut self.0, id) })
    }

    /// Takes all rows out, and gives their memory back.
    ///
    /// ```
    /// # use juicedelta::{Rect, Row, Tree};
    /// let mut tree = Tree::from_rows(&[Row { id: 7, rect: Rect::new([0], [5]) }])?;
    /// tree.clear()?;
    /// assert!(tree.is_empty());
    /// # Ok::<(), juicedelta::Error>(())
    /// ```
    pub fn clear(&mut self) -> Result<(), Error> {
        check(unsafe { calls::juicedelta_tree_clear(&mut self.0) })
    }

    /// The box of the row with that id.
    ///
    /// ```
    /// # use juicedelta::{Rect, Row, Tree};
    /// let tree = Tree::from_rows(&[Row { id: 7, rect: Rect::new([0], [5]) }])?;
    /// assert_eq!((tree.get(7)?, tree.get(8)?), (Some(Rect::new([0], [5])), None));
    /// # Ok::<(), juicedelta::Error>(())
    /// ```
    pub fn get(&self, id: i64) -> Result<Option<Rect<D>>, Error> {
        written(Error::IdMissing, |rect| unsafe { calls::juicedelta_tree_get(&self.0, id, rect, Self::NUMBERS) })
    }

    /// The least box around all rows, if there are any.
    ///
    /// ```
    /// # use juicedelta::{Rect, Row, Tree};
    /// let rows = [1, 2].map(|id| Row { id, rect: Rect::new([10 * id as i32], [15 * id as i32]) });
    /// assert_eq!((Tree::from_rows(&rows)?.bounds()?, Tree::<1>::new()?.bounds()?), (Some(Rect::new([10], [30])), None));
    /// # Ok::<(), juicedelta::Error>(())
    /// ```
    pub fn bounds(&self) -> Result<Option<Rect<D>>, Error> {
        written(Error::Empty, |rect| unsafe { calls::juicedelta_tree_bounds(&self.0, rect, Self::NUMBERS) })
    }

    /// How many rows there are.
    ///
    /// ```
    /// # use juicedelta::{Rect, Row, Tree};
    /// let tree = Tree::from_rows(&[Row { id: 7, rect: Rect::new([0], [5]) }])?;
    /// assert_eq!(tree.len(), 1);
    /// # Ok::<(), juicedelta::Error>(())
    /// ```
    pub fn len(&self) -> usize {
        // A tree that is open tells it.
        calls::number(|rows| unsafe { calls::juicedelta_tree_len(&self.0, rows) }).unwrap_or(0) as usize
    }

    /// Whether there are no rows.
    ///
    /// ```
    /// # use juicedelta::Tree;
    /// assert!(Tree::<2>::new()?.is_empty());
    /// # Ok::<(), juicedelta::Error>(())
    /// ```
    pub fn is_empty(&self) -> bool {
        self.len() == 0
    }

    /// All rows, in an order of the tree's own. They are read a few thousand at a time.
    ///
    /// ```
    /// # use juicedelta::{Rect, Row, Tree};
    /// let rows = [7, 8].map(|id| Row { id, rect: Rect::new([0], [5]) });
    /// let mut ids: Vec<i64> = Tree::from_rows(&rows)?.iter().map(|row| row.id).collect();
    /// ids.sort();
    /// assert_eq!(ids, [7, 8]);
    /// # Ok::<(), juicedelta::Error>(())
    /// ```
    pub fn iter(&self) -> Iter<'_, D> {
        Iter::of(self)
    }

    /// How many rows have a point in common with the box.
    ///
    /// ```
    /// # use juicedelta::{Rect, Row, Tree};
    /// let tree = Tree::from_rows(&[Row { id: 7, rect: Rect::new([0], [5]) }])?;
    /// assert_eq!((tree.count(&Rect::new([5], [9]))?, tree.count(&Rect::new([6], [9]))?), (1, 0));
    /// # Ok::<(), juicedelta::Error>(())
    /// ```
    pub fn count(&self, rect: &Rect<D>) -> Result<u64, Error> {
        self.count_where(Relation::Touches, rect)
    }

    /// How many rows have that relation to the window.
    ///
    /// ```
    /// # use juicedelta::{Rect, Relation, Row, Tree};
    /// let tree = Tree::from_rows(&[Row { id: 7, rect: Rect::new([0], [5]) }])?;
    /// assert_eq!(tree.count_where(Relation::Holds, &Rect::new([2], [3]))?, 1);
    /// # Ok::<(), juicedelta::Error>(())
    /// ```
    pub fn count_where(&self, relation: Relation, window: &Rect<D>) -> Result<u64, Error> {
        calls::number(|total| unsafe {
            calls::juicedelta_tree_count(&self.0, relation as u32, numbers(window), Self::NUMBERS, total)
        })
    }

    /// As `count_where`, of each window of a list.
    ///
    /// ```
    /// # use juicedelta::{Rect, Relation, Row, Tree};
    /// let tree = Tree::from_rows(&[Row { id: 7, rect: Rect::new([0], [5]) }])?;
    /// let windows = [Rect::new([5], [9]), Rect::new([6], [9])];
    /// assert_eq!(tree.count_many(Relation::Touches, &windows)?, [1, 0]);
    /// # Ok::<(), juicedelta::Error>(())
    /// ```
    pub fn count_many(&self, relation: Relation, windows: &[Rect<D>]) -> Result<Vec<u64>, Error> {
        let (mut counts, relation) = (room_for(windows.len())?, relation as u32);
        let (front, length) = (windows.as_ptr().cast(), Self::NUMBERS * windows.len());
        // SAFETY: the windows have that many numbers; there is room for a count of each, and the call writes all of them.
        unsafe {
            let (to, room) = (counts.as_mut_ptr(), windows.len());
            check(calls::juicedelta_tree_count_many(&self.0, relation, front, length, to, room))?;
            counts.set_len(windows.len());
        }
        Ok(counts)
    }

    /// The ids of the rows that have a point in common with the box, in no stated order.
    ///
    /// ```
    /// # use juicedelta::{Rect, Row, Tree};
    /// let tree = Tree::from_rows(&[Row { id: 7, rect: Rect::new([0], [5]) }])?;
    /// assert_eq!(tree.search(&Rect::new([5], [9]))?, [7]);
    /// # Ok::<(), juicedelta::Error>(())
    /// ```
    pub fn search(&self, rect: &Rect<D>) -> Result<Vec<i64>, Error> {
        self.search_where(Relation::Touches, rect)
    }

    /// The ids of the rows that have that relation to the window, in no stated order.
    ///
    /// ```
    /// # use juicedelta::{Rect, Relation, Row, Tree};
    /// let tree = Tree::from_rows(&[Row { id: 7, rect: Rect::new([0], [5]) }])?;
    /// assert_eq!(tree.search_where(Relation::Within, &Rect::new([-9], [9]))?, [7]);
    /// # Ok::<(), juicedelta::Error>(())
    /// ```
    pub fn search_where(&self, relation: Relation, window: &Rect<D>) -> Result<Vec<i64>, Error> {
        // SAFETY: there is room for that many ids.
        let search = |ids, room, _, total: &mut _| unsafe {
            calls::juicedelta_tree_search(&self.0, relation as u32, numbers(window), Self::NUMBERS, ids, room, total)
        };
        Found::by(1, search)?.ids()
    }

    /// As `search_where`, of each window of a list.
    ///
    /// ```
    /// # use juicedelta::{Rect, Relation, Row, Tree};
    /// let tree = Tree::from_rows(&[Row { id: 7, rect: Rect::new([0], [5]) }])?;
    /// let many = tree.search_many(Relation::Touches, &[Rect::new([5], [9]), Rect::new([6], [9])])?;
    /// assert_eq!((&many[0], &many[1]), (&[7][..], &[][..]));
    /// # Ok::<(), juicedelta::Error>(())
    /// ```
    pub fn search_many(&self, relation: Relation, windows: &[Rect<D>]) -> Result<Many, Error> {
        let (places, relation) = (windows.len(), relation as u32);
        let (front, length) = (windows.as_ptr().cast(), Self::NUMBERS * places);
        // SAFETY: the windows have that many numbers; there is room for a start of each, and for that many ids.
        Many::by(places, 16 * places, |starts, ids, room, total| unsafe {
            calls::juicedelta_tree_search_many(&self.0, relation, front, length, starts, places, ids, room, total)
        })
    }

    /// As `search`, with their boxes.
    ///
    /// ```
    /// # use juicedelta::{Rect, Row, Tree};
    /// let tree = Tree::from_rows(&[Row { id: 7, rect: Rect::new([0], [5]) }])?;
    /// assert_eq!(tree.search_rows(&Rect::new([5], [9]))?, [Row { id: 7, rect: Rect::new([0], [5]) }]);
    /// # Ok::<(), juicedelta::Error>(())
    /// ```
    pub fn search_rows(&self, rect: &Rect<D>) -> Result<Vec<Row<D>>, Error> {
        self.search_rows_where(Relation::Touches, rect)
    }

    /// As `search_where`, with their boxes.
    ///
    /// ```
    /// # use juicedelta::{Rect, Relation, Row, Tree};
    /// let tree = Tree::from_rows(&[Row { id: 7, rect: Rect::new([0], [5]) }])?;
    /// assert_eq!(tree.search_rows_where(Relation::Within, &Rect::new([1], [9]))?, []);
    /// # Ok::<(), juicedelta::Error>(())
    /// ```
    pub fn search_rows_where(&self, relation: Relation, window: &Rect<D>) -> Result<Vec<Row<D>>, Error> {
        let (relation, at, length) = (relation as u32, numbers(window), Self::NUMBERS);
        // SAFETY: there is room for that many ids, and for as many boxes.
        let search = |ids, room, rects, total: &mut _| unsafe {
            calls::juicedelta_tree_search_rows(&self.0, relation, at, length, ids, room, rects, length * room, total)
        };
        Found::by(Self::WORDS, search)?.rows()
    }

    /// The `most` rows nearest to the point, the nearest first, of equal ones the lower id first.
    ///
    /// ```
    /// # use juicedelta::{Rect, Row, Tree};
    /// let rows = [1, 2, 3].map(|id| Row { id, rect: Rect::new([10 * id as i32], [10 * id as i32]) });
    /// let near = Tree::from_rows(&rows)?.nearest(&[22], 2)?;
    /// assert_eq!((near[0].id, near[1].id), (2, 3));
    /// # Ok::<(), juicedelta::Error>(())
    /// ```
    pub fn nearest(&self, point: &[i32; D], most: usize) -> Result<Vec<Row<D>>, Error> {
        // SAFETY: as of `search_rows_where`; a point has D numbers.
        let nearest = |ids, room, rects, total: &mut _| unsafe {
            calls::juicedelta_tree_nearest(&self.0, point.as_ptr(), D, ids, room, rects, Self::NUMBERS * room, total)
        };
        Found::first(most.min(self.len()), Self::WORDS, nearest)?.rows()
    }

    /// The `most` rows nearest to the box (`BadBox`).
    ///
    /// ```
    /// # use juicedelta::{Rect, Row, Tree};
    /// let rows = [1, 2, 3].map(|id| Row { id, rect: Rect::new([10 * id as i32], [10 * id as i32]) });
    /// assert_eq!(Tree::from_rows(&rows)?.nearest_to(&Rect::new([11], [19]), 1)?[0].id, 1);
    /// # Ok::<(), juicedelta::Error>(())
    /// ```
    pub fn nearest_to(&self, rect: &Rect<D>, most: usize) -> Result<Vec<Row<D>>, Error> {
        let (at, length) = (numbers(rect), Self::NUMBERS);
        // SAFETY: as of `search_rows_where`.
        let nearest = |ids, room, rects, total: &mut _| unsafe {
            calls::juicedelta_tree_nearest_to(&self.0, at, length, ids, room, rects, length * room, total)
        };
        Found::first(most.min(self.len()), Self::WORDS, nearest)?.rows()
    }

    /// The ids of the `most` rows nearest to each point of a list.
    ///
    /// ```
    /// # use juicedelta::{Rect, Row, Tree};
    /// let rows = [1, 2, 3].map(|id| Row { id, rect: Rect::new([10 * id as i32], [10 * id as i32]) });
    /// let near = Tree::from_rows(&rows)?.nearest_many(&[[22], [0]], 1)?;
    /// assert_eq!((&near[0], &near[1]), (&[2][..], &[1][..]));
    /// # Ok::<(), juicedelta::Error>(())
    /// ```
    pub fn nearest_many(&self, points: &[[i32; D]], most: usize) -> Result<Many, Error> {
        let (places, each) = (points.len(), most.min(self.len()));
        let (front, length, k) = (points.as_ptr().cast(), D * places, each as u64);
        // SAFETY: the points have that many numbers; there is room for a start of each, and for that many ids.
        Many::by(places, each * places, |starts, ids, room, total| unsafe {
            calls::juicedelta_tree_nearest_many(&self.0, front, length, k, starts, places, ids, room, total)
        })
    }

    /// As `nearest`, all rows that are at most so far from the point.
    ///
    /// ```
    /// # use juicedelta::{Rect, Row, Tree};
    /// let rows = [1, 2, 3].map(|id| Row { id, rect: Rect::new([10 * id as i32], [10 * id as i32]) });
    /// assert_eq!(Tree::from_rows(&rows)?.within(&[19], 10)?.len(), 2);
    /// # Ok::<(), juicedelta::Error>(())
    /// ```
    pub fn within(&self, point: &[i32; D], distance: u64) -> Result<Vec<Row<D>>, Error> {
        let (at, width) = (point.as_ptr(), Self::NUMBERS);
        // SAFETY: as of `nearest`.
        let within = |ids, room: usize, rects, total: &mut u64| unsafe {
            let length = width * room;
            let code = calls::juicedelta_tree_within(&self.0, at, D, distance, ids, room, rects, length, total);
            if code != 0 || *total < room as u64 {
                return code;
            }
            // A full list may not be all.
            *total = 2 * room as u64 + 1;
            Error::BufferTooSmall as i32
        };
        Found::by(Self::WORDS, within)?.rows()
    }

    /// Each pair of rows, one of this tree and one of the other, whose boxes touch, once, in no stated order.
    ///
    /// ```
    /// # use juicedelta::{Rect, Row, Tree};
    /// let tree = |id| Tree::from_rows(&[Row { id, rect: Rect::new([0], [5]) }]);
    /// assert_eq!(tree(1)?.join(&tree(2)?)?, [(1, 2)]);
    /// # Ok::<(), juicedelta::Error>(())
    /// ```
    pub fn join(&self, other: &Self) -> Result<Vec<(i64, i64)>, Error> {
        // SAFETY: there is room for that many ids on each side.
        pairs(self.len(), |left, right, room, total| unsafe {
            calls::juicedelta_tree_join(&self.0, &other.0, left, room, right, room, total)
        })
    }

    /// Each pair of two rows of this tree whose boxes touch, the lower id first.
    ///
    /// ```
    /// # use juicedelta::{Rect, Row, Tree};
    /// let rows = [1, 2].map(|id| Row { id, rect: Rect::new([0], [5]) });
    /// assert_eq!(Tree::from_rows(&rows)?.join_self()?, [(1, 2)]);
    /// # Ok::<(), juicedelta::Error>(())
    /// ```
    pub fn join_self(&self) -> Result<Vec<(i64, i64)>, Error> {
        // SAFETY: as of `join`.
        pairs(self.len(), |left, right, room, total| unsafe {
            calls::juicedelta_tree_join_self(&self.0, left, room, right, room, total)
        })
    }

    /// The dump, as `.nodes` prints it in a script.
    ///
    /// ```
    /// # use juicedelta::Tree;
    /// # use std::io::BufRead;
    /// assert_eq!(Tree::<2>::new()?.dump()?.lines().next().unwrap().unwrap(), "rtree 2 51 1 1 0");
    /// # Ok::<(), juicedelta::Error>(())
    /// ```
    pub fn dump(&self) -> Result<Vec<u8>, Error> {
        // SAFETY: there is room for that many bytes.
        bytes(|text, room, total| unsafe { calls::juicedelta_tree_dump(&self.0, text, room, total) })
    }

    /// The tree in a compact form, of which `from_bytes` makes the same tree.
    ///
    /// ```
    /// # use juicedelta::{Rect, Row, Tree};
    /// let tree = Tree::from_rows(&[Row { id: 7, rect: Rect::new([0], [5]) }])?;
    /// assert_eq!(Tree::<1>::from_bytes(&tree.to_bytes()?)?.dump()?, tree.dump()?);
    /// # Ok::<(), juicedelta::Error>(())
    /// ```
    pub fn to_bytes(&self) -> Result<Vec<u8>, Error> {
        // SAFETY: there is room for that many bytes.
        bytes(|text, room, total| unsafe { calls::juicedelta_tree_to_bytes(&self.0, text, room, total) })
    }
}

impl<const D: usize> fmt::Debug for Tree<D> {
    fn fmt(&self, f: &mut fmt::Formatter<'_>) -> fmt::Result {
        f.debug_struct("Tree").field("axes", &D).field("len", &self.len()).finish_non_exhaustive()
    }
}

impl<const D: usize> Default for Tree<D>
where
    Axes<D>: Supported,
{
    fn default() -> Self {
        Self::new().expect("there is memory for a tree")
    }
}

impl<const D: usize> FromIterator<Row<D>> for Tree<D>
where
    Axes<D>: Supported,
{
    /// By `from_rows`.
    fn from_iter<T: IntoIterator<Item = Row<D>>>(rows: T) -> Self {
        Self::from_rows(&rows.into_iter().collect::<Vec<_>>()).expect("rows that a tree takes")
    }
}

impl<const D: usize> Extend<Row<D>> for Tree<D> {
    /// By `insert_rows`.
    fn extend<T: IntoIterator<Item = Row<D>>>(&mut self, rows: T) {
        self.insert_rows(&rows.into_iter().collect::<Vec<_>>()).expect("rows that the tree takes");
    }
}

impl<'a, const D: usize> IntoIterator for &'a Tree<D> {
    type Item = Row<D>;
    type IntoIter = Iter<'a, D>;

    fn into_iter(self) -> Iter<'a, D> {
        self.iter()
    }
}

/// The numbers of a box: each minimum, and then each maximum.
pub(crate) fn numbers<const D: usize>(rect: &Rect<D>) -> *const i32 {
    let first: *const Rect<D> = rect;
    first.cast()
}

/// The box that a call writes, or none if it answers that error.
fn written<const D: usize>(none: Error, call: impl FnOnce(*mut i32) -> i32) -> Result<Option<Rect<D>>, Error> {
    let mut rect = MaybeUninit::<Rect<D>>::uninit();
    match check(call(rect.as_mut_ptr().cast())) {
        // SAFETY: the call wrote it.
        Ok(()) => Ok(Some(unsafe { rect.assume_init() })),
        Err(error) if error == none => Ok(None),
        Err(error) => Err(error),
    }
}

/// The pairs that a join finds; it is called again with more room if that is needed.
fn pairs(mut room: usize, join: impl Fn(*mut i64, *mut i64, usize, &mut u64) -> i32) -> Result<Vec<(i64, i64)>, Error> {
    loop {
        let (mut left, mut right, mut total) = (room_for(room)?, room_for(room)?, 0);
        let answer = check(join(left.as_mut_ptr(), right.as_mut_ptr(), room, &mut total));
        room = total as usize;
        if answer != Err(Error::BufferTooSmall) {
            answer?;
            // SAFETY: the call wrote that many ids on each side.
            unsafe {
                left.set_len(room);
                right.set_len(room);
            }
            let mut pairs = room_for(room)?;
            pairs.extend(left.into_iter().zip(right));
            return Ok(pairs);
        }
    }
}

/// The bytes that a call writes; it is called again with more room if that is needed.
fn bytes(call: impl Fn(*mut u8, usize, &mut u64) -> i32) -> Result<Vec<u8>, Error> {
    let mut room = 4096;
    loop {
        let (mut text, mut total) = (room_for(room)?, 0);
        let answer = check(call(text.as_mut_ptr(), room, &mut total));
        room = total as usize;
        if answer != Err(Error::BufferTooSmall) {
            // SAFETY: a call that answers 0 wrote `total` bytes, and a refused one left the total at 0.
            unsafe { text.set_len(room) };
            return answer.map(|()| text);
        }
    }
}

//! Live windows.

use std::fmt;

use crate::calls::{self, Handle};
use crate::found::Found;
use crate::tree::numbers;
use crate::{check, Axes, Error, Rect, Row, Supported, Tree};

/// What a row did in a window.
#[repr(u8)]
#[derive(Clone, Copy, Debug, PartialEq, Eq, Hash)]
pub enum Kind {
    /// It left the window.
    Left = 0,
    /// It came into the window.
    Came = 1,
    /// It has another box, and is in the window as before.
    Moved = 2,
}

impl Kind {
    /// The kind of that number, of those that the library writes.
    pub(crate) fn of(number: u8) -> Self {
        match number {
            0 => Self::Left,
            1 => Self::Came,
            _ => Self::Moved,
        }
    }
}

/// What a window is told of a row.
#[derive(Clone, Copy, Debug, PartialEq, Eq, Hash)]
pub struct Change {
    /// The id of the window.
    pub window: i64,
    /// The id of the row.
    pub id: i64,
    /// What the row did.
    pub kind: Kind,
}

/// Rows, and windows over them, each an id and a box of D axes, 1 to 3. A window sees the rows that touch it.
///
/// Each edit answers what it told the windows, by rising window and then by rising id. A copy that drops what left and adds
/// what came is what the window sees.
///
/// ```
/// use juicedelta::{Change, Kind, Live, Rect};
/// let mut carts = Live::<2>::new()?;
/// carts.insert(7, &Rect::new([1, 1], [2, 2]))?;
/// carts.watch(1, &Rect::new([0, 0], [9, 9]))?;
/// carts.watch(2, &Rect::new([8, 0], [20, 9]))?;
/// for Change { window, id, kind } in carts.update(7, &Rect::new([10, 1], [11, 2]))? {
///     assert_eq!((id, kind), (7, if window == 1 { Kind::Left } else { Kind::Came }));
/// }
/// assert_eq!(carts.rows(2)?, [7]);
/// # Ok::<(), juicedelta::Error>(())
/// ```
///
/// # Panics
///
/// An edit panics if no memory is left for its list of changes. The edit is done then, and `changes` answers the list. One that
/// answers an error did nothing.
pub struct Live<const D: usize>(pub(crate) Tree<D>);

impl<const D: usize> Live<D>
where
    Axes<D>: Supported,
{
    /// No rows and no windows, in nodes of at most 51 cells.
    ///
    /// ```
    /// # use juicedelta::Live;
    /// assert!(Live::<3>::new()?.rows_tree().is_empty());
    /// # Ok::<(), juicedelta::Error>(())
    /// ```
    pub fn new() -> Result<Self, Error> {
        Self::with_capacity(51)
    }

    /// In nodes of at most `capacity` cells, from 5 to 51 (`BadCapacity`).
    ///
    /// ```
    /// # use juicedelta::{Error, Live};
    /// assert_eq!(Live::<2>::with_capacity(4).unwrap_err(), Error::BadCapacity);
    /// ```
    pub fn with_capacity(capacity: u32) -> Result<Self, Error> {
        // SAFETY: the handle holds nothing yet.
        let open =
            |new: &mut _, first, second| unsafe { calls::juicedelta_live_open(new, D as u32, capacity, first, second) };
        Handle::opened(open).map(|handle| Self(Tree(handle)))
    }
}

impl<const D: usize> Live<D> {
    /// Inserts a row: it comes into the windows that it touches (`BadBox`, `IdTaken`, `TreeFull`).
    ///
    /// ```
    /// # use juicedelta::{Change, Kind, Live, Rect};
    /// let mut live = Live::<1>::new()?;
    /// live.watch(3, &Rect::new([0], [9]))?;
    /// assert_eq!(live.insert(7, &Rect::new([9], [12]))?, [Change { window: 3, id: 7, kind: Kind::Came }]);
    /// # Ok::<(), juicedelta::Error>(())
    /// ```
    pub fn insert(&mut self, id: i64, rect: &Rect<D>) -> Result<Vec<Change>, Error> {
        // SAFETY: a box has that many numbers, here and below.
        self.edit(|handle, count| unsafe { calls::juicedelta_live_insert(handle, id, numbers(rect), 2 * D, count) })
    }

    /// Gives the row with that id this box: it leaves windows, comes into them, or moves in them (`BadBox`, `IdMissing`).
    /// The same box tells nothing.
    ///
    /// ```
    /// # use juicedelta::{Kind, Live, Rect};
    /// let mut live = Live::<1>::new()?;
    /// live.watch(3, &Rect::new([0], [9]))?;
    /// live.insert(7, &Rect::new([5], [5]))?;
    /// assert_eq!(live.update(7, &Rect::new([6], [6]))?[0].kind, Kind::Moved);
    /// assert_eq!(live.update(7, &Rect::new([6], [6]))?, []);
    /// # Ok::<(), juicedelta::Error>(())
    /// ```
    pub fn update(&mut self, id: i64, rect: &Rect<D>) -> Result<Vec<Change>, Error> {
        self.edit(|handle, count| unsafe { calls::juicedelta_live_move(handle, id, numbers(rect), 2 * D, count) })
    }

    /// Removes a row: it leaves the windows that saw it (`IdMissing`).
    ///
    /// ```
    /// # use juicedelta::{Error, Live, Rect};
    /// let mut live = Live::<1>::new()?;
    /// live.insert(7, &Rect::new([5], [5]))?;
    /// assert_eq!((live.remove(7)?, live.remove(7)), (vec![], Err(Error::IdMissing)));
    /// # Ok::<(), juicedelta::Error>(())
    /// ```
    pub fn remove(&mut self, id: i64) -> Result<Vec<Change>, Error> {
        // SAFETY: the handle is open or not, as the call allows.
        self.edit(|handle, count| unsafe { calls::juicedelta_live_remove(handle, id, count) })
    }

    /// Puts a window there, which is told of each row that it sees (`BadBox`, `IdTaken`, `TreeFull`).
    ///
    /// ```
    /// # use juicedelta::{Kind, Live, Rect};
    /// let mut live = Live::<1>::new()?;
    /// live.insert(7, &Rect::new([5], [5]))?;
    /// let changes = live.watch(3, &Rect::new([0], [9]))?;
    /// assert_eq!((changes[0].window, changes[0].id, changes[0].kind), (3, 7, Kind::Came));
    /// # Ok::<(), juicedelta::Error>(())
    /// ```
    pub fn watch(&mut self, window: i64, rect: &Rect<D>) -> Result<Vec<Change>, Error> {
        self.edit(|handle, count| unsafe { calls::juicedelta_live_watch(handle, window, numbers(rect), 2 * D, count) })
    }

    /// Gives a window this box, as a screen that pans or zooms: rows leave it and come into it (`BadBox`, `IdMissing`).
    ///
    /// ```
    /// # use juicedelta::{Kind, Live, Rect};
    /// let mut live = Live::<1>::new()?;
    /// live.insert(7, &Rect::new([5], [5]))?;
    /// live.watch(3, &Rect::new([0], [9]))?;
    /// assert_eq!(live.shift(3, &Rect::new([4], [13]))?, []);
    /// assert_eq!(live.shift(3, &Rect::new([8], [17]))?[0].kind, Kind::Left);
    /// # Ok::<(), juicedelta::Error>(())
    /// ```
    pub fn shift(&mut self, window: i64, rect: &Rect<D>) -> Result<Vec<Change>, Error> {
        self.edit(|handle, count| unsafe { calls::juicedelta_live_shift(handle, window, numbers(rect), 2 * D, count) })
    }

    /// Takes a window out, which is told that each row left (`IdMissing`).
    ///
    /// ```
    /// # use juicedelta::{Live, Rect};
    /// let mut live = Live::<1>::new()?;
    /// live.insert(7, &Rect::new([5], [5]))?;
    /// live.watch(3, &Rect::new([0], [9]))?;
    /// assert_eq!((live.unwatch(3)?.len(), live.windows()?), (1, vec![]));
    /// # Ok::<(), juicedelta::Error>(())
    /// ```
    pub fn unwatch(&mut self, window: i64) -> Result<Vec<Change>, Error> {
        // SAFETY: as of `remove`.
        self.edit(|handle, count| unsafe { calls::juicedelta_live_unwatch(handle, window, count) })
    }

    /// Makes room for `rows` more rows and `windows` more windows, and for `changes` windows or rows that one edit looks at: those
    /// around its old box and its new one. The edits that follow need memory for their answers alone, as long as each looks at no
    /// more than that, and together they insert or move at most `rows` rows, and watch or shift at most `windows` windows.
    ///
    /// ```
    /// # use juicedelta::{Error, Live};
    /// let mut live = Live::<2>::new()?;
    /// live.reserve(100_000, 1_000, 5_000)?;
    /// assert_eq!(live.reserve(usize::MAX, 0, 0), Err(Error::OutOfMemory));
    /// # Ok::<(), juicedelta::Error>(())
    /// ```
    pub fn reserve(&mut self, rows: usize, windows: usize, changes: usize) -> Result<(), Error> {
        let (handle, [rows, windows, changes]) = (&mut self.0 .0, [rows, windows, changes].map(|it| it as u64));
        // SAFETY: the handle is open or not, as the call allows.
        check(unsafe { calls::juicedelta_live_reserve(handle, rows, windows, changes) })
    }

    /// What the last edit told.
    ///
    /// ```
    /// # use juicedelta::{Live, Rect};
    /// let mut live = Live::<1>::new()?;
    /// live.watch(3, &Rect::new([0], [9]))?;
    /// assert_eq!(live.insert(7, &Rect::new([5], [5]))?, live.changes()?);
    /// # Ok::<(), juicedelta::Error>(())
    /// ```
    pub fn changes(&self) -> Result<Vec<Change>, Error> {
        let handle = &self.0 .0;
        // SAFETY: there is room for that many windows, ids and kinds.
        let changes = |windows: *mut i64, room, ids, kinds, total: &mut _| unsafe {
            calls::juicedelta_live_changes(handle, windows, room, ids, room, kinds, room, total)
        };
        Found::changes_by(changes)?.changes()
    }

    /// The ids of the rows that a window sees, rising (`IdMissing`).
    ///
    /// ```
    /// # use juicedelta::{Live, Rect};
    /// let mut live = Live::<1>::new()?;
    /// live.insert(7, &Rect::new([5], [5]))?;
    /// live.watch(3, &Rect::new([0], [9]))?;
    /// assert_eq!(live.rows(3)?, [7]);
    /// # Ok::<(), juicedelta::Error>(())
    /// ```
    pub fn rows(&self, window: i64) -> Result<Vec<i64>, Error> {
        let handle = &self.0 .0;
        // SAFETY: there is room for that many ids.
        let rows =
            |ids, room, _, total: &mut _| unsafe { calls::juicedelta_live_rows(handle, window, ids, room, total) };
        Found::by(1, rows)?.ids()
    }

    /// The windows, in no stated order.
    ///
    /// ```
    /// # use juicedelta::{Live, Rect, Row};
    /// let mut live = Live::<1>::new()?;
    /// live.watch(3, &Rect::new([0], [9]))?;
    /// assert_eq!(live.windows()?, [Row { id: 3, rect: Rect::new([0], [9]) }]);
    /// # Ok::<(), juicedelta::Error>(())
    /// ```
    pub fn windows(&self) -> Result<Vec<Row<D>>, Error> {
        let handle = &self.0 .0;
        // SAFETY: there is room for that many ids, and for as many boxes.
        let windows = |ids, room: usize, rects, total: &mut u64| unsafe {
            let code = calls::juicedelta_live_windows(handle, 0, ids, room, rects, 2 * D * room, total);
            // Lists that are too short are filled all the same.
            if code == 0 && *total > room as u64 {
                return Error::BufferTooSmall as i32;
            }
            code
        };
        Found::by(1 + D, windows)?.rows()
    }

    /// The rows, to search: what takes `&self` of a [`Tree`].
    ///
    /// ```
    /// # use juicedelta::{Live, Rect};
    /// let mut live = Live::<1>::new()?;
    /// live.insert(7, &Rect::new([5], [5]))?;
    /// let rows = live.rows_tree();
    /// assert_eq!((rows.len(), rows.search(&Rect::new([0], [9]))?, rows.get(7)?), (1, vec![7], Some(Rect::new([5], [5]))));
    /// # Ok::<(), juicedelta::Error>(())
    /// ```
    pub fn rows_tree(&self) -> &Tree<D> {
        &self.0
    }

    /// What an edit told, which counts its changes.
    fn edit(&mut self, call: impl FnOnce(&mut Handle, &mut u64) -> i32) -> Result<Vec<Change>, Error> {
        let count = calls::number(|count| call(&mut self.0 .0, count))?;
        if count == 0 {
            return Ok(Vec::new());
        }
        Ok(self.changes().expect("there is memory for the changes of an edit"))
    }
}

impl<const D: usize> fmt::Debug for Live<D> {
    fn fmt(&self, f: &mut fmt::Formatter<'_>) -> fmt::Result {
        f.debug_struct("Live").field("axes", &D).field("len", &self.0.len()).finish_non_exhaustive()
    }
}

impl<const D: usize> Default for Live<D>
where
    Axes<D>: Supported,
{
    /// By `new`.
    fn default() -> Self {
        Self::new().expect("there is memory for no rows and no windows")
    }
}

//! The memory that searches write to, and the ids, rows and changes in it.

use std::cell::Cell;
use std::mem::{size_of, take};
use std::slice;

use crate::{check, Change, Error, Kind, Rect, Row};

thread_local! {
    /// What a thread keeps. A search takes it out, since a program's own allocator may search too.
    static KEPT: Cell<Vec<i64>> = const { Cell::new(Vec::new()) };
}

/// A thread keeps at most this many words.
const MOST_KEPT: usize = (1 << 20) / size_of::<i64>();

/// An empty vector with room for `length` items.
pub fn room_for<T>(length: usize) -> Result<Vec<T>, Error> {
    let mut items = Vec::new();
    items.try_reserve_exact(length).map(|()| items).map_err(|_| Error::OutOfMemory)
}

/// Memory that a call writes to, which the thread keeps afterwards.
struct Words(Vec<i64>);

impl Words {
    /// What is kept, or more if it has fewer words.
    fn with_capacity(least: usize) -> Result<Self, Error> {
        // At its end a thread keeps nothing any more.
        let kept = Self(KEPT.try_with(Cell::take).unwrap_or_default());
        if kept.0.capacity() < least {
            room_for(least).map(Self)
        } else {
            Ok(kept)
        }
    }
}

impl Drop for Words {
    fn drop(&mut self) {
        if (1..=MOST_KEPT).contains(&self.0.capacity()) {
            let words = take(&mut self.0);
            let _ = KEPT.try_with(|kept| kept.set(words));
        }
    }
}

/// What a call wrote: `total` ids and, if it writes boxes, as many of these behind the words for `room` ids.
pub struct Found {
    words: Words,
    room: usize,
    total: usize,
}

impl Found {
    /// By a search that takes `width` words for a row: it gets the ids, their room and the boxes, and tells how many rows
    /// there are. If these need more room, it is called again.
    pub fn by(width: usize, search: impl Fn(*mut i64, usize, *mut i32, &mut u64) -> i32) -> Result<Self, Error> {
        let mut least = 64;
        loop {
            let words = Words::with_capacity(least)?;
            let mut found = Self { room: words.0.capacity() / width, words, total: 0 };
            match found.write(&search) {
                Err(Error::BufferTooSmall) => {
                    let needed = found.total * width;
                    least = needed.max(MOST_KEPT.min(2 * needed));
                }
                answer => return answer.map(|()| found),
            }
        }
    }

    /// By a call that writes changes: it gets the windows, their room, the ids and the kinds.
    pub fn changes_by(call: impl Fn(*mut i64, usize, *mut i64, *mut u8, &mut u64) -> i32) -> Result<Self, Error> {
        // A word for the window, one for the id, and one for the kind, which needs less.
        Self::by(3, |windows, room, ids, total| {
            let ids: *mut i64 = ids.cast();
            call(windows, room, ids, ids.wrapping_add(room).cast(), total)
        })
    }

    /// By a call that writes `room` rows of `width` words, or fewer.
    pub fn first(
        room: usize,
        width: usize,
        call: impl Fn(*mut i64, usize, *mut i32, &mut u64) -> i32,
    ) -> Result<Self, Error> {
        let mut found = Self { words: Words::with_capacity(room * width)?, room, total: 0 };
        found.write(&call).map(|()| found)
    }

    fn write(&mut self, call: &impl Fn(*mut i64, usize, *mut i32, &mut u64) -> i32) -> Result<(), Error> {
        let (ids, mut total) = (self.words.0.as_mut_ptr(), 0);
        let answer = check(call(ids, self.room, ids.wrapping_add(self.room).cast(), &mut total));
        self.total = total as usize;
        answer
    }

    /// The ids.
    pub fn ids(mut self) -> Result<Vec<i64>, Error> {
        // SAFETY: the call wrote them.
        unsafe { self.words.0.set_len(self.total) };
        if self.words.0.capacity() > MOST_KEPT {
            return Ok(take(&mut self.words.0));
        }
        let mut ids = room_for(self.total)?;
        ids.extend_from_slice(&self.words.0);
        Ok(ids)
    }

    /// The changes, if the call wrote changes.
    pub fn changes(self) -> Result<Vec<Change>, Error> {
        let (windows, total) = (self.words.0.as_ptr(), self.total);
        let ids = windows.wrapping_add(self.room);
        let kinds = ids.wrapping_add(self.room).cast::<u8>();
        // SAFETY: the call wrote that many of each there.
        let (windows, ids, kinds) = unsafe {
            (
                slice::from_raw_parts(windows, total),
                slice::from_raw_parts(ids, total),
                slice::from_raw_parts(kinds, total),
            )
        };
        let mut changes = room_for(total)?;
        let all = windows.iter().zip(ids).zip(kinds);
        changes.extend(all.map(|((&window, &id), &kind)| Change { window, id, kind: Kind::of(kind) }));
        Ok(changes)
    }

    /// The rows, if the call wrote boxes of D axes.
    pub fn rows<const D: usize>(self) -> Result<Vec<Row<D>>, Error> {
        let (ids, total) = (self.words.0.as_ptr(), self.total);
        let rects = ids.wrapping_add(self.room).cast::<Rect<D>>();
        // SAFETY: the call wrote that many ids there, and that many boxes, which have D words each.
        let (ids, rects) = unsafe { (slice::from_raw_parts(ids, total), slice::from_raw_parts(rects, total)) };
        let mut rows = room_for(total)?;
        rows.extend(ids.iter().zip(rects).map(|(&id, &rect)| Row { id, rect }));
        Ok(rows)
    }
}

//! What many windows or points find.

use std::ops::Index;

use crate::found::room_for;
use crate::{check, Error};

/// What many windows or points find: `many[i]` has the ids of place i.
///
/// ```
/// use juicedelta::{Rect, Relation, Row, Tree};
/// let tree = Tree::from_rows(&[Row { id: 7, rect: Rect::new([0], [5]) }])?;
/// let many = tree.search_many(Relation::Touches, &[Rect::new([9], [9]), Rect::new([5], [6])])?;
/// assert_eq!((many.len(), &many[0], &many[1]), (2, &[][..], &[7][..]));
/// assert_eq!(many.iter().map(|ids| ids.len()).sum::<usize>(), many.ids.len());
/// # Ok::<(), juicedelta::Error>(())
/// ```
#[derive(Clone, Debug, Default, PartialEq, Eq)]
pub struct Many {
    /// The ids of all places, one place after another.
    pub ids: Vec<i64>,
    /// Where the ids of each place begin, and at last where all end.
    pub starts: Vec<u64>,
}

impl Many {
    /// By a call that writes where each place's ids begin, and the ids, and tells how many there are.
    pub(crate) fn by(
        places: usize,
        mut room: usize,
        call: impl Fn(*mut u64, *mut i64, usize, &mut u64) -> i32,
    ) -> Result<Self, Error> {
        let mut starts: Vec<u64> = room_for(places + 1)?;
        loop {
            let (mut ids, mut total) = (room_for(room)?, 0);
            let answer = check(call(starts.as_mut_ptr(), ids.as_mut_ptr(), room, &mut total));
            room = total as usize;
            if answer != Err(Error::BufferTooSmall) {
                answer?;
                // SAFETY: the call wrote a start for each place, and that many ids.
                unsafe {
                    starts.set_len(places);
                    ids.set_len(room);
                }
                starts.push(total);
                return Ok(Self { ids, starts });
            }
        }
    }

    /// How many places there are.
    pub fn len(&self) -> usize {
        self.starts.len().saturating_sub(1)
    }

    /// Whether there are no places.
    pub fn is_empty(&self) -> bool {
        self.len() == 0
    }

    /// The ids of each place.
    pub fn iter(&self) -> impl Iterator<Item = &[i64]> {
        self.starts.windows(2).map(|ends| &self.ids[ends[0] as usize..ends[1] as usize])
    }
}

impl Index<usize> for Many {
    type Output = [i64];

    fn index(&self, place: usize) -> &[i64] {
        &self.ids[self.starts[place] as usize..self.starts[place + 1] as usize]
    }
}

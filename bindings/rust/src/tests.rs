//! Each method, and each error once.

use std::alloc::{GlobalAlloc, Layout, System};
use std::cell::Cell;
use std::collections::{BTreeMap, BTreeSet};
use std::io::Write;
use std::panic::{catch_unwind, AssertUnwindSafe};

use crate::calls::{self, Handle};
use crate::{
    check, version, Axes, Change, Error, Grid, Iter, Kind, Live, OffGrid, Rect, Relation, Row, RowsError, Shell,
    Supported, Tree,
};

/// What a thread allocated: how often, and how many bytes it holds, and held at most. Refuses the allocation at `refused`.
#[derive(Clone, Copy)]
struct Counts {
    allocations: usize,
    refused: usize,
    held: isize,
    most_held: isize,
}

thread_local! {
    static COUNTS: Cell<Counts> = const { Cell::new(Counts { allocations: 0, refused: 0, held: 0, most_held: 0 }) };
}

fn counts() -> Counts {
    COUNTS.with(Cell::get)
}

fn set_counts(counts: Counts) {
    COUNTS.with(|it| it.set(counts));
}

struct Counted;

#[global_allocator]
static COUNTED: Counted = Counted;

// SAFETY: the system's, except what is refused.
unsafe impl GlobalAlloc for Counted {
    unsafe fn alloc(&self, layout: Layout) -> *mut u8 {
        let mut counts = counts();
        counts.allocations += 1;
        let is_refused = counts.allocations == counts.refused;
        counts.held += if is_refused { 0 } else { layout.size() as isize };
        counts.most_held = counts.most_held.max(counts.held);
        set_counts(counts);
        if is_refused {
            std::ptr::null_mut()
        } else {
            System.alloc(layout)
        }
    }

    unsafe fn dealloc(&self, memory: *mut u8, layout: Layout) {
        let counts = counts();
        set_counts(Counts { held: counts.held - layout.size() as isize, ..counts });
        System.dealloc(memory, layout);
    }
}

/// Refuses the thread's nth allocation from now on.
fn refuse(nth: usize) {
    let counts = counts();
    set_counts(Counts { refused: counts.allocations + nth, ..counts });
}

fn cube<const D: usize>(min: i32, max: i32) -> Rect<D> {
    Rect { min: [min; D], max: [max; D] }
}

fn is_shared<T: Send + Sync>(_: &T) {}

fn sorted(mut ids: Vec<i64>) -> Vec<i64> {
    ids.sort_unstable();
    ids
}

fn calls_of_trees<const D: usize>() -> Result<(), Error>
where
    Axes<D>: Supported,
{
    let mut tree = Tree::<D>::with_capacity(5)?;
    is_shared(&tree);
    for id in 0..200 {
        tree.insert(id.into(), &cube(10 * id, 10 * id + 5))?;
    }
    tree.remove(100)?;
    assert_eq!((tree.len(), tree.count(&cube(0, 2000))?, tree.count(&cube(995, 1012))?), (199, 199, 2));
    assert_eq!(tree.search(&cube(0, 2000))?.len(), 199);
    let rows = tree.search_rows(&cube(45, 45))?;
    assert_eq!((rows.len(), rows[0].id, rows[0].rect), (1, 4, cube(40, 45)));
    let ids = |most| tree.nearest(&[-10; D], most).map(|rows| rows.iter().map(|row| row.id).collect::<Vec<_>>());
    assert_eq!((ids(3)?, ids(0)?, ids(1000)?.len()), (vec![0, 1, 2], vec![], 199));
    assert_eq!((tree.get(7)?, tree.get(100)?), (Some(cube(70, 75)), None));
    tree.update(7, &cube(-20, 0))?;
    assert_eq!((tree.nearest(&[-10; D], 1)?[0].id, tree.count(&cube(70, 75))?, tree.len()), (7, 0, 199));
    assert_eq!(tree.nearest(&[-10; D], 2)?[0], Row { id: 7, rect: cube(-20, 0) });
    assert_eq!(tree.update(7, &cube(1, 0)), Err(Error::BadBox));
    assert_eq!(tree.update(100, &cube(0, 1)), Err(Error::IdMissing));
    let dump = tree.dump()?;
    tree.update(7, &cube(-20, 0))?;
    assert_eq!((tree.get(7)?, tree.dump()?), (Some(cube(-20, 0)), dump));
    let read = Tree::<D>::from_dump(&tree.dump()?)?;
    assert_eq!((read.len(), read.get(199)?, read.count(&cube(995, 1012))?), (199, Some(cube(1990, 1995)), 2));
    assert_eq!(format!("{read:?}"), format!("Tree {{ axes: {D}, len: 199, .. }}"));
    tree.clear()?;
    assert_eq!((tree.is_empty(), tree.search(&cube(0, 2000))?), (true, vec![]));
    Ok(())
}

#[test]
fn trees() -> Result<(), Error> {
    calls_of_trees::<1>()?;
    calls_of_trees::<2>()?;
    calls_of_trees::<3>()
}

/// A sequence that looks random and is always the same.
fn numbers() -> impl FnMut(i32) -> i32 {
    let mut state = 1u64;
    move |below| {
        state = state.wrapping_mul(6364136223846793005).wrapping_add(1442695040888963407);
        ((state >> 33) % below as u64) as i32
    }
}

/// Whether a row finds a window, axis by axis.
fn is_related<const D: usize>(relation: Relation, row: &Rect<D>, window: &Rect<D>) -> bool {
    let is_inside = |inner: &Rect<D>, outer: &Rect<D>| {
        (0..D).any(|k| inner.min[k] > inner.max[k])
            || (0..D).all(|k| outer.min[k] <= inner.min[k] && inner.max[k] <= outer.max[k])
    };
    match relation {
        Relation::Touches => (0..D).all(|k| row.min[k].max(window.min[k]) <= row.max[k].min(window.max[k])),
        Relation::Within => is_inside(row, window),
        Relation::Holds => is_inside(window, row),
    }
}

/// Searches beside a loop over all rows. One window in eight has no point.
fn relations_of<const D: usize>() -> Result<(), Error>
where
    Axes<D>: Supported,
{
    let (mut below, mut tree, mut rows) = (numbers(), Tree::<D>::with_capacity(8)?, vec![]);
    let mut draw = |least: i32, widest: i32| {
        let min = [(); D].map(|()| below(100));
        Rect { min, max: min.map(|at| at + least + below(widest)) }
    };
    for id in 0..300 {
        let row = Row { id, rect: draw(0, 20) };
        tree.insert(id, &row.rect)?;
        rows.push(row);
    }
    let mut found = [0; 3];
    for turn in 0..300 {
        let window = if turn % 8 == 0 { draw(-9, 12) } else { draw(0, 1 + turn % 90) };
        for relation in [Relation::Touches, Relation::Within, Relation::Holds] {
            let plain: Vec<_> = rows.iter().filter(|row| is_related(relation, &row.rect, &window)).copied().collect();
            let mut own = tree.search_rows_where(relation, &window)?;
            own.sort_unstable_by_key(|row| row.id);
            assert_eq!(own, plain, "{relation:?} {window:?}");
            assert!(sorted(tree.search_where(relation, &window)?).into_iter().eq(plain.iter().map(|row| row.id)));
            assert_eq!(tree.count_where(relation, &window)?, plain.len() as u64);
            found[relation as usize] += plain.len();
        }
    }
    assert!(found.iter().all(|&rows| rows > 100), "{found:?}");
    Ok(())
}

#[test]
fn relations() -> Result<(), Error> {
    relations_of::<1>()?;
    relations_of::<2>()?;
    relations_of::<3>()
}

/// Calls for many rows, windows and points beside those for one, and beside loops.
fn many_rows_of<const D: usize>() -> Result<(), Error>
where
    Axes<D>: Supported,
{
    let mut below = numbers();
    let mut draw = |widest| {
        let min = [0; D].map(|_| below(10_000));
        Rect { min, max: min.map(|it| it + below(widest)) }
    };
    let rows: Vec<Row<D>> = (0..1000).map(|id| Row { id: 7 * id - 300, rect: draw(90) }).collect();
    let windows: Vec<Rect<D>> = (0..40).map(|_| draw(900)).collect();
    let points: Vec<[i32; D]> = windows.iter().map(|it| it.min).collect();
    let mut tree = Tree::from_rows_with_capacity(&rows[..800], 8)?;
    tree.insert_rows(&rows[800..900])?;
    tree.extend(rows[900..].iter().copied());
    let by_id = |mut rows: Vec<Row<D>>| {
        rows.sort_unstable_by_key(|row| row.id);
        rows
    };
    assert_eq!(
        (by_id(tree.iter().collect()), tree.iter().len(), Tree::<D>::default().iter().len()),
        (rows.clone(), 1000, 0)
    );
    let bounds = tree.bounds()?.unwrap();
    for axis in 0..D {
        let low = rows.iter().map(|row| row.rect.min[axis]).min();
        assert_eq!(
            (Some(bounds.min[axis]), Some(bounds.max[axis])),
            (low, rows.iter().map(|row| row.rect.max[axis]).max())
        );
    }
    for relation in [Relation::Touches, Relation::Within, Relation::Holds] {
        let (found, counts) = (tree.search_many(relation, &windows)?, tree.count_many(relation, &windows)?);
        for (place, window) in windows.iter().enumerate() {
            let ids = |it: &&Row<D>| is_related(relation, &it.rect, window);
            let wanted: Vec<i64> = rows.iter().filter(ids).map(|row| row.id).collect();
            assert_eq!((sorted(found[place].to_vec()), counts[place]), (wanted.clone(), wanted.len() as u64));
        }
        assert_eq!((found.len(), found.iter().flatten().count()), (40, found.ids.len()));
    }
    let near = tree.nearest_many(&points, 3)?;
    for (point, ids) in points.iter().zip(near.iter()) {
        let first = tree.nearest(point, 3)?;
        assert!(first.iter().map(|row| row.id).eq(ids.iter().copied()));
        assert_eq!(tree.nearest_to(&Rect::new(*point, *point), 3)?, first);
        let within = tree.within(point, 2000)?;
        assert_eq!(tree.nearest(point, within.len())?, within);
        assert!(within.len() == 1000 || tree.nearest(point, within.len() + 1)?.last() != within.last());
    }
    assert_eq!((tree.within(&points[0], u64::MAX)?.len(), tree.nearest_many(&[], 3)?.len()), (1000, 0));
    assert!(
        tree.search_many(Relation::Touches, &[])?.is_empty() && tree.count_many(Relation::Touches, &[])?.is_empty()
    );
    let other: Tree<D> = rows.iter().map(|row| Row { id: row.id + 1, rect: row.rect }).take(300).collect();
    let touching = |one: &Rect<D>, other: &Rect<D>| is_related(Relation::Touches, one, other);
    let wanted = |others: &[Row<D>], shift: i64, own: bool| -> Vec<(i64, i64)> {
        let pairs = rows.iter().flat_map(|one| others.iter().map(move |other| (one, other)));
        let pairs = pairs.filter(|(one, other)| touching(&one.rect, &other.rect) && (!own || one.id < other.id));
        pairs.map(|(one, other)| (one.id, other.id + shift)).collect()
    };
    let (mut pairs, mut own) = (tree.join(&other)?, tree.join_self()?);
    pairs.sort_unstable();
    own.sort_unstable();
    assert_eq!((pairs, own), (wanted(&rows[..300], 1, false), wanted(&rows, 0, true)));
    let read = Tree::<D>::from_bytes(&tree.to_bytes()?)?;
    assert_eq!((read.dump()?, read.get(7 - 300)?), (tree.dump()?, Some(rows[1].rect)));
    Ok(())
}

#[test]
fn many_rows() -> Result<(), Error> {
    many_rows_of::<1>()?;
    many_rows_of::<2>()?;
    many_rows_of::<3>()?;
    // More than a part of those that are read at once.
    let tree: Tree<1> = (0..9000).map(|id| Row { id, rect: cube(id as i32, id as i32) }).collect();
    let (mut rows, half): (Iter<1>, Vec<i64>) = (tree.iter(), tree.iter().map(|row| row.id).take(5000).collect());
    rows.nth(4999);
    assert_eq!((rows.len(), sorted(rows.map(|row| row.id).chain(half).collect())), (4000, (0..9000).collect()));
    Ok(())
}

type Boxes<const D: usize> = BTreeMap<i64, Rect<D>>;

/// Rows and windows as maps.
#[derive(Clone, Default)]
struct Plain<const D: usize> {
    rows: Boxes<D>,
    windows: Boxes<D>,
}

impl<const D: usize> Plain<D> {
    /// Each window with each row that touches it.
    fn pairs(&self) -> BTreeSet<(i64, i64)> {
        let of = |(&window, view)| {
            let seen = self.rows.iter().filter(move |(_, rect)| is_related(Relation::Touches, rect, view));
            seen.map(move |(&id, _)| (window, id))
        };
        self.windows.iter().flat_map(of).collect()
    }

    /// What an edit tells, by the definition: which pairs came and left, and which stayed though the row has another box.
    fn told(&self, old: &Self) -> Vec<Change> {
        let (before, after) = (old.pairs(), self.pairs());
        let kind_of = |&(window, id): &(i64, i64)| {
            let kind = match (before.contains(&(window, id)), after.contains(&(window, id))) {
                (true, false) => Kind::Left,
                (false, true) => Kind::Came,
                _ if old.rows.get(&id) == self.rows.get(&id) => return None,
                _ => Kind::Moved,
            };
            Some(Change { window, id, kind })
        };
        before.union(&after).filter_map(kind_of).collect()
    }
}

/// A copy of what each window sees follows the changes alone.
fn follow(copies: &mut BTreeSet<(i64, i64)>, changes: &[Change]) {
    for &Change { window, id, kind } in changes {
        match kind {
            Kind::Left => assert!(copies.remove(&(window, id))),
            Kind::Came => assert!(copies.insert((window, id))),
            Kind::Moved => assert!(copies.contains(&(window, id))),
        }
    }
}

/// Random edits beside maps, and reads of the rows.
fn live_of<const D: usize>() -> Result<(), Error>
where
    Axes<D>: Supported,
{
    let (mut below, mut live, mut copies) = (numbers(), Live::<D>::with_capacity(5)?, BTreeSet::new());
    let mut plain = Plain::default();
    is_shared(&live);
    live.reserve(40, 12, 100)?;
    for _ in 0..3000 {
        let (id, window, at, old) = (below(40).into(), i64::from(below(12)) - 6, below(100), plain.clone());
        let (rect, view) = (cube(at, at + below(10)), cube(at, at + below(60)));
        let (is_row, is_window) = (plain.rows.contains_key(&id), plain.windows.contains_key(&window));
        let changes = match below(8) {
            3 if is_row => plain.rows.remove(&id).map(|_| live.remove(id)),
            7 if is_window => plain.windows.remove(&window).map(|_| live.unwatch(window)),
            3 | 7 => None,
            0..=2 => Some(if plain.rows.insert(id, rect).is_some() {
                live.update(id, &rect)
            } else {
                live.insert(id, &rect)
            }),
            _ => Some(match plain.windows.insert(window, view) {
                Some(_) => live.shift(window, &view),
                None => live.watch(window, &view),
            }),
        };
        if let Some(changes) = changes.transpose()? {
            follow(&mut copies, &changes);
            assert_eq!((&changes, &live.changes()?), (&plain.told(&old), &changes));
        }
    }
    let tree = live.rows_tree();
    for (&window, view) in &plain.windows {
        let copy: Vec<i64> = copies.range((window, i64::MIN)..=(window, i64::MAX)).map(|&(_, id)| id).collect();
        assert_eq!((live.rows(window)?, sorted(tree.search(view)?)), (copy.clone(), copy));
    }
    assert_eq!(live.windows()?.into_iter().map(|it| (it.id, it.rect)).collect::<Boxes<D>>(), plain.windows);
    assert_eq!(tree.iter().map(|it| (it.id, it.rect)).collect::<Boxes<D>>(), plain.rows);
    assert_eq!(tree.nearest(&[50; D], tree.len())?, tree.within(&[50; D], 200)?);
    assert_eq!(format!("{live:?}"), format!("Live {{ axes: {D}, len: {}, .. }}", plain.rows.len()));
    Ok(())
}

#[test]
fn live() -> Result<(), Error> {
    live_of::<1>()?;
    live_of::<2>()?;
    live_of::<3>()
}

#[test]
fn live_codes() -> Result<(), Error> {
    let (mut live, mut closed, rect, bad) =
        (Live::<2>::default(), Live::<2>(Tree(Handle::default())), cube(0, 1), cube(1, 0));
    assert_eq!((live.insert(1, &rect)?, live.watch(5, &rect)?.len()), (vec![], 1));
    assert_eq!((closed.insert(1, &rect), closed.rows(5)), (Err(Error::Closed), Err(Error::Closed)));
    assert_eq!((closed.windows(), closed.changes()), (Err(Error::Closed), Err(Error::Closed)));
    assert_eq!(Live::<2>(Tree::new()?).unwatch(1), Err(Error::OtherKind));
    let handle = &mut live.0 .0;
    // SAFETY: the handle is open, and stays as it is.
    unsafe {
        assert_eq!(check(calls::juicedelta_tree_remove(handle, 1)), Err(Error::OtherKind));
        assert_eq!(check(calls::juicedelta_live_open(handle, 2, 51, 1, 2)), Err(Error::AlreadyOpen));
        assert_eq!(check(calls::juicedelta_live_open(&mut Handle::default(), 4, 51, 1, 2)), Err(Error::BadAxes));
        let (mut ids, mut kinds) = ([0; 2], [0; 2]);
        let mut changes = |room, kind_room| {
            let (windows, ids) = (ids.as_mut_ptr(), ids.as_mut_ptr());
            calls::juicedelta_live_changes(handle, windows, room, ids, room, kinds.as_mut_ptr(), kind_room, &mut 0)
        };
        assert_eq!((check(changes(0, 0)), check(changes(0, 1))), (Err(Error::BufferTooSmall), Err(Error::BadLength)));
    }
    assert_eq!(Live::<2>::with_capacity(52).err(), Some(Error::BadCapacity));
    for edit in [Live::insert, Live::update, Live::watch, Live::shift] {
        assert_eq!(edit(&mut live, 1, &bad), Err(Error::BadBox));
    }
    assert_eq!((live.insert(1, &rect), live.watch(5, &rect)), (Err(Error::IdTaken), Err(Error::IdTaken)));
    assert_eq!((live.update(5, &rect), live.shift(1, &rect)), (Err(Error::IdMissing), Err(Error::IdMissing)));
    assert_eq!((live.remove(5), live.unwatch(1)), (Err(Error::IdMissing), Err(Error::IdMissing)));
    assert_eq!((live.rows(1), live.reserve(0, usize::MAX, 0)), (Err(Error::IdMissing), Err(Error::OutOfMemory)));
    assert_eq!(live.changes()?, [Change { window: 5, id: 1, kind: Kind::Came }]);
    // What is told of an edit that found no memory for its list.
    live.insert(2, &rect)?;
    refuse(1);
    assert!(catch_unwind(AssertUnwindSafe(|| live.unwatch(5))).is_err());
    assert_eq!((live.changes()?.len(), live.windows()?), (2, vec![]));
    Ok(())
}

/// The least box of whole numbers, by the definition.
#[test]
fn grids() -> Result<(), OffGrid> {
    for (scale, start) in
        [(1.0, 0.0), (1e7, 0.0), (100.0, -4_649_776.5), (1.0 / 3.0, 7.0), (0.1, 1e9), (3.7e5, 1.0 / 7.0)]
    {
        let grid = Grid::new(scale, [start, -start])?;
        for turn in 0..500 {
            let off = |share: f64| f64::from(turn % 3) * share * f64::from(turn) / scale;
            let min = [0, 1].map(|axis| grid.floats(&[turn * 4_000_037 - 1_000_000_000; 2])[axis] + off(0.01));
            let max = min.map(|it| it + off(0.03));
            let rect = grid.rect(min, max)?;
            let (low, high) = (grid.floats(&rect.min), grid.floats(&rect.max));
            let (next, last) = (grid.floats(&rect.min.map(|it| it + 1)), grid.floats(&rect.max.map(|it| it - 1)));
            for axis in 0..2 {
                assert!(
                    low[axis] <= min[axis]
                        && min[axis] < next[axis]
                        && last[axis] < max[axis]
                        && max[axis] <= high[axis]
                );
            }
            assert_eq!((grid.rect(low, high)?, grid.point(low)?), (rect, rect.min));
        }
    }
    let (degrees, nan, most) = (Grid::new(1e7, [0.0])?, f64::NAN, f64::INFINITY);
    for (min, max) in [(nan, 0.0), (0.0, nan), (-300.0, 0.0), (0.0, 300.0), (-most, 0.0), (0.0, most), (1.0, 0.0)] {
        assert_eq!(degrees.rect([min], [max]), Err(OffGrid));
    }
    assert_eq!(
        (degrees.point([nan]), degrees.point([214.8]), degrees.point([-214.8])),
        (Err(OffGrid), Err(OffGrid), Err(OffGrid))
    );
    for (scale, start) in [(0.0, 0.0), (-1.0, 0.0), (nan, 0.0), (most, 0.0), (1.0, 1e15), (1.0, nan)] {
        assert_eq!(Grid::new(scale, [start]), Err(OffGrid));
    }
    assert_eq!(Grid::new(1.0, [0.0])?.rect([-2147483648.0], [2147483647.0])?, Rect::new([i32::MIN], [i32::MAX]));
    Ok(())
}

// Between writes, which need the tree alone, the threads of a scope read it side by side.
#[test]
fn threads() -> Result<(), Error> {
    let (mut tree, rows, mut live) = (Tree::<2>::with_capacity(5)?, 500, Live::<2>::new()?);
    for id in 0..rows {
        tree.insert(id.into(), &cube(id, id + 3))?;
    }
    live.watch(1, &cube(0, 9))?;
    live.insert(7, &cube(5, 5))?;
    for shift in 1..4 {
        let begun = std::sync::Barrier::new(4);
        let read = |thread: i32| -> Result<(), Error> {
            begun.wait();
            for at in (thread..rows).step_by(4) {
                let window = cube(at, at);
                let wanted: Vec<i64> = ((at - 2 - shift).max(0)..=at).map(i64::from).collect();
                assert_eq!(sorted(tree.search(&window)?), wanted);
                assert_eq!(tree.count_where(Relation::Holds, &window)?, wanted.len() as u64);
                assert_eq!(tree.search_rows(&window)?.len(), wanted.len());
                assert_eq!(tree.get(at.into())?, Some(cube(at, at + 2 + shift)));
                assert_eq!((tree.nearest(&[-1, -1], 1)?[0].id, tree.len()), (0, rows as usize));
                assert_eq!((live.rows(1)?, live.changes()?.len(), live.windows()?.len()), (vec![7], 1, 1));
                assert_eq!(live.rows_tree().join(&tree)?.len(), 3 + shift as usize);
            }
            assert_eq!(Tree::<2>::from_dump(&tree.dump()?)?.len(), rows as usize);
            Ok(())
        };
        std::thread::scope(|scope| {
            let threads = [0, 1, 2, 3].map(|thread| scope.spawn(move || read(thread)));
            threads.into_iter().try_for_each(|thread| thread.join().unwrap())
        })?;
        for id in 0..rows {
            tree.update(id.into(), &cube(id, id + 3 + shift))?;
        }
    }
    Ok(())
}

#[test]
fn shells() -> Result<(), Error> {
    let mut shell = Shell::with_capacity(5)?;
    is_shared(&shell);
    assert_eq!(shell.execute("CREATE VIRTUAL TABLE t USING rtree_i32(id, a, b); INSERT INTO t VAL")?, "");
    assert_eq!(
        shell.execute("UES (1, 2, 3); SELECT * FROM t; SELECT * FROM u;")?,
        "1|2|3\nrefused 4 5: no such table\n"
    );
    assert_eq!(shell.finish()?, (true, String::new()));
    assert_eq!(shell.execute(""), Err(Error::Ended));
    Ok(())
}

// But `Ended` and `OutOfMemory`, and `TreeFull`: no machine of a test has memory for that many rows. The methods have no way to
// most of these, so they are tried below them.
#[test]
fn codes() -> Result<(), Error> {
    let (mut tree, rect) = (Tree::<2>::new()?, cube(0, 1));
    tree.insert(1, &rect)?;
    assert_eq!(Tree::<2>(Handle::default()).dump(), Err(Error::Closed));
    assert_eq!(Tree::<1>(Shell::new()?.0).dump(), Err(Error::OtherKind));
    // SAFETY: the handle is open, and stays as it is; no window is read.
    unsafe {
        assert_eq!(check(calls::juicedelta_tree_open(&mut tree.0, 2, 51, 1, 2)), Err(Error::AlreadyOpen));
        assert_eq!(check(calls::juicedelta_tree_open(&mut Handle::default(), 4, 51, 1, 2)), Err(Error::BadAxes));
        let count = |relation, length| calls::juicedelta_tree_count(&tree.0, relation, [0; 4].as_ptr(), length, &mut 0);
        assert_eq!((check(count(3, 4)), check(count(0, 2))), (Err(Error::BadRelation), Err(Error::BadLength)));
        let search = calls::juicedelta_tree_search(&tree.0, 0, [0; 4].as_ptr(), 4, [0].as_mut_ptr(), 0, &mut 0);
        assert_eq!(check(search), Err(Error::BufferTooSmall));
    }
    assert_eq!(Tree::<2>::with_capacity(4).err(), Some(Error::BadCapacity));
    assert_eq!(tree.insert(2, &cube(1, 0)), Err(Error::BadBox));
    assert_eq!(tree.insert(1, &rect), Err(Error::IdTaken));
    assert_eq!(tree.remove(2), Err(Error::IdMissing));
    assert_eq!(Tree::<2>::from_dump(b"rtree 2 5 1 0\n").err(), Some(Error::BadDump));
    assert_eq!(Tree::<2>::from_bytes(b"none").err(), Some(Error::BadBytes));
    assert_eq!(Tree::<3>::from_bytes(&tree.to_bytes()?).err(), Some(Error::BadBytes));
    // SAFETY: the tree is open, and a box of one axis has two numbers.
    let bounds = unsafe { calls::juicedelta_tree_bounds(&Tree::<1>::new()?.0, [0, 0].as_mut_ptr(), 2) };
    assert_eq!((check(bounds), tree.nearest_to(&cube(1, 0), 1)), (Err(Error::Empty), Err(Error::BadBox)));
    let refused = |error, at| Some(RowsError { error, at });
    let row = |id, rect| Row { id, rect };
    let (bad, taken) = ([row(5, rect), row(6, cube(1, 0))], [row(5, rect), row(6, rect), row(5, rect)]);
    assert_eq!(Tree::from_rows(&bad).err(), refused(Error::BadBox, Some(1)));
    assert_eq!(tree.insert_rows(&bad).err(), refused(Error::BadBox, Some(1)));
    assert_eq!(Tree::from_rows(&taken).err(), refused(Error::IdTaken, Some(2)));
    assert_eq!(tree.insert_rows(&taken).err(), refused(Error::IdTaken, Some(2)));
    assert_eq!(tree.insert_rows(&[row(9, rect), row(1, rect)]).err(), refused(Error::IdTaken, Some(1)));
    assert_eq!(Tree::from_rows_with_capacity(&taken, 52).err(), refused(Error::BadCapacity, None));
    assert_eq!(refused(Error::IdTaken, Some(2)).unwrap().to_string(), "the id is taken, at place 2");
    assert_eq!((tree.len(), tree.get(1)?), (1, Some(rect)));
    Ok(())
}

#[test]
fn words() {
    for (place, error) in Error::ALL.into_iter().enumerate() {
        assert_eq!((error as usize, check(error as i32)), (place + 1, Err(error)));
        assert!(error.to_string().len() > 8 && error.to_string() != "unknown code");
    }
    assert_eq!((check(0), Error::IdTaken.to_string().as_str()), (Ok(()), "the id is taken"));
    assert_eq!(Error::BadRelation.to_string(), "a relation is touches, within or holds");
    fn is_error<T: std::error::Error + Send + Sync + 'static>(_: T) {}
    is_error(Error::Ended);
}

#[test]
fn versions() {
    let numbers = env!("CARGO_PKG_VERSION").split('.').map(|number| number.parse::<u32>().unwrap());
    assert_eq!(numbers.fold(0, |all, number| 1000 * all + number), version());
}

/// A tree of `rows` rows in a line.
fn line(rows: i32) -> Result<Tree<1>, Error> {
    let mut tree = Tree::<1>::new()?;
    (0..rows).try_for_each(|id| tree.insert(id.into(), &cube(id, id)))?;
    Ok(tree)
}

/// Whether a search finds the first `rows` rows of the line.
fn finds(tree: &Tree<1>, rows: i32) -> Result<bool, Error> {
    Ok(sorted(tree.search(&cube(0, rows - 1))?).into_iter().eq(0..rows.into()))
}

// A search allocates its result and nothing else, once the thread has memory enough.
#[test]
fn results() -> Result<(), Error> {
    let tree = line(10_000)?;
    assert!(finds(&tree, 6000)?);
    for rows in [0, 1, 20, 65, 1044, 6000] {
        let before = counts();
        assert!(finds(&tree, rows)?);
        assert_eq!(counts().allocations - before.allocations, usize::from(rows > 0));
        let found = tree.search_rows(&cube(0, rows - 1))?;
        assert!(found.len() == rows as usize && found.iter().all(|row| row.rect == cube(row.id as i32, row.id as i32)));
        drop(found);
        assert_eq!(counts().held, before.held);
    }
    Ok(())
}

/// What a thread's first search answers if its nth allocation is refused.
fn refused(nth: usize) -> Result<Option<Error>, Error> {
    let tree = line(1000)?;
    refuse(nth);
    let refused = tree.search(&cube(0, 999)).err();
    refuse(0);
    assert!(finds(&tree, 1000)?);
    Ok(refused)
}

// It allocates little memory, enough memory, and the result.
#[test]
fn refusals() {
    for nth in 1..=4 {
        let answer = std::thread::spawn(move || refused(nth)).join().unwrap();
        assert_eq!(answer, Ok((nth < 4).then_some(Error::OutOfMemory)));
    }
}

// What is printed waits for memory.
#[test]
fn output() -> Result<(), Error> {
    let mut shell = Shell::new()?;
    shell.execute("CREATE VIRTUAL TABLE t USING rtree_i32(id, a, b); INSERT INTO t VALUES (1, 2, 3);")?;
    refuse(1);
    assert_eq!(shell.execute("SELECT * FROM t;"), Err(Error::OutOfMemory));
    assert_eq!(shell.execute("")?, "1|2|3\n");
    Ok(())
}

#[test]
fn many() -> Result<(), Error> {
    let tree = line(1 << 20)?;
    assert_eq!((tree.len(), tree.count(&cube(7, 1006))?), (1 << 20, 1000));
    let before = counts().held;
    set_counts(Counts { most_held: before, ..counts() });
    for rows in [131_072, 1 << 20] {
        assert_eq!(tree.search(&cube(0, rows - 1))?.len(), rows as usize);
    }
    assert!(counts().most_held - before <= 9 << 20 && counts().held - before <= 1 << 20);
    Ok(())
}

// faults/refuse.c refuses the allocations between the two marks, so it runs alone, if that is loaded.
#[test]
#[ignore]
fn memory() -> Result<(), Error> {
    let mut tree = Tree::<2>::new()?;
    let (rect, mut marks) = (cube(0, 1), std::io::stderr());
    let _ = marks.write(b"<");
    let answer = tree.insert(1, &rect);
    let _ = marks.write(b">");
    assert_eq!((answer, tree.len()), (Err(Error::OutOfMemory), 0));
    Ok(())
}

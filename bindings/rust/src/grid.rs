//! Grids.

use std::fmt;

use crate::Rect;

/// `scale` whole numbers a unit, from an origin on each axis on: the whole number k stands for the float
/// `origin + k / scale`. A box of floats becomes the least box of whole numbers that holds it.
///
/// ```
/// use juicedelta::{Grid, Rect};
/// let degrees = Grid::new(1e7, [0.0, 0.0])?;
/// let rect = degrees.rect([13.405, 52.52], [13.40500001, 52.52])?;
/// assert_eq!(rect, Rect::new([134050000, 525200000], [134050001, 525200000]));
/// assert_eq!(degrees.floats(&rect.min), [13.405, 52.52]);
/// # Ok::<(), juicedelta::OffGrid>(())
/// ```
#[derive(Clone, Copy, Debug, PartialEq)]
pub struct Grid<const D: usize> {
    scale: f64,
    origin: [f64; D],
}

/// What a grid doesn't take: a scale that isn't above 0, an origin too far from 0 for each whole number to have a float
/// of its own, NaN, a coordinate outside of the grid, or a minimum above its maximum.
#[derive(Clone, Copy, Debug, PartialEq, Eq, Hash)]
pub struct OffGrid;

impl fmt::Display for OffGrid {
    fn fmt(&self, f: &mut fmt::Formatter<'_>) -> fmt::Result {
        f.write_str("the grid has no whole numbers for this")
    }
}

impl std::error::Error for OffGrid {}

impl<const D: usize> Grid<D> {
    /// The scale is above 0, and each origin at most 2^49 steps from 0.
    ///
    /// ```
    /// use juicedelta::{Grid, OffGrid};
    /// assert_eq!(Grid::new(0.0, [0.0]), Err(OffGrid));
    /// ```
    pub fn new(scale: f64, origin: [f64; D]) -> Result<Self, OffGrid> {
        let is_fine = scale > 0.0 && scale.is_finite();
        let is_near = |start: &f64| (start * scale).abs() <= 562_949_953_421_312.0;
        if is_fine && origin.iter().all(is_near) {
            Ok(Self { scale, origin })
        } else {
            Err(OffGrid)
        }
    }

    /// The least box of whole numbers that holds this one.
    ///
    /// ```
    /// use juicedelta::{Grid, OffGrid, Rect};
    /// let grid = Grid::new(1.0, [0.0])?;
    /// assert_eq!((grid.rect([-0.5], [0.5])?, grid.rect([0.5], [f64::NAN])), (Rect::new([-1], [1]), Err(OffGrid)));
    /// # Ok::<(), OffGrid>(())
    /// ```
    pub fn rect(&self, min: [f64; D], max: [f64; D]) -> Result<Rect<D>, OffGrid> {
        let mut rect = Rect { min: [0; D], max: [0; D] };
        for axis in 0..D {
            let (low, high, start) = (min[axis], max[axis], self.origin[axis]);
            if low.is_nan() || high.is_nan() || low > high {
                return Err(OffGrid);
            }
            rect.min[axis] = whole(self.below(low, start)?)?;
            rect.max[axis] = whole(-self.below(-high, -start)?)?;
        }
        Ok(rect)
    }

    /// The nearest point of whole numbers.
    ///
    /// ```
    /// let grid = juicedelta::Grid::new(10.0, [0.0])?;
    /// assert_eq!(grid.point([0.26])?, [3]);
    /// # Ok::<(), juicedelta::OffGrid>(())
    /// ```
    pub fn point(&self, at: [f64; D]) -> Result<[i32; D], OffGrid> {
        let mut point = [0; D];
        for axis in 0..D {
            point[axis] = whole(steps((at[axis] - self.origin[axis]) * self.scale + 0.5)?)?;
        }
        Ok(point)
    }

    /// The floats of a point, which may be an end of a box.
    ///
    /// ```
    /// let grid = juicedelta::Grid::new(10.0, [5.0])?;
    /// assert_eq!(grid.floats(&[3]), [5.3]);
    /// # Ok::<(), juicedelta::OffGrid>(())
    /// ```
    pub fn floats(&self, point: &[i32; D]) -> [f64; D] {
        let mut floats = self.origin;
        for (float, &k) in floats.iter_mut().zip(point) {
            *float += f64::from(k) / self.scale;
        }
        floats
    }

    /// The greatest whole number that stands for no more than x, on an axis from that start.
    fn below(&self, x: f64, start: f64) -> Result<i64, OffGrid> {
        let k = steps((x - start) * self.scale)?;
        // By floats alone it may be off by one.
        let back = |k: i64| start + k as f64 / self.scale;
        Ok(k + i64::from(back(k + 1) <= x) - i64::from(back(k) > x))
    }
}

/// So many steps, rounded down. Of more than a box has, and of NaN, it makes an error.
fn steps(steps: f64) -> Result<i64, OffGrid> {
    if steps.abs() <= 2_147_483_650.0 {
        Ok(steps.floor() as i64)
    } else {
        Err(OffGrid)
    }
}

fn whole(k: i64) -> Result<i32, OffGrid> {
    i32::try_from(k).map_err(|_| OffGrid)
}

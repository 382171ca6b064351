//! The path of a fitted outline, for a rasteriser.

use crate::{ffi, Refusal};

/// A place in pixels.
#[derive(Clone, Copy, Debug, PartialEq)]
pub struct PixelPoint {
    /// How far to the right.
    pub x: f32,
    /// How high.
    pub y: f32,
}

/// A step of a path.
#[derive(Clone, Copy, Debug, PartialEq)]
pub enum PathStep {
    /// A contour starts here.
    Move(PixelPoint),
    /// A straight line to here.
    Line(PixelPoint),
    /// A quadratic curve by a control point to an end.
    Curve(PixelPoint, PixelPoint),
    /// The contour ends, with a straight line to its start where it is not there already.
    Close,
}

impl PathStep {
    /// The step of a kind, with its places; none for finished.
    fn of(kind: u8, [x, y, end_x, end_y]: [f32; 4]) -> Option<Self> {
        let place = PixelPoint { x, y };
        match kind {
            1 => Some(Self::Move(place)),
            2 => Some(Self::Line(place)),
            3 => Some(Self::Curve(place, PixelPoint { x: end_x, y: end_y })),
            4 => Some(Self::Close),
            _ => None,
        }
    }
}

/// A fitted outline: the coordinates of its points in units, which of them are on the curve (any nonzero mark), and the last point of each contour.
#[derive(Clone, Copy, Debug, PartialEq, Eq)]
pub struct Outline<'a> {
    /// The x coordinates, -196,605 to 196,605.
    pub xs: &'a [i32],
    /// The y coordinates, the same.
    pub ys: &'a [i32],
    /// The on-curve marks.
    pub marks: &'a [u8],
    /// The contour ends, strictly rising, each below the count of points.
    pub ends: &'a [u16],
}

impl Outline<'_> {
    /// How many steps its path has at most: this many kinds are always enough room for [`path`], and four times as many floats.
    #[must_use]
    pub const fn most_steps(&self) -> usize {
        self.xs.len() + 2 * self.ends.len()
    }
}

/// Step `cursor` of an outline's path, counted from 0, and the cursor of the next one, or none where the path is finished.
///
/// Each call tests the whole outline: for a whole path take [`path`].
///
/// ```
/// use khsaemudol::{path_step, Outline, PathStep, PixelPoint};
///
/// let outline = Outline { xs: &[0, 64], ys: &[0, 32], marks: &[1, 1], ends: &[1] };
/// assert_eq!(path_step(&outline, 1)?, Some((PathStep::Line(PixelPoint { x: 1.0, y: 0.5 }), 2)));
/// assert_eq!(path_step(&outline, 2)?, Some((PathStep::Close, 3)));
/// assert_eq!(path_step(&outline, 3)?, None);
/// # Ok::<(), khsaemudol::Refusal>(())
/// ```
///
/// # Errors
///
/// [`Refusal::TooLong`], [`Refusal::BadIndex`] or [`Refusal::OutOfRange`].
pub fn path_step(outline: &Outline<'_>, cursor: u32) -> Result<Option<(PathStep, u32)>, Refusal> {
    let (mut kind, mut places, mut next) = (0, [0.0; 4], cursor);
    let answer = ffi::path_step(outline, cursor, &mut kind, &mut places, &mut next);
    Refusal::of(answer)?;
    Ok(PathStep::of(kind, places).map(|step| (step, next)))
}

/// Writes an outline's whole path into a room, and hands back its steps.
///
/// ```
/// use khsaemudol::{path, Outline, PathStep, PixelPoint};
///
/// // a drop: one point on the curve and two off it, with one halfway between these
/// let outline = Outline { xs: &[0, 64, -64], ys: &[0, 128, 128], marks: &[1, 0, 0], ends: &[2] };
/// let mut kinds = vec![0; outline.most_steps()];
/// let mut places = vec![0.0; 4 * outline.most_steps()];
/// let at = |x, y| PixelPoint { x, y };
/// assert!(path(&outline, &mut kinds, &mut places)?.eq([
///     PathStep::Move(at(0.0, 0.0)),
///     PathStep::Curve(at(1.0, 2.0), at(0.0, 2.0)),
///     PathStep::Curve(at(-1.0, 2.0), at(0.0, 0.0)),
///     PathStep::Close,
/// ]));
/// # Ok::<(), khsaemudol::Refusal>(())
/// ```
///
/// # Errors
///
/// [`Refusal::TooLong`], [`Refusal::BadIndex`] or [`Refusal::OutOfRange`]: the first also where the room has fewer than [`Outline::most_steps`] kinds, or fewer than four times as many places.
pub fn path<'a>(
    outline: &Outline<'_>,
    kinds: &'a mut [u8],
    places: &'a mut [f32],
) -> Result<Path<'a>, Refusal> {
    let mut count = 0;
    Refusal::of(ffi::path(outline, kinds, places, &mut count))?;
    let steps = count as usize;
    Ok(Path {
        kinds: &kinds[..steps],
        places: &places[..4 * steps],
    })
}

/// The steps of a path, one after the other.
#[derive(Clone, Debug)]
pub struct Path<'a> {
    kinds: &'a [u8],
    places: &'a [f32],
}

impl Iterator for Path<'_> {
    type Item = PathStep;

    fn next(&mut self) -> Option<PathStep> {
        let (&kind, kinds) = self.kinds.split_first()?;
        let (places, rest) = self.places.split_at(4);
        (self.kinds, self.places) = (kinds, rest);
        PathStep::of(kind, places.try_into().ok()?)
    }

    fn size_hint(&self) -> (usize, Option<usize>) {
        (self.kinds.len(), Some(self.kinds.len()))
    }
}

impl ExactSizeIterator for Path<'_> {}

//! Who refers to whom, found once for an outline that is fitted at many sizes.

use crate::{ffi, Refusal};
use alloc::{vec, vec::Vec};

/// The nearest touched points before and behind each point of an outline, by its touch marks and contours alone: the same at every size.
///
/// ```
/// use khsaemudol::{Refusal, References};
///
/// let (touched, ends) = ([1, 0, 1], [2]);
/// let references = References::of(&touched, &ends)?;
/// assert_eq!((references.before(), references.behind()), (&[65_535, 0, 65_535][..], &[65_535, 2, 65_535][..]));
/// let mut currents = [20, 7, 5];
/// references.align(&[10, 7, 5], &mut currents, &touched, &ends)?;
/// assert_eq!(currents, [20, 11, 5]);
/// // the last point is not touched now
/// assert_eq!(references.align(&[10, 7, 5], &mut currents, &[1, 0, 0], &ends), Err(Refusal::NotMatching));
/// # Ok::<(), Refusal>(())
/// ```
#[derive(Clone, Debug, PartialEq, Eq, Hash)]
pub struct References {
    before: Vec<u16>,
    behind: Vec<u16>,
}

impl References {
    /// The references of an outline with these touch marks and contour ends.
    ///
    /// # Errors
    ///
    /// [`Refusal::TooLong`] or [`Refusal::BadIndex`].
    pub fn of(touched: &[u8], ends: &[u16]) -> Result<Self, Refusal> {
        let mut before = vec![0; touched.len()];
        let mut behind = before.clone();
        let answer = ffi::remember_references(touched, ends, &mut before, &mut behind);
        Refusal::of(answer)?;
        Ok(Self { before, behind })
    }

    /// Each point's nearest touched point before it, or 65,535 where it is touched, 65,534 where it has no contour, 65,533 where its contour has one touched point or none.
    #[must_use]
    pub fn before(&self) -> &[u16] {
        &self.before
    }

    /// The nearest behind it, or the same number.
    #[must_use]
    pub fn behind(&self) -> &[u16] {
        &self.behind
    }

    /// Aligns the weak points of one axis by these references, as [`align_weak_points`](crate::align_weak_points) does without.
    ///
    /// # Errors
    ///
    /// [`Refusal::TooLong`], [`Refusal::BadIndex`], [`Refusal::NotMatching`], [`Refusal::OutOfRange`] or [`Refusal::TooSteep`]: the third where other points are touched or the contours are others.
    pub fn align(
        &self,
        originals: &[i32],
        currents: &mut [i32],
        touched: &[u8],
        ends: &[u16],
    ) -> Result<(), Refusal> {
        Refusal::of(ffi::align_with_references(
            originals,
            currents,
            touched,
            ends,
            &self.before,
            &self.behind,
        ))
    }
}

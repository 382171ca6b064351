//! One point dragged.

use crate::{ffi, Refusal};

/// Aligns what depends on one touched point, whose current has been set: the untouched points of its contour of which it is the nearest touched one before or behind. Nothing else
/// is written.
///
/// The only touched point of a contour, set back on its original, moves nothing: the others keep what they held.
///
/// ```
/// use khsaemudol::{drag_point, Refusal};
///
/// let mut currents = [7, 25];
/// drag_point(&[0, 10], &mut currents, &[1, 0], &[1], 0)?;
/// assert_eq!(currents, [7, 17]);
/// currents[0] = 0;
/// drag_point(&[0, 10], &mut currents, &[1, 0], &[1], 0)?;
/// assert_eq!(currents, [0, 17]);
/// # Ok::<(), Refusal>(())
/// ```
///
/// # Errors
///
/// [`Refusal::TooLong`], [`Refusal::BadIndex`], [`Refusal::OutOfRange`] or [`Refusal::TooSteep`]: the second also where the point is not there or not touched.
pub fn drag_point(
    originals: &[i32],
    currents: &mut [i32],
    touched: &[u8],
    ends: &[u16],
    point: u32,
) -> Result<(), Refusal> {
    Refusal::of(ffi::drag_point(originals, currents, touched, ends, point))
}

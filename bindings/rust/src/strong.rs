//! Strong points, by the edges around them.

use crate::{ffi, Edge, Refusal};

/// Moves the strong points of one axis, those that are neither touched nor weak, by the edges around them, and touches them: their marks become 1.
///
/// A point at or below the first edge's font position moves with that edge, one at or above the last one's with that; one on another edge's comes to its position; one between two
/// edges comes between their positions as it is between their font positions. Edges that are not done count like the others. Without edges nothing is moved.
///
/// The lists have one entry for each point: `fonts` are positions in design units, and any nonzero mark means touched, or weak. Weak are points that are very near others, or
/// that lack a dominant direction inward or outward; without such marks pass zeros.
///
/// ```
/// use khsaemudol::{align_strong_points, Edge};
///
/// let edge = |fpos: i16, opos: i32, pos: i32| Edge::default().with_fpos(fpos).with_opos(opos).with_pos(pos);
/// let edges = [edge(0, 0, 0), edge(100, 61, 64)];
/// let originals = [31, 61, 92, 31, 31];
/// let (mut currents, mut touched) = (originals, [0, 0, 0, 1, 0]);
/// align_strong_points(&edges, &[50, 100, 150, 50, 50], &originals, &mut currents, &mut touched, &[0, 0, 0, 0, 1])?;
/// assert_eq!((currents, touched), ([32, 64, 95, 31, 31], [1, 1, 1, 1, 0]));
/// # Ok::<(), khsaemudol::Refusal>(())
/// ```
///
/// # Errors
///
/// [`Refusal::TooLong`], [`Refusal::BadIndex`], [`Refusal::OutOfRange`] or [`Refusal::TooSteep`]: the last where a strong point lies strictly between two edges whose positions are at least 32,768 times as far apart as their
/// font positions, or would come to a place that is not from -16,777,216 to 16,777,216.
pub fn align_strong_points(
    edges: &[Edge],
    fonts: &[i16],
    originals: &[i32],
    currents: &mut [i32],
    touched: &mut [u8],
    weak: &[u8],
) -> Result<(), Refusal> {
    Refusal::of(ffi::align_strong_points(
        edges, fonts, originals, currents, touched, weak,
    ))
}

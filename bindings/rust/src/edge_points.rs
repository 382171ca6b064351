//! From edges to points.

use crate::{ffi, Edge, Refusal, Segment};

/// How points are moved by the edges of their segments.
#[derive(Clone, Copy, Debug, PartialEq, Eq, Hash)]
pub struct Moving {
    /// Whether they come to their edge's position, as Latin's do; else they are moved as far as the edge was.
    pub snap: bool,
    /// Whether edges that are not done move nothing; else every edge moves its points.
    pub done_alone: bool,
}

/// Moves the points of segments to where the edges of these segments are, and touches them: their marks become 1.
///
/// The segments are taken in their order, each that has an edge from its first point to its last, around their contour: behind the contour's last point comes its first. With
/// `snap` the last one decides of a point that several have; without, each of them moves it. Every other point keeps its current and its mark.
///
/// ```
/// use khsaemudol::{align_edge_points, Edge, Flags, Moving, Segment};
///
/// // a bar whose upper side runs over the contour's start, from point 4 to point 0
/// let side = |edge: u16, first: u16, last: u16| Segment::default().with_edge(Some(edge)).with_first(first).with_last(last);
/// let segments = [side(1, 4, 0), side(0, 2, 3)];
/// let edge = |opos: i32, pos: i32| Edge::default().with_opos(opos).with_pos(pos).with_flags(Flags::DONE);
/// let edges = [edge(0, 0), edge(61, 64)];
/// let (mut currents, mut touched) = ([61, 31, 0, 0, 61], [0; 5]);
/// let moving = Moving { snap: true, done_alone: true };
/// align_edge_points(&segments, &edges, moving, &mut currents, &mut touched, &[4])?;
/// assert_eq!((currents, touched), ([64, 31, 0, 0, 64], [1, 0, 1, 1, 1]));
/// # Ok::<(), khsaemudol::Refusal>(())
/// ```
///
/// # Errors
///
/// [`Refusal::TooLong`], [`Refusal::BadIndex`] or [`Refusal::OutOfRange`]: the second where first and last of a segment with an edge are not points of one contour, and where an index of the axis
/// is beyond its list, as in [`turn_over`](crate::turn_over); the third where an edge by which points are moved is not within 65,535 units.
pub fn align_edge_points(
    segments: &[Segment],
    edges: &[Edge],
    moving: Moving,
    currents: &mut [i32],
    touched: &mut [u8],
    ends: &[u16],
) -> Result<(), Refusal> {
    let choices = [moving.snap.into(), moving.done_alone.into()];
    Refusal::of(ffi::align_edge_points(
        segments, edges, choices, currents, touched, ends,
    ))
}

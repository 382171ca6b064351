//! The edges that stems leave behind.

use crate::{ffi, field, Dimension, Edge, Group, Refusal, Stems};

/// Places the edges that zones and stems have left, by the count and the anchor that those handed back, and hands back the anchor: the same one, or the edge that became it.
///
/// A Latin edge goes by its serif, where that is less than 80 units away; else, where there is no anchor yet, it becomes the anchor; else it goes between the nearest done edges on
/// both sides; else by the anchor. It is done then, and held to its neighbours. CJK edges with a serif go by that, and are done; then the others, where the count is not used
/// up, go between done edges or with the only one, and are not done. Edges may be turned by it: [`lost_gaps`](crate::lost_gaps) tells.
///
/// ```
/// use khsaemudol::{align_remaining_edges, Dimension, Edge, Flags, Group, Mark, Stems};
///
/// let at = |opos: i32| Edge::default().with_opos(opos).with_pos(opos);
/// let placed = |opos: i32, pos: i32| at(opos).with_pos(pos).with_flags(Flags::DONE);
/// // between two placed edges, and a serif of the second
/// let mut edges = [placed(0, 0), at(50), placed(100, 128), at(130).with_serif(Some(2))];
/// let stems = Stems { passed_over: 2, anchor: Some(0) };
/// let anchor = align_remaining_edges(&mut edges, Dimension::Vertical, Group::Latin, stems)?;
/// assert_eq!(anchor, Some(0));
/// assert_eq!(edges.map(|edge| edge.pos()), [0, 64, 128, 158]);
/// assert_eq!((edges[1].mark(), edges[3].mark()), (Mark::Between, Mark::Serif));
/// # Ok::<(), khsaemudol::Refusal>(())
/// ```
///
/// # Errors
///
/// [`Refusal::TooLong`], [`Refusal::BadIndex`], [`Refusal::OutOfRange`] or [`Refusal::TooSteep`]: the last where an edge would be given a position that is not from -16,777,216 to 16,777,216.
pub fn align_remaining_edges(
    edges: &mut [Edge],
    dimension: Dimension,
    group: Group,
    stems: Stems,
) -> Result<Option<u16>, Refusal> {
    // more than are left are not told apart
    let count = u16::try_from(stems.passed_over).unwrap_or(u16::MAX);
    let numbers = [
        dimension as i32,
        group as i32,
        count.into(),
        field::index_word(stems.anchor),
    ];
    let mut found = -1;
    Refusal::of(ffi::align_remaining_edges(edges, numbers, &mut found))?;
    Ok(field::index(found))
}

//! The guard: what of a fitted axis does a display not show any more?

use crate::{ffi, field, Edge, Refusal};

/// What fitting lost between placed edges, as a display shows it.
#[derive(Clone, Copy, Debug, Default, PartialEq, Eq)]
pub struct LostGaps {
    /// How many gaps are lost.
    pub gaps: usize,
    /// How many stems are lost.
    pub stems: usize,
    /// The first pair of edges that is lost, of a gap or of a stem.
    pub first: Option<LostPair>,
    /// How many edges are not done: these are not guarded.
    pub not_done: usize,
}

/// Two edges between which a display shows nothing any more, or that are turned.
#[derive(Clone, Copy, Debug, PartialEq, Eq)]
pub struct LostPair {
    /// The lower edge.
    pub first: u16,
    /// The upper one.
    pub second: u16,
    /// How far apart they were, in units.
    pub before: i32,
    /// How far apart they are: below 0 where they are turned.
    pub after: i32,
}

/// Tells what fitting lost: gaps and stems that have no pixel row left on a display that colours a pixel by its centre, or that are turned.
///
/// A pair is two edges that count with none that counts between them in the list. Those count that are done, and with `linked` only those of them that have a link. The
/// pair is a stem where one names the other by link, else a gap. A gap is lost where it was at least `least` wide, 0 to 65,535 units, and is now turned, or without a pixel
/// row though it was above 0 wide; a stem, whatever its width. Rows are the centres 64 k + 32 from the first position on and below the second.
///
/// ```
/// use khsaemudol::{lost_gaps, Edge, Flags, LostGaps, LostPair};
///
/// let done = |opos: i32, pos: i32, link: u16| {
///     let edge = Edge::default().with_opos(opos).with_pos(pos);
///     edge.with_flags(Flags::DONE).with_link(Some(link))
/// };
/// // a bar from 87 to 157, and one from 223 on, which was fitted against it: 3 units are left, and no white row
/// let edges = [done(87, 119, 1), done(157, 189, 0), done(223, 192, 3), done(287, 256, 2)];
/// let pair = LostPair { first: 1, second: 2, before: 66, after: 3 };
/// let lost = LostGaps { gaps: 1, first: Some(pair), ..LostGaps::default() };
/// assert_eq!(lost_gaps(&edges, 32, true)?, lost);
/// assert_eq!(lost_gaps(&edges, 67, true)?, LostGaps::default());
/// # Ok::<(), khsaemudol::Refusal>(())
/// ```
///
/// # Errors
///
/// [`Refusal::TooLong`], [`Refusal::BadParameter`], [`Refusal::BadIndex`] or [`Refusal::OutOfRange`].
pub fn lost_gaps(edges: &[Edge], least: i32, linked: bool) -> Result<LostGaps, Refusal> {
    let mut places = [0, -1, -1, 0, 0, 0, 0];
    Refusal::of(ffi::lost_gaps(edges, least, linked.into(), &mut places))?;
    let [gaps, first, second, before, after, stems, not_done] = places;
    let pair = [first, second, before, after];
    Ok(LostGaps::of([gaps, stems, not_done], pair))
}

impl LostGaps {
    /// What the guard wrote: how many gaps and stems are lost and how many edges are not done, and of the first pair its edges and its widths.
    pub(crate) fn of(counts: [i32; 3], [first, second, before, after]: [i32; 4]) -> Self {
        let [gaps, stems, not_done] = counts.map(field::count);
        let named = field::index(first).zip(field::index(second));
        Self {
            gaps,
            stems,
            first: named.map(|(first, second)| LostPair {
                first,
                second,
                before,
                after,
            }),
            not_done,
        }
    }
}

//! Mending: which indices of a saved axis were altered, and what did they hold?

use crate::{
    ffi,
    field::{self, Field},
    Edge, Refusal, Segment, MOST_EDGES, MOST_SEGMENTS,
};
use alloc::{vec, vec::Vec};

/// The words of an alteration, and of the list of the most there can be.
const ALTERATION_WORDS: usize = 5;
const LIST_WORDS: usize = ALTERATION_WORDS * (3 * MOST_SEGMENTS + 4 * MOST_EDGES);

/// A field of a record that holds an index.
#[derive(Clone, Copy, Debug, PartialEq, Eq, Hash)]
pub enum LinkField {
    /// Its link.
    Link,
    /// Its serif.
    Serif,
    /// The next segment of its edge, of a segment.
    Next,
    /// Its first segment, of an edge.
    First,
    /// Its last segment, of an edge.
    Last,
}

/// One field that mending altered.
#[derive(Clone, Copy, Debug, PartialEq, Eq, Hash)]
pub struct Alteration {
    /// Whether the record is an edge; it is a segment where it is not.
    pub of_edge: bool,
    /// The index of the record.
    pub index: u16,
    /// The field.
    pub field: LinkField,
    /// What it held.
    pub was: Option<u16>,
    /// What it holds now.
    pub is: Option<u16>,
}

/// The fields that mending altered, segments before edges, each by index.
#[derive(Clone, Debug)]
pub struct Alterations {
    words: Vec<i32>,
    next: usize,
}

impl Iterator for Alterations {
    type Item = Alteration;

    fn next(&mut self) -> Option<Alteration> {
        let entry = self.words.get(self.next..self.next + ALTERATION_WORDS)?;
        self.next += ALTERATION_WORDS;
        Some(Alteration {
            of_edge: entry[0] == 1,
            index: u16::read(&entry[1..]),
            field: match entry[2] {
                0 => LinkField::Link,
                1 => LinkField::Serif,
                2 => LinkField::Next,
                3 => LinkField::First,
                _ => LinkField::Last,
            },
            was: field::index(entry[3]),
            is: field::index(entry[4]),
        })
    }

    fn size_hint(&self) -> (usize, Option<usize>) {
        let left = (self.words.len() - self.next) / ALTERATION_WORDS;
        (left, Some(left))
    }
}

impl ExactSizeIterator for Alterations {}

/// Mends an axis that was saved with indices of records that are gone, or with rings that do not close, and tells every field that it altered. Nothing is told where there
/// was nothing to mend.
///
/// A link or a serif beyond its list becomes none, and so does such a next of a segment without an edge. The ring of an edge that does not lead from its first segment over
/// each of its segments once to its last, and back, is made anew from the segments that name the edge, in rising order. Of an edge that no segment names none can be made.
///
/// ```
/// use khsaemudol::{mend, Edge, LinkField, Refusal, Segment};
///
/// let of = |edge: u16| Segment::default().with_edge(Some(edge));
/// // segment 1 should lead back to segment 0, and the link of segment 0 names a segment that is gone
/// let mut segments = [of(0).with_next(Some(1)).with_link(Some(600)), of(0)];
/// let mut edges = [Edge::default().with_last(1)];
/// let altered: Vec<_> = mend(&mut segments, &mut edges)?.map(|a| (a.index, a.field, a.was, a.is)).collect();
/// assert_eq!(altered, [(0, LinkField::Link, Some(600), None), (1, LinkField::Next, None, Some(0))]);
/// assert_eq!(mend(&mut segments, &mut edges)?.len(), 0);
///
/// assert_eq!(mend(&mut [], &mut edges).err(), Some(Refusal::BrokenRing));
/// # Ok::<(), Refusal>(())
/// ```
///
/// # Errors
///
/// [`Refusal::TooLong`], [`Refusal::OutOfRange`], [`Refusal::BadIndex`] or [`Refusal::BrokenRing`]: the third where a segment's edge is beyond the list, the last where an edge is no segment's.
pub fn mend(segments: &mut [Segment], edges: &mut [Edge]) -> Result<Alterations, Refusal> {
    let mut words = vec![0; LIST_WORDS];
    let mut count = 0;
    Refusal::of(ffi::mend(segments, edges, &mut words, &mut count))?;
    words.truncate(ALTERATION_WORDS * field::count(count));
    Ok(Alterations { words, next: 0 })
}

//! Why a call did nothing.

use core::fmt;

/// Why a call was refused. Nothing was written.
///
/// [`number`](Self::number) is the library's own number for it, and displayed it is one line for a log:
///
/// ```
/// use khsaemudol::Refusal;
///
/// assert_eq!((Refusal::BadIndex.number(), Refusal::BadIndex.name()), (3, "bad index"));
/// assert_eq!(
///     Refusal::BadIndex.to_string(),
///     "refused by 3: a contour end breaks its rule, or an index is not below its list's length"
/// );
/// ```
#[derive(Clone, Copy, Debug, PartialEq, Eq, Hash)]
#[non_exhaustive]
pub enum Refusal {
    /// 1: a list is longer than its limit (4,096 points, 512 segments, 128 edges; of a job that is written as a line 255 points and 255 contours), the point lists of an
    /// outline differ in length, a path has too little room, or a catalogue's counts do not fit its lists.
    TooLong,
    /// 2: a scale, units per em, a threshold, a gap's least width, the edge count of the m rule or how many times an outline is magnified is outside its limits, the standards of
    /// a width rule break its rule, or an edge has a zone on an axis that blues and stems in one call, and a whole axis in one, take none on.
    BadParameter,
    /// 3: a contour end breaks its rule, or a link, a serif, an anchor or an edge named in the call is not below its list's length, or a dragged point is not there or not touched; in turning over, in
    /// packing, for edge points and for a whole axis also any other index, for the last two also a segment that does not run along one contour.
    BadIndex,
    /// 4: a coordinate, position, score, len or delta is outside its limits; in building also a scaled position.
    OutOfRange,
    /// 5: building calls for more than 128 edges.
    NoRoom,
    /// 6: a line of a log is not a whole frame.
    NotFrame,
    /// 7: the segments of an edge are no sound ring; in mending: an edge has no segments, of which a ring could be made.
    BrokenRing,
    /// 8: an untouched point lies between two touched ones that were 2 units apart and are 65,536 or more, or were 3 and are 98,304 or more; of remaining edges and of strong
    /// points: one would be given a position that is not accepted; of these also: one lies between two edges that are 32,768 times as far apart as their font positions, or more.
    TooSteep,
    /// 9: remembered references are not those of these marks and contours.
    NotMatching,
    /// 10: the order from top to bottom is asked for, which is retired.
    Retired,
    /// 255: a word is none of its field's values. Records made by this crate have no such words, and no call of it answers so.
    NotWords,
    /// A number of a later library, which this crate does not know.
    Other(u8),
}

impl Refusal {
    /// What an answer means.
    pub(crate) fn of(answer: u8) -> Result<(), Self> {
        Err(match answer {
            0 => return Ok(()),
            1 => Self::TooLong,
            2 => Self::BadParameter,
            3 => Self::BadIndex,
            4 => Self::OutOfRange,
            5 => Self::NoRoom,
            6 => Self::NotFrame,
            7 => Self::BrokenRing,
            8 => Self::TooSteep,
            9 => Self::NotMatching,
            10 => Self::Retired,
            255 => Self::NotWords,
            other => Self::Other(other),
        })
    }

    /// The number by which the library answered.
    #[must_use]
    pub const fn number(self) -> u8 {
        match self {
            Self::TooLong => 1,
            Self::BadParameter => 2,
            Self::BadIndex => 3,
            Self::OutOfRange => 4,
            Self::NoRoom => 5,
            Self::NotFrame => 6,
            Self::BrokenRing => 7,
            Self::TooSteep => 8,
            Self::NotMatching => 9,
            Self::Retired => 10,
            Self::NotWords => 255,
            Self::Other(number) => number,
        }
    }

    /// Its name, for logs.
    #[must_use]
    pub const fn name(self) -> &'static str {
        match self {
            Self::TooLong => "too long",
            Self::BadParameter => "bad parameter",
            Self::BadIndex => "bad index",
            Self::OutOfRange => "out of range",
            Self::NoRoom => "no room",
            Self::NotFrame => "not a frame",
            Self::BrokenRing => "broken ring",
            Self::TooSteep => "too steep",
            Self::NotMatching => "not matching",
            Self::Retired => "retired",
            Self::NotWords => "not words",
            Self::Other(_) => "unknown",
        }
    }

    /// What is wrong.
    const fn reason(self) -> &'static str {
        match self {
            Self::TooLong => "a list is longer than its limit, a room is too small, the point lists differ in length, or a catalogue's counts do not fit its lists",
            Self::BadParameter => "a parameter or the width rule's list is outside its limits, or a zone is on an axis that has none",
            Self::BadIndex => {
                "a contour end breaks its rule, or an index is not below its list's length"
            }
            Self::OutOfRange => "a coordinate, position, score, len or delta is outside its limits",
            Self::NoRoom => "the segments make more edges than there is room for",
            Self::NotFrame => "the line is not a whole frame",
            Self::BrokenRing => "the segments of an edge are no sound ring",
            Self::TooSteep => "two touched points, or two edges, that were close are too far apart for what is placed by them",
            Self::NotMatching => "the references are not those of these marks and contours",
            Self::Retired => "the order from top to bottom is retired",
            Self::NotWords => "a word is none of its field's values",
            Self::Other(_) => "this number is not known here",
        }
    }
}

impl fmt::Display for Refusal {
    fn fmt(&self, f: &mut fmt::Formatter<'_>) -> fmt::Result {
        write!(f, "refused by {}: {}", self.number(), self.reason())
    }
}

#[cfg(feature = "std")]
impl std::error::Error for Refusal {}

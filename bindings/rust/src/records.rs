//! Edges and segments. The layout of a record is the library's words, so that calls take lists of records as they stand and nothing is copied; what is read and written
//! are typed fields, whose words are always those of their field.

use crate::{
    field::{Direction, Field, Flags, Mark},
    refusal::Refusal,
};
use core::fmt;

/// Declares a record of so many words by its fields: where each begins, its type, what it is in the empty record where that is not its type's default, and the names to set it
/// and to make a record with it.
macro_rules! record {
    ($(#[$doc:meta])* $name:ident, $words:ident, $($(#[$field_doc:meta])* $at:literal $field:ident: $type:ty $(= $default:expr)?, $set:ident, $with:ident;)*) => {
        $(#[$doc])*
        #[derive(Clone, Copy, PartialEq, Eq, Hash)]
        #[repr(transparent)]
        pub struct $name([i32; $words]);

        impl $name {
            $(
                $(#[$field_doc])*
                #[must_use]
                pub fn $field(&self) -> $type {
                    <$type>::read(&self.0[$at..])
                }

                #[doc = concat!("Sets [`", stringify!($field), "`](Self::", stringify!($field), ").")]
                pub fn $set(&mut self, $field: $type) {
                    $field.write(&mut self.0[$at..]);
                }

                #[doc = concat!("The same with another [`", stringify!($field), "`](Self::", stringify!($field), ").")]
                #[must_use]
                pub fn $with(mut self, $field: $type) -> Self {
                    self.$set($field);
                    self
                }
            )*
        }

        /// The empty record: every number 0, every link none.
        impl Default for $name {
            fn default() -> Self {
                Self([0; $words])$(.$with(<$type>::default())$(.$with($default))?)*
            }
        }

        impl fmt::Debug for $name {
            fn fmt(&self, f: &mut fmt::Formatter<'_>) -> fmt::Result {
                f.debug_struct(stringify!($name))$(.field(stringify!($field), &self.$field()))*.finish()
            }
        }

        /// The words in the order of the C struct, as logs have them.
        impl From<$name> for [i32; $words] {
            fn from(record: $name) -> Self {
                record.0
            }
        }

        /// [`Refusal::NotWords`] where a word is none of its field's values.
        impl TryFrom<[i32; $words]> for $name {
            type Error = Refusal;

            fn try_from(words: [i32; $words]) -> Result<Self, Refusal> {
                let given = Self(words);
                let read = Self::default()$(.$with(given.$field()))*;
                (read == given).then_some(read).ok_or(Refusal::NotWords)
            }
        }
    };
}

/// The words of an edge.
pub const EDGE_WORDS: usize = 12;

/// The words of a segment.
pub const SEGMENT_WORDS: usize = 15;

record! {
    /// An edge of an axis, made by [`compute_edges`](crate::compute_edges) or field by field:
    ///
    /// ```
    /// use khsaemudol::{Edge, Flags, Mark};
    ///
    /// let mut edge = Edge::default().with_opos(100).with_pos(128).with_link(Some(1));
    /// edge.set_flags(edge.flags() | Flags::DONE);
    /// assert_eq!(edge.link(), Some(1));
    /// assert_eq!(edge.serif(), None);
    /// assert_eq!(edge.mark(), Mark::Nothing);
    /// ```
    Edge, EDGE_WORDS,
    /// The position, in design units.
    0 fpos: i16, set_fpos, with_fpos;
    /// The scaled position, in units; accepted from -65,535 to 65,535.
    1 opos: i32, set_opos, with_opos;
    /// The fitted position, in units; accepted from -16,777,216 to 16,777,216.
    2 pos: i32, set_pos, with_pos;
    /// What is known of the edge.
    3 flags: Flags, set_flags, with_flags;
    /// Where its segments run to.
    4 dir: Direction, set_dir, with_dir;
    /// The fitted position of its blue zone, in units, where it has one; accepted from -65,535 to 65,535.
    5 blue: Option<i32>, set_blue, with_blue;
    /// The edge on the other side of its stem.
    7 link: Option<u16>, set_link, with_link;
    /// The edge that this one is a serif of.
    8 serif: Option<u16>, set_serif, with_serif;
    /// Its first segment.
    9 first: u16, set_first, with_first;
    /// Its last segment.
    10 last: u16, set_last, with_last;
    /// What last gave it its position.
    11 mark: Mark, set_mark, with_mark;
}

record! {
    /// A segment of an axis: points in a row at one position.
    ///
    /// ```
    /// use khsaemudol::{Direction, Segment};
    ///
    /// let segment = Segment::default().with_dir(Direction::Right).with_pos(712).with_min_coord(160).with_max_coord(340);
    /// assert_eq!((segment.pos(), segment.link(), segment.edge()), (712, None, None));
    /// ```
    Segment, SEGMENT_WORDS,
    /// What is known of the segment.
    0 flags: Flags, set_flags, with_flags;
    /// Where it runs to.
    1 dir: Direction, set_dir, with_dir;
    /// Its position on the axis, in design units, as the next four.
    2 pos: i16, set_pos, with_pos;
    /// How far its points are from that.
    3 delta: i16, set_delta, with_delta;
    /// From where on the other axis.
    4 min_coord: i16, set_min_coord, with_min_coord;
    /// To where on the other axis.
    5 max_coord: i16, set_max_coord, with_max_coord;
    /// Its length.
    6 height: i16, set_height, with_height;
    /// How bad its link is, 32,000 before linking; accepted from 0 to 65,535.
    7 score: i32, set_score, with_score;
    /// How far it and its link overlap, the `len` of the C struct: 0 before linking; accepted from 0 to 65,535.
    8 overlap: i32, set_overlap, with_overlap;
    /// The segment on the other side of its stem.
    9 link: Option<u16>, set_link, with_link;
    /// The segment that this one is a serif of.
    10 serif: Option<u16>, set_serif, with_serif;
    /// Its first point, for the caller.
    11 first: u16, set_first, with_first;
    /// Its last point, for the caller.
    12 last: u16, set_last, with_last;
    /// The edge that it belongs to.
    13 edge: Option<u16>, set_edge, with_edge;
    /// The next segment of its edge, which form a ring.
    14 next: Option<u16>, set_next, with_next;
}

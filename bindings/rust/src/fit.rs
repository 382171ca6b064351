//! An axis in one call, from its edges to its points.

use crate::{ffi, field, Dimension, Edge, Group, LostGaps, Moving, Refusal, Segment, WidthRule};

/// What fitting an axis is told beside its lists.
#[derive(Clone, Copy, Debug, PartialEq, Eq)]
pub struct Fitting<'a> {
    /// The dimension of the axis.
    pub dimension: Dimension,
    /// The group whose rules apply.
    pub group: Group,
    /// Whether CJK stems may be moved as far as it takes.
    pub stem_adjust: bool,
    /// How points are moved by the edges of their segments: it is taken as it is given, and Latin's are to be snapped.
    pub moving: Moving,
    /// How widths are fitted.
    pub rule: WidthRule<'a>,
    /// Whether the glyph is an m, whose stems are evened out on its horizontal axis.
    pub lowercase_m: bool,
    /// The least width of a gap that is lost, 0 to 65,535 units, as in [`lost_gaps`](crate::lost_gaps).
    pub least: i32,
    /// Whether only edges with a link are sides of a gap, as there.
    pub linked: bool,
}

/// The points of an axis: what of them is read. Their currents and touch marks are lent to [`fit_axis`].
#[derive(Clone, Copy, Debug, PartialEq, Eq)]
pub struct AxisPoints<'a> {
    /// Their positions in design units.
    pub fonts: &'a [i16],
    /// Their scaled coordinates in units.
    pub originals: &'a [i32],
    /// Which of them are weak; any nonzero mark means so.
    pub weak: &'a [u8],
    /// The last points of the contours.
    pub ends: &'a [u16],
}

/// What fitting an axis hands back.
#[derive(Clone, Copy, Debug, PartialEq, Eq)]
pub struct Fitted {
    /// What was lost between placed edges, as a display shows it.
    pub lost: LostGaps,
    /// How many edges the stems passed over.
    pub passed_over: usize,
    /// The anchor in the end, behind remaining edges.
    pub anchor: Option<u16>,
}

/// Fits an axis behind building, from its edges to its points, in one call.
///
/// It leaves and hands back what these calls in a row do: [`align_blues_and_stems`](crate::align_blues_and_stems); of an m with 6 or 12 edges on its horizontal axis
/// [`hint_lowercase_m`](crate::hint_lowercase_m); where stems passed over edges or there is no anchor [`align_remaining_edges`](crate::align_remaining_edges);
/// [`lost_gaps`](crate::lost_gaps); [`align_edge_points`](crate::align_edge_points), [`align_strong_points`](crate::align_strong_points) and
/// [`align_weak_points`](crate::align_weak_points). It fits on where something is lost: whether the glyph is shown is the caller's choice, by that and by
/// [`count_shown`](crate::count_shown) of the whole glyph.
///
/// The lists have one entry for each point. On an axis that is not fitted yet `currents` are the originals, and no point is touched.
///
/// ```
/// use khsaemudol::{fit_axis, AxisPoints, Dimension, Edge, Fitting, Group, Moving, Refusal, Segment, WidthRule};
///
/// // a bar from 0 to 80 at 12 pixels to the em, whose foot has its zone at 0; its upper side runs over the contour's start, and point 1 lies between the sides
/// let side = |edge: u16, first: u16, last: u16| Segment::default().with_edge(Some(edge)).with_first(first).with_last(last);
/// let segments = [side(1, 4, 0), side(0, 2, 3)];
/// let edge = |fpos: i16, opos: i32, link: u16| Edge::default().with_fpos(fpos).with_opos(opos).with_pos(opos).with_link(Some(link));
/// let mut edges = [edge(0, 0, 1).with_blue(Some(0)), edge(80, 61, 0)];
/// let mut given = Fitting {
///     dimension: Dimension::Vertical,
///     group: Group::Latin,
///     stem_adjust: false,
///     moving: Moving { snap: true, done_alone: false },
///     rule: WidthRule::Snap(&[64]),
///     lowercase_m: false,
///     least: 32,
///     linked: true,
/// };
/// let originals = [61, 31, 0, 0, 61];
/// let points = AxisPoints { fonts: &[80, 40, 0, 0, 80], originals: &originals, weak: &[0; 5], ends: &[4] };
/// let (mut currents, mut touched) = (originals, [0; 5]);
///
/// // no gap is so wide
/// given.least = 65_536;
/// let refused = fit_axis(&segments, &mut edges, &given, &points, &mut currents, &mut touched);
/// assert_eq!((refused, currents, touched), (Err(Refusal::BadParameter), originals, [0; 5]));
///
/// given.least = 32;
/// let fitted = fit_axis(&segments, &mut edges, &given, &points, &mut currents, &mut touched)?;
/// assert_eq!((fitted.lost.gaps, fitted.lost.stems, fitted.anchor), (0, 0, Some(0)));
/// assert_eq!(edges.map(|edge| edge.pos()), [0, 64]);
/// assert_eq!((currents, touched), ([64, 32, 0, 0, 64], [1; 5]));
/// # Ok::<(), Refusal>(())
/// ```
///
/// # Errors
///
/// [`Refusal::TooLong`], [`Refusal::BadParameter`], [`Refusal::BadIndex`], [`Refusal::OutOfRange`] or [`Refusal::TooSteep`]: that of the first test that applies, over all that is given and then step by step. Whichever it is, edges, currents
/// and marks are as they came.
pub fn fit_axis(
    segments: &[Segment],
    edges: &mut [Edge],
    given: &Fitting<'_>,
    points: &AxisPoints<'_>,
    currents: &mut [i32],
    touched: &mut [u8],
) -> Result<Fitted, Refusal> {
    let (rule, standards) = given.rule.parts();
    let numbers = given.words(rule);
    let mut told = [0; 9];
    Refusal::of(ffi::fit_axis(
        segments,
        edges,
        (&numbers, standards),
        points,
        currents,
        touched,
        &mut told,
    ))?;
    Ok(Fitted::of(told))
}

impl Fitting<'_> {
    /// The words of the C struct, with the width rule's.
    fn words(&self, rule: i32) -> [i32; 9] {
        [
            self.dimension as i32,
            self.group as i32,
            self.stem_adjust.into(),
            self.moving.snap.into(),
            self.moving.done_alone.into(),
            rule,
            self.lowercase_m.into(),
            self.least,
            self.linked.into(),
        ]
    }
}

impl Fitted {
    /// What the words of the C struct say.
    fn of(words: [i32; 9]) -> Self {
        let [gaps, stems, not_done, first, second, before, after, passed_over, anchor] = words;
        Self {
            lost: LostGaps::of([gaps, stems, not_done], [first, second, before, after]),
            passed_over: field::count(passed_over),
            anchor: field::index(anchor),
        }
    }
}

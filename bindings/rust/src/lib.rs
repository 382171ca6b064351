//! Safe calls of `libkhsaemudol.a`, the verified grid fitter, for gateways and boards programmed in Rust.
//!
//! Lengths and positions "in units" are 26.6: 64 units make a pixel. Font positions are whole design units. A scale is 16.16 and takes these to units: it is pixels per em * 64 * 65,536 /
//! units per em, and a position p comes to p * scale / 65,536, to the nearest, halves away from zero. What a call is lent is changed in place, and not at all where it is refused:
//!
//! ```
//! use khsaemudol::{align_weak_points, Refusal};
//!
//! let mut currents = [5, 99, 20];
//! align_weak_points(&[0, 10, 20], &mut currents, &[1, 0, 0], &[2])?;
//! assert_eq!(currents, [5, 15, 25]);
//!
//! // a contour that ends behind the last point
//! assert_eq!(align_weak_points(&[0, 10, 20], &mut currents, &[1, 0, 0], &[3]), Err(Refusal::BadIndex));
//! assert_eq!(currents, [5, 15, 25]);
//! # Ok::<(), Refusal>(())
//! ```
//!
//! # The chain
//!
//! An axis of a glyph goes through the calls so; `include/khsaemudol.h`, which is beside the library, says more of each.
//!
//! 1. The caller finds the segments, and begins each with [`Segment::default`] and a score of 32,000. [`link_segments_cjk`] links those of [`Group::Cjk`]. Those of [`Group::Latin`] the caller links: the two
//!    sides of a stem name each other by `link`; a serif names by `serif` the segment that it is a serif of, and no link.
//! 2. [`compute_edges`] makes edges of them.
//! 3. The caller gives the edges at heights that glyphs share their zones, by [`Edge::set_blue`].
//! 4. [`fit_axis`] places the edges, moves the points by them, and tells what a display does not show any more. It is [`align_blues_and_stems`], [`hint_lowercase_m`] of an m,
//!    [`align_remaining_edges`], [`lost_gaps`], [`align_edge_points`], [`align_strong_points`] and [`align_weak_points`] in a row, for who wants to look in between.
//!
//! When both axes are fitted, [`count_shown`] tells what the pixels look like, and [`path()`] hands out the path. A saved axis goes through [`mend`] where its indices may be broken, through
//! [`turn_over`] where it was saved from top to bottom, and through [`pack_axis`] before it is sent.
//!
//! # What to pass
//!
//! The thresholds of [`Building`] are design units, in whole numbers, where s is the axis's scale:
//!
//! | threshold | pass | read |
//! |---|---|---|
//! | `distance` | a fifth of the font's standard width on this axis, which is the least width of the stems of its standard letter, an o for Latin, or 50 * units per em / 2,048 where that has none | by both groups; at most a quarter of a pixel counts |
//! | `length` | 0 on the vertical axis; on the horizontal one a pixel by the vertical axis's scale v, (64 * 65,536 + v / 2) / v | by Latin alone |
//! | `width` | half a pixel, (32 * 65,536 + s / 2) / s | by Latin alone |
//!
//! For a display without grey let the standards of [`WidthRule::Snap`] be whole pixels, and `stem_adjust` true.
//!
//! # Limits
//!
//! | what | is | else |
//! |---|---|---|
//! | points of an outline | at most 4,096 | [`Refusal::TooLong`] |
//! | segments of an axis | at most 512, [`MOST_SEGMENTS`] | [`Refusal::TooLong`] |
//! | edges of an axis | at most 128, [`MOST_EDGES`] | [`Refusal::TooLong`], in building [`Refusal::NoRoom`] |
//! | a scale | 1 to 16,777,216 | [`Refusal::BadParameter`] |
//! | units per em | 16 to 16,384 | [`Refusal::BadParameter`] |
//! | a threshold, the least width of a gap | 0 to 65,535 | [`Refusal::BadParameter`] |
//! | standards | 0 to 16, strictly rising, each 1 to 16,383 | [`Refusal::BadParameter`] |
//! | an index | below its list's length | [`Refusal::BadIndex`] |
//! | contour ends | strictly rising, each below the count of points | [`Refusal::BadIndex`] |
//! | originals and currents, scaled positions and zones of edges | -65,535 to 65,535 | [`Refusal::OutOfRange`] |
//! | fitted positions of edges | -16,777,216 to 16,777,216 | [`Refusal::OutOfRange`] |
//! | score and overlap of segments | 0 to 65,535 | [`Refusal::OutOfRange`] |
//! | coordinates of a path | -196,605 to 196,605 | [`Refusal::OutOfRange`] |
//!
//! # Features
//!
//! `std`, the default, makes [`Refusal`] a `std::error::Error`, and includes `alloc`, which is for what hands back lists: [`Catalogue::align`], [`Job`], [`mend`] and [`References`]. Without
//! both the crate is `no_std` and asks for no allocator, as a board has none. The library is looked for in the folder that the environment variable `KHS_LIB_DIR` names, by its whole path,
//! and where that is not set in `target/` of the repository. Ask [`version_fits`] once, at the start.

#![no_std]
#![deny(unsafe_code)]
#![warn(missing_docs, missing_debug_implementations, clippy::pedantic)]

#[cfg(feature = "alloc")]
extern crate alloc;
#[cfg(feature = "std")]
extern crate std;

mod choices;
mod drag;
mod edge_points;
#[allow(unsafe_code)]
#[cfg_attr(not(feature = "alloc"), allow(dead_code))]
mod ffi;
mod field;
mod fit;
mod gaps;
mod joined;
#[cfg(feature = "alloc")]
mod log;
#[cfg(feature = "alloc")]
mod mend;
mod path;
mod records;
#[cfg(feature = "alloc")]
mod references;
mod refusal;
mod remaining;
mod shown;
mod strong;
mod version;

pub use choices::{Dimension, Group, Neighbour, Order, WidthRule};
pub use drag::drag_point;
pub use edge_points::{align_edge_points, Moving};
pub use field::{Direction, Flags, Mark};
pub use fit::{fit_axis, AxisPoints, Fitted, Fitting};
pub use gaps::{lost_gaps, LostGaps, LostPair};
pub use joined::{align_blues_and_stems, BluesAndStems};
#[cfg(feature = "alloc")]
pub use log::{Job, MOST_DIGITS};
#[cfg(feature = "alloc")]
pub use mend::{mend, Alteration, Alterations, LinkField};
pub use path::{path, path_step, Outline, Path, PathStep, PixelPoint};
pub use records::{Edge, Segment, EDGE_WORDS, SEGMENT_WORDS};
#[cfg(feature = "alloc")]
pub use references::References;
pub use refusal::Refusal;
pub use remaining::align_remaining_edges;
pub use shown::{count_shown, Shown};
pub use strong::align_strong_points;
pub use version::{version, version_fits, VERSION};

/// The most edges of an axis.
pub const MOST_EDGES: usize = 128;

/// The most segments of an axis.
pub const MOST_SEGMENTS: usize = 512;

/// The middle of two coordinates: their sum, halved downward; the sum wraps around at 32 bits, and the half's low 16 bits are the answer.
///
/// ```
/// assert_eq!(khsaemudol::compute_mid_pos(10, 15), 12);
/// ```
#[must_use]
pub fn compute_mid_pos(min: i32, max: i32) -> i16 {
    ffi::compute_mid_pos(min, max)
}

/// Half the difference of two coordinates, in the same way.
///
/// ```
/// assert_eq!(khsaemudol::compute_mid_delta(10, 15), 2);
/// ```
#[must_use]
pub fn compute_mid_delta(min: i32, max: i32) -> i16 {
    ffi::compute_mid_delta(min, max)
}

/// Aligns the weak points of one axis: the currents of untouched points follow the touched ones around their contour.
///
/// The lists have one entry for each point, coordinates from -65,535 to 65,535 units, and any nonzero mark means touched; `ends` are the last points of the contours.
///
/// # Errors
///
/// [`Refusal::TooLong`], [`Refusal::BadIndex`], [`Refusal::OutOfRange`] or [`Refusal::TooSteep`], tested in this order.
pub fn align_weak_points(
    originals: &[i32],
    currents: &mut [i32],
    touched: &[u8],
    ends: &[u16],
) -> Result<(), Refusal> {
    Refusal::of(ffi::align_weak_points(originals, currents, touched, ends))
}

/// The outlines of a catalogue on one axis, one behind another in shared lists: what of them is read. Their currents are lent to [`align`](Self::align).
#[derive(Clone, Copy, Debug, PartialEq, Eq)]
pub struct Catalogue<'a> {
    /// The originals of all points.
    pub originals: &'a [i32],
    /// The touch marks of all points; any nonzero mark means touched.
    pub touched: &'a [u8],
    /// The contour ends of all outlines, each an index from its own outline's first point on.
    pub ends: &'a [u16],
    /// How many points each outline has.
    pub point_counts: &'a [u16],
    /// How many contours each outline has.
    pub contour_counts: &'a [u16],
}

impl Catalogue<'_> {
    /// Aligns the weak points of every outline in one call, and hands back the answer of each, as [`align_weak_points`] gives it: a refused outline keeps its currents, and the others are
    /// aligned all the same.
    ///
    /// ```
    /// use khsaemudol::{Catalogue, Refusal};
    ///
    /// let catalogue = Catalogue {
    ///     originals: &[0, 10, 7],
    ///     touched: &[1, 0, 0],
    ///     ends: &[1, 2],
    ///     point_counts: &[2, 1, 0],
    ///     contour_counts: &[1, 1, 0],
    /// };
    /// let mut currents = [5, 10, 9];
    /// // the second outline's contour ends behind its only point; the third is empty
    /// assert_eq!(catalogue.align(&mut currents)?, [Ok(()), Err(Refusal::BadIndex), Ok(())]);
    /// assert_eq!(currents, [5, 15, 9]);
    /// # Ok::<(), Refusal>(())
    /// ```
    ///
    /// # Errors
    ///
    /// [`Refusal::TooLong`] where the counts do not add up to the lists, or are not equally many. No refusal of an outline is one of the whole call.
    #[cfg(feature = "alloc")]
    pub fn align(
        &self,
        currents: &mut [i32],
    ) -> Result<alloc::vec::Vec<Result<(), Refusal>>, Refusal> {
        let mut answers = alloc::vec![0; self.point_counts.len()];
        Refusal::of(ffi::align_catalogue(self, currents, &mut answers))?;
        Ok(answers.into_iter().map(Refusal::of).collect())
    }
}

/// Links the segments of an axis by CJK's rules: their link, serif, score and overlap.
///
/// ```
/// use khsaemudol::{link_segments_cjk, Direction, Segment};
///
/// let side = Segment::default().with_max_coord(200).with_score(32_000);
/// let mut segments = [side.with_dir(Direction::Up), side.with_dir(Direction::Down).with_pos(100)];
/// link_segments_cjk(&mut segments, Direction::Up, 1_000, 65_536)?;
/// assert_eq!(segments.map(|segment| segment.link()), [Some(1), Some(0)]);
/// # Ok::<(), khsaemudol::Refusal>(())
/// ```
///
/// # Errors
///
/// [`Refusal::TooLong`], [`Refusal::BadParameter`], [`Refusal::BadIndex`] or [`Refusal::OutOfRange`].
pub fn link_segments_cjk(
    segments: &mut [Segment],
    major: Direction,
    units_per_em: i32,
    scale: i32,
) -> Result<(), Refusal> {
    let answer = ffi::link_segments_cjk(segments, major as i32, units_per_em, scale);
    Refusal::of(answer)
}

/// What edges are built by.
#[derive(Clone, Copy, Debug, PartialEq, Eq)]
pub struct Building {
    /// The dimension of the axis.
    pub dimension: Dimension,
    /// The direction in which the lower or left side of a stem runs.
    pub major: Direction,
    /// The group whose rules apply.
    pub group: Group,
    /// The order of the edges.
    pub order: Order,
    /// The scale, 1 to 16,777,216.
    pub scale: i32,
    /// Less than this apart segments share an edge. It is a threshold, as the next two: [what to pass](crate#what-to-pass).
    pub distance: i32,
    /// Below this a segment is too short for an edge; 0 on the vertical axis.
    pub length: i32,
    /// Above this a segment strays too far.
    pub width: i32,
}

/// Builds the edges of linked segments in the front of a room, and hands back those that were built; what stands behind them stays. The segments learn their edges.
///
/// ```
/// use khsaemudol::{compute_edges, Building, Dimension, Direction, Edge, Group, Order, Segment, MOST_EDGES};
///
/// let side = Segment::default().with_max_coord(200).with_height(200);
/// let mut segments = [
///     side.with_dir(Direction::Left).with_pos(325).with_link(Some(1)),
///     side.with_dir(Direction::Right).with_pos(405).with_link(Some(0)),
/// ];
/// let building = Building {
///     dimension: Dimension::Vertical,
///     major: Direction::Left,
///     group: Group::Latin,
///     order: Order::BottomToTop,
///     scale: 65_536,
///     distance: 16,
///     length: 0,
///     width: 32,
/// };
/// let mut room = [Edge::default(); MOST_EDGES];
/// let edges = compute_edges(&mut segments, &mut room, &building)?;
/// assert_eq!(edges.len(), 2);
/// assert_eq!((edges[0].fpos(), edges[0].link()), (325, Some(1)));
/// assert_eq!(segments[0].edge(), Some(0));
/// # Ok::<(), khsaemudol::Refusal>(())
/// ```
///
/// # Errors
///
/// [`Refusal::TooLong`], [`Refusal::Retired`], [`Refusal::BadParameter`], [`Refusal::BadIndex`], [`Refusal::OutOfRange`] or [`Refusal::NoRoom`].
pub fn compute_edges<'a>(
    segments: &mut [Segment],
    room: &'a mut [Edge; MOST_EDGES],
    given: &Building,
) -> Result<&'a mut [Edge], Refusal> {
    let numbers = [
        given.dimension as i32,
        given.major as i32,
        given.group as i32,
        given.order as i32,
        given.scale,
        given.distance,
        given.length,
        given.width,
    ];
    let mut count = 0;
    Refusal::of(ffi::compute_edges(segments, room, numbers, &mut count))?;
    Ok(&mut room[..field::count(count)])
}

/// Puts edges on their blue zones, and hands back the anchor.
///
/// ```
/// use khsaemudol::{align_edges_to_blues, Dimension, Edge, Flags, Group, Mark, WidthRule};
///
/// let mut edges = [
///     Edge::default().with_opos(-9).with_pos(-9).with_blue(Some(0)).with_link(Some(1)),
///     Edge::default().with_opos(52).with_pos(52).with_link(Some(0)),
/// ];
/// let anchor = align_edges_to_blues(&mut edges, Dimension::Vertical, Group::Latin, WidthRule::Snap(&[64]))?;
/// assert_eq!(anchor, Some(0));
/// assert_eq!(edges.map(|edge| edge.pos()), [0, 64]);
/// assert_eq!(edges.map(|edge| edge.mark()), [Mark::BlueAnchor, Mark::Linked]);
/// assert!(edges[1].flags().contains(Flags::DONE));
/// # Ok::<(), khsaemudol::Refusal>(())
/// ```
///
/// # Errors
///
/// [`Refusal::TooLong`], [`Refusal::BadParameter`], [`Refusal::BadIndex`] or [`Refusal::OutOfRange`].
pub fn align_edges_to_blues(
    edges: &mut [Edge],
    dimension: Dimension,
    group: Group,
    rule: WidthRule<'_>,
) -> Result<Option<u16>, Refusal> {
    let (dim, group) = (dimension as i32, group as i32);
    let mut anchor = -1;
    let answer = ffi::align_edges_to_blues(edges, dim, group, rule.parts(), &mut anchor);
    Refusal::of(answer)?;
    Ok(field::index(anchor))
}

/// Places the stem edge at its fitted width from the base edge.
///
/// ```
/// use khsaemudol::{align_linked_edge, Edge, WidthRule};
///
/// let mut edges = [Edge::default().with_pos(32), Edge::default().with_opos(60)];
/// align_linked_edge(&mut edges, WidthRule::Snap(&[64]), 0, 1)?;
/// assert_eq!(edges[1].pos(), 32 + 64);
/// # Ok::<(), khsaemudol::Refusal>(())
/// ```
///
/// # Errors
///
/// [`Refusal::TooLong`], [`Refusal::BadParameter`], [`Refusal::BadIndex`] or [`Refusal::OutOfRange`].
pub fn align_linked_edge(
    edges: &mut [Edge],
    rule: WidthRule<'_>,
    base: u16,
    stem: u16,
) -> Result<(), Refusal> {
    let answer = ffi::align_linked_edge(edges, rule.parts(), base.into(), stem.into());
    Refusal::of(answer)
}

/// Places the serif edge as far from the base edge as it was.
///
/// ```
/// use khsaemudol::{align_serif_edge, Edge};
///
/// let mut edges = [Edge::default().with_pos(32), Edge::default().with_opos(60)];
/// align_serif_edge(&mut edges, 0, 1)?;
/// assert_eq!(edges[1].pos(), 32 + 60);
/// # Ok::<(), khsaemudol::Refusal>(())
/// ```
///
/// # Errors
///
/// [`Refusal::TooLong`], [`Refusal::BadIndex`] or [`Refusal::OutOfRange`].
pub fn align_serif_edge(edges: &mut [Edge], base: u16, serif: u16) -> Result<(), Refusal> {
    Refusal::of(ffi::align_serif_edge(edges, base.into(), serif.into()))
}

/// Gives an edge the position of its neighbour where it has passed it and its link is more than 16 units from the previous edge.
///
/// ```
/// use khsaemudol::{adjust_link, Edge, Neighbour, Order};
///
/// let at = |pos: i32| Edge::default().with_pos(pos);
/// let mut edges = [at(100), at(90).with_link(Some(2)), at(160)];
/// adjust_link(&mut edges, 1, Neighbour::Previous, Order::BottomToTop)?;
/// assert_eq!(edges[1].pos(), 100);
/// # Ok::<(), khsaemudol::Refusal>(())
/// ```
///
/// # Errors
///
/// [`Refusal::TooLong`], [`Refusal::Retired`], [`Refusal::BadIndex`] or [`Refusal::OutOfRange`].
pub fn adjust_link(
    edges: &mut [Edge],
    edge: u16,
    neighbour: Neighbour,
    order: Order,
) -> Result<(), Refusal> {
    let answer = ffi::adjust_link(edges, edge.into(), neighbour as i32, order as i32);
    Refusal::of(answer)
}

/// The neighbours of a remaining edge in its list.
#[derive(Clone, Copy, Debug, PartialEq, Eq)]
pub struct Bounds {
    /// The edge before it, where there is one, done or not.
    pub lower: Option<u16>,
    /// The edge behind it, where there is one that is done.
    pub upper: Option<u16>,
}

/// Finds the neighbours of a remaining edge in its list. It is not placed between these: step 5 of the header's chain says how it is.
///
/// ```
/// use khsaemudol::{latin_remaining_bounds, Bounds, Edge, Flags};
///
/// let edges = [Edge::default(), Edge::default(), Edge::default().with_flags(Flags::DONE)];
/// assert_eq!(latin_remaining_bounds(&edges, 1)?, Bounds { lower: Some(0), upper: Some(2) });
/// # Ok::<(), khsaemudol::Refusal>(())
/// ```
///
/// # Errors
///
/// [`Refusal::TooLong`], [`Refusal::BadIndex`] or [`Refusal::OutOfRange`].
pub fn latin_remaining_bounds(edges: &[Edge], edge: u16) -> Result<Bounds, Refusal> {
    let (mut lower, mut upper) = (-1, -1);
    let answer = ffi::latin_remaining_bounds(edges, edge.into(), &mut lower, &mut upper);
    Refusal::of(answer)?;
    Ok(Bounds {
        lower: field::index(lower),
        upper: field::index(upper),
    })
}

/// What the CJK stem is told beside its edges.
#[derive(Clone, Copy, Debug, PartialEq, Eq)]
pub struct CjkStem<'a> {
    /// The dimension of the axis.
    pub dimension: Dimension,
    /// Whether the stem may be moved as far as it takes.
    pub stem_adjust: bool,
    /// How its width is fitted.
    pub rule: WidthRule<'a>,
    /// Its first edge.
    pub edge: u16,
    /// Its second edge.
    pub edge2: u16,
    /// The passed delta, -16,383 to 16,383 units.
    pub delta: i32,
}

/// Places both edges of a CJK stem, and hands back the stem's own delta, to which the passed one is not added.
///
/// ```
/// use khsaemudol::{hint_normal_stem_cjk, CjkStem, Dimension, Edge, WidthRule};
///
/// let mut edges = [40, 80].map(|opos| Edge::default().with_opos(opos));
/// let stem = CjkStem {
///     dimension: Dimension::Vertical,
///     stem_adjust: true,
///     rule: WidthRule::Keep,
///     edge: 0,
///     edge2: 1,
///     delta: 0,
/// };
/// assert_eq!(hint_normal_stem_cjk(&mut edges, &stem)?, -16);
/// assert_eq!(edges.map(|edge| edge.pos()), [24, 64]);
/// # Ok::<(), khsaemudol::Refusal>(())
/// ```
///
/// # Errors
///
/// [`Refusal::TooLong`], [`Refusal::BadParameter`], [`Refusal::BadIndex`] or [`Refusal::OutOfRange`].
pub fn hint_normal_stem_cjk(edges: &mut [Edge], given: &CjkStem<'_>) -> Result<i32, Refusal> {
    let mut own_delta = 0;
    Refusal::of(ffi::hint_normal_stem_cjk(
        edges,
        given.dimension as i32,
        given.stem_adjust.into(),
        given.rule.parts(),
        [given.edge.into(), given.edge2.into(), given.delta],
        &mut own_delta,
    ))?;
    Ok(own_delta)
}

/// What the stem pass is told beside its edges.
#[derive(Clone, Copy, Debug, PartialEq, Eq)]
pub struct StemPass<'a> {
    /// The dimension of the axis.
    pub dimension: Dimension,
    /// The group whose rules apply.
    pub group: Group,
    /// Whether CJK stems may be moved as far as it takes.
    pub stem_adjust: bool,
    /// The order of the edges.
    pub order: Order,
    /// The anchor that [`align_edges_to_blues`] found.
    pub anchor: Option<u16>,
    /// How widths are fitted.
    pub rule: WidthRule<'a>,
}

/// What the stem pass hands back.
#[derive(Clone, Copy, Debug, PartialEq, Eq)]
pub struct Stems {
    /// How many edges were passed over: without link, or CJK stems too close to the last one. With 0 every edge is done; any other is no count of those that are not, since a later edge may
    /// place one that was passed over.
    pub passed_over: usize,
    /// The anchor afterwards.
    pub anchor: Option<u16>,
}

/// Fits all stems of an axis that are not done.
///
/// ```
/// use khsaemudol::{align_stem_edges, Dimension, Edge, Flags, Group, Order, StemPass, Stems, WidthRule};
///
/// let stem = |opos: i32, link: u16| Edge::default().with_opos(opos).with_pos(opos).with_link(Some(link));
/// let mut edges = [Edge::default().with_flags(Flags::DONE), stem(100, 2), stem(160, 1)];
/// let pass = StemPass {
///     dimension: Dimension::Vertical,
///     group: Group::Latin,
///     stem_adjust: false,
///     order: Order::BottomToTop,
///     anchor: Some(0),
///     rule: WidthRule::Keep,
/// };
/// assert_eq!(align_stem_edges(&mut edges, &pass)?, Stems { passed_over: 0, anchor: Some(0) });
/// assert_eq!(edges.map(|edge| edge.pos()), [0, 130, 190]);
/// # Ok::<(), khsaemudol::Refusal>(())
/// ```
///
/// # Errors
///
/// [`Refusal::TooLong`], [`Refusal::Retired`], [`Refusal::BadParameter`], [`Refusal::BadIndex`] or [`Refusal::OutOfRange`].
pub fn align_stem_edges(edges: &mut [Edge], given: &StemPass<'_>) -> Result<Stems, Refusal> {
    let numbers = [
        given.dimension as i32,
        given.group as i32,
        given.stem_adjust.into(),
        given.order as i32,
        field::index_word(given.anchor),
    ];
    let (mut count, mut found) = (0, -1);
    let rule = given.rule.parts();
    let answer = ffi::align_stem_edges(edges, numbers, rule, &mut count, &mut found);
    Refusal::of(answer)?;
    Ok(Stems {
        passed_over: field::count(count),
        anchor: field::index(found),
    })
}

/// Evens out the stems of a lowercase m, which has 6 or 12 edges.
///
/// ```
/// use khsaemudol::{hint_lowercase_m, Edge, Group};
///
/// let mut edges = [Edge::default(); 6];
/// for (stem, opos, pos) in [(0, 0, 0), (2, 100, 128), (4, 207, 270)] {
///     edges[stem] = Edge::default().with_opos(opos).with_pos(pos);
/// }
/// hint_lowercase_m(&mut edges, Group::Latin)?;
/// assert_eq!(edges[4].pos(), 256);
/// # Ok::<(), khsaemudol::Refusal>(())
/// ```
///
/// # Errors
///
/// [`Refusal::TooLong`], [`Refusal::BadParameter`], [`Refusal::BadIndex`] or [`Refusal::OutOfRange`]; the second where the edges are neither 6 nor 12.
pub fn hint_lowercase_m(edges: &mut [Edge], group: Group) -> Result<(), Refusal> {
    Refusal::of(ffi::hint_lowercase_m(edges, group as i32))
}

/// Turns the edges of an axis over, with the indices that lead to them: tables that were saved from top to bottom come to stand from bottom to top. Twice, it gives
/// both lists back.
///
/// ```
/// use khsaemudol::{turn_over, Edge, Segment};
///
/// let mut segments = [Segment::default().with_edge(Some(0)), Segment::default().with_edge(Some(1))];
/// let mut edges = [
///     Edge::default().with_fpos(405).with_link(Some(1)),
///     Edge::default().with_fpos(325).with_first(1).with_last(1).with_link(Some(0)),
/// ];
/// turn_over(&mut segments, &mut edges)?;
/// assert_eq!(edges.map(|edge| (edge.fpos(), edge.link())), [(325, Some(1)), (405, Some(0))]);
/// assert_eq!(segments.map(|segment| segment.edge()), [Some(1), Some(0)]);
/// # Ok::<(), khsaemudol::Refusal>(())
/// ```
///
/// # Errors
///
/// [`Refusal::TooLong`], [`Refusal::BadIndex`] or [`Refusal::OutOfRange`].
pub fn turn_over(segments: &mut [Segment], edges: &mut [Edge]) -> Result<(), Refusal> {
    Refusal::of(ffi::turn_over(segments, edges))
}

/// Keeps of an axis the segments that serve its edges, and hands back how many they are: those that have an edge, and those that kept ones name by link or serif. They stand
/// in front, in their order, with every index renumbered; the places behind them are empty, with a score of 0. Every edge has the same segments in the same order as before; done twice,
/// nothing more changes.
///
/// ```
/// use khsaemudol::{pack_axis, Edge, Segment};
///
/// let mut segments = [
///     Segment::default(),
///     Segment::default().with_edge(Some(0)).with_next(Some(1)).with_link(Some(2)),
///     Segment::default(),
/// ];
/// let mut edges = [Edge::default().with_first(1).with_last(1)];
/// let kept = pack_axis(&mut segments, &mut edges)?;
/// assert_eq!(kept, 2);
/// assert_eq!((segments[0].link(), segments[0].next()), (Some(1), Some(0)));
/// assert_eq!((edges[0].first(), edges[0].last()), (0, 0));
/// # Ok::<(), khsaemudol::Refusal>(())
/// ```
///
/// # Errors
///
/// [`Refusal::TooLong`], [`Refusal::BadIndex`] or [`Refusal::BrokenRing`].
pub fn pack_axis(segments: &mut [Segment], edges: &mut [Edge]) -> Result<usize, Refusal> {
    let mut count = 0;
    Refusal::of(ffi::pack_axis(segments, edges, &mut count))?;
    Ok(field::count(count))
}

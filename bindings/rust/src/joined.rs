//! Blues and stems in one call.

use crate::{ffi, field, Dimension, Edge, Group, Order, Refusal, Stems, WidthRule};

/// What blues and stems in one call are told beside their edges.
#[derive(Clone, Copy, Debug, PartialEq, Eq)]
pub struct BluesAndStems<'a> {
    /// The dimension of the axis.
    pub dimension: Dimension,
    /// The group whose rules apply.
    pub group: Group,
    /// Whether CJK stems may be moved as far as it takes.
    pub stem_adjust: bool,
    /// The order of the edges.
    pub order: Order,
    /// How widths are fitted.
    pub rule: WidthRule<'a>,
}

/// Puts edges on their blue zones and then fits all stems that are not done, by the anchor that the zones give:
/// [`align_edges_to_blues`](crate::align_edges_to_blues) and [`align_stem_edges`](crate::align_stem_edges) in a row.
///
/// ```
/// use khsaemudol::{align_blues_and_stems, BluesAndStems, Dimension, Edge, Group, Mark, Order, Refusal, Stems, WidthRule};
///
/// let stem = |opos: i32, link: u16| Edge::default().with_opos(opos).with_pos(opos).with_link(Some(link));
/// // a foot, which has its zone at 0, and a bar above it
/// let mut edges = [stem(-9, 1).with_blue(Some(0)), stem(52, 0), stem(200, 3), stem(261, 2)];
/// let mut given = BluesAndStems {
///     dimension: Dimension::Vertical,
///     group: Group::Latin,
///     stem_adjust: false,
///     order: Order::BottomToTop,
///     rule: WidthRule::Snap(&[64]),
/// };
/// assert_eq!(align_blues_and_stems(&mut edges, &given)?, Stems { passed_over: 0, anchor: Some(0) });
/// assert_eq!(edges.map(|edge| edge.pos()), [0, 64, 192, 256]);
/// assert_eq!(edges.map(|edge| edge.mark()), [Mark::BlueAnchor, Mark::Linked, Mark::Stem, Mark::Stem]);
///
/// given.dimension = Dimension::Horizontal;
/// assert_eq!(align_blues_and_stems(&mut edges, &given), Err(Refusal::BadParameter));
/// # Ok::<(), Refusal>(())
/// ```
///
/// # Errors
///
/// [`Refusal::TooLong`], [`Refusal::Retired`], [`Refusal::BadParameter`], [`Refusal::BadIndex`] or [`Refusal::OutOfRange`]; the third also where a Latin edge has a zone on the horizontal axis, which has none.
pub fn align_blues_and_stems(
    edges: &mut [Edge],
    given: &BluesAndStems<'_>,
) -> Result<Stems, Refusal> {
    let numbers = [
        given.dimension as i32,
        given.group as i32,
        given.stem_adjust.into(),
        given.order as i32,
    ];
    let (mut count, mut anchor) = (0, -1);
    let rule = given.rule.parts();
    let answer = ffi::align_blues_and_stems(edges, numbers, rule, &mut count, &mut anchor);
    Refusal::of(answer)?;
    Ok(Stems {
        passed_over: field::count(count),
        anchor: field::index(anchor),
    })
}

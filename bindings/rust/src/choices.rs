//! What calls are told by choices.

/// The dimension of an axis.
#[derive(Clone, Copy, Debug, PartialEq, Eq, Hash)]
pub enum Dimension {
    /// Positions are x, and segments run up or down.
    Horizontal = 0,
    /// Positions are heights, and segments run right or left.
    Vertical = 1,
}

/// The group of scripts whose rules apply.
#[derive(Clone, Copy, Debug, Default, PartialEq, Eq, Hash)]
pub enum Group {
    /// Latin's rules, which are the default.
    #[default]
    Latin = 0,
    /// Those of Chinese, Japanese and Korean.
    Cjk = 1,
}

/// The order in which the edges of an axis stand.
#[derive(Clone, Copy, Debug, Default, PartialEq, Eq, Hash)]
pub enum Order {
    /// By rising positions.
    #[default]
    BottomToTop = 0,
    /// By falling ones: retired, and refused by [`Refusal::Retired`](crate::Refusal::Retired). Tables that were saved so are turned over by
    /// [`turn_over`](crate::turn_over).
    TopToBottom = 1,
}

/// The neighbour of an edge in its list.
#[derive(Clone, Copy, Debug, PartialEq, Eq, Hash)]
pub enum Neighbour {
    /// The edge before it.
    Previous = 0,
    /// The edge behind it.
    Next = 1,
}

/// How widths are fitted.
#[derive(Clone, Copy, Debug, Default, PartialEq, Eq, Hash)]
pub enum WidthRule<'a> {
    /// They stay.
    #[default]
    Keep,
    /// They become the nearest of these standards, in units, where that is at most 16 units away: 0 to 16 of them, strictly rising, each 1 to 16,383.
    /// Then a nonzero width of less than a pixel, 64 units, becomes a pixel, with its sign; 0 stays 0.
    Snap(&'a [i32]),
}

impl<'a> WidthRule<'a> {
    /// The rule's word and its standards.
    pub(crate) fn parts(self) -> (i32, &'a [i32]) {
        match self {
            Self::Keep => (0, &[]),
            Self::Snap(standards) => (1, standards),
        }
    }
}

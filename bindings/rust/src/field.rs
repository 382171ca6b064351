//! The fields of records: how each stands in words.

use core::{fmt, ops};

/// A value that stands in one or two words of a record. What is written reads back as it was.
pub(crate) trait Field: Copy + Default {
    /// The value at the front of these words.
    fn read(words: &[i32]) -> Self;
    /// Writes the value to the front of these words.
    fn write(self, words: &mut [i32]);
}

impl Field for i32 {
    fn read(words: &[i32]) -> Self {
        words[0]
    }

    fn write(self, words: &mut [i32]) {
        words[0] = self;
    }
}

impl Field for i16 {
    fn read(words: &[i32]) -> Self {
        Self::try_from(words[0]).unwrap_or_default()
    }

    fn write(self, words: &mut [i32]) {
        words[0] = self.into();
    }
}

impl Field for u16 {
    fn read(words: &[i32]) -> Self {
        Self::try_from(words[0]).unwrap_or_default()
    }

    fn write(self, words: &mut [i32]) {
        words[0] = self.into();
    }
}

/// An index, or none.
impl Field for Option<u16> {
    fn read(words: &[i32]) -> Self {
        index(words[0])
    }

    fn write(self, words: &mut [i32]) {
        words[0] = index_word(self);
    }
}

/// The fitted position of a zone, or none: whether there is one, and where.
impl Field for Option<i32> {
    fn read(words: &[i32]) -> Self {
        (words[0] == 1).then_some(words[1])
    }

    fn write(self, words: &mut [i32]) {
        words[0] = self.is_some().into();
        words[1] = self.unwrap_or(0);
    }
}

/// The index that a word is, if it is one.
pub(crate) fn index(word: i32) -> Option<u16> {
    u16::try_from(word).ok()
}

/// The word of an index or of none.
pub(crate) fn index_word(index: Option<u16>) -> i32 {
    index.map_or(-1, i32::from)
}

/// The count that a word is: the library hands back none below 0.
pub(crate) fn count(word: i32) -> usize {
    usize::try_from(word).unwrap_or_default()
}

/// What is known of a segment or an edge, any of four flags together.
///
/// ```
/// use khsaemudol::Flags;
///
/// let flags = Flags::ROUND | Flags::DONE;
/// assert!(flags.contains(Flags::DONE));
/// assert!(!flags.contains(Flags::DONE | Flags::SERIF));
/// assert_eq!(flags.without(Flags::DONE), Flags::ROUND);
/// assert_eq!(format!("{flags:?}"), "ROUND | DONE");
/// ```
#[derive(Clone, Copy, Default, PartialEq, Eq, Hash)]
pub struct Flags(u8);

impl Flags {
    /// No flag.
    pub const NONE: Self = Self(0);
    /// Round.
    pub const ROUND: Self = Self(1);
    /// A serif.
    pub const SERIF: Self = Self(2);
    /// Placed already.
    pub const DONE: Self = Self(4);
    /// On a neutral zone.
    pub const NEUTRAL: Self = Self(8);

    /// All flags with their names.
    const NAMES: [(Self, &'static str); 4] = [
        (Self::ROUND, "ROUND"),
        (Self::SERIF, "SERIF"),
        (Self::DONE, "DONE"),
        (Self::NEUTRAL, "NEUTRAL"),
    ];

    /// Whether all of these flags are here.
    #[must_use]
    pub const fn contains(self, flags: Self) -> bool {
        self.0 & flags.0 == flags.0
    }

    /// The flags that are not among these.
    #[must_use]
    pub const fn without(self, flags: Self) -> Self {
        Self(self.0 & !flags.0)
    }
}

impl ops::BitOr for Flags {
    type Output = Self;

    fn bitor(self, flags: Self) -> Self {
        Self(self.0 | flags.0)
    }
}

impl ops::BitOrAssign for Flags {
    fn bitor_assign(&mut self, flags: Self) {
        *self = *self | flags;
    }
}

impl fmt::Debug for Flags {
    fn fmt(&self, f: &mut fmt::Formatter<'_>) -> fmt::Result {
        let mut separator = "";
        for (_, name) in Self::NAMES.iter().filter(|(flag, _)| self.contains(*flag)) {
            write!(f, "{separator}{name}")?;
            separator = " | ";
        }
        if *self == Self::NONE {
            f.write_str("NONE")?;
        }
        Ok(())
    }
}

impl Field for Flags {
    fn read(words: &[i32]) -> Self {
        Self(u8::try_from(words[0]).unwrap_or_default() & 15)
    }

    fn write(self, words: &mut [i32]) {
        words[0] = self.0.into();
    }
}

/// Where a segment or an edge runs to.
#[derive(Clone, Copy, Debug, Default, PartialEq, Eq, Hash)]
pub enum Direction {
    /// Nowhere: a single point.
    #[default]
    None = 0,
    /// To the right.
    Right = 1,
    /// To the left.
    Left = 2,
    /// Upward.
    Up = 3,
    /// Downward.
    Down = 4,
}

impl Field for Direction {
    fn read(words: &[i32]) -> Self {
        match words[0] {
            1 => Self::Right,
            2 => Self::Left,
            3 => Self::Up,
            4 => Self::Down,
            _ => Self::None,
        }
    }

    fn write(self, words: &mut [i32]) {
        words[0] = self as i32;
    }
}

/// What last gave an edge its position, if only the one that it had. Calls write marks and read none.
///
/// ```
/// use khsaemudol::Mark;
///
/// assert_eq!(Mark::default(), Mark::Nothing);
/// assert_eq!(Mark::BlueAnchor.to_string(), "blue anchor");
/// ```
#[derive(Clone, Copy, Debug, Default, PartialEq, Eq, Hash)]
pub enum Mark {
    /// Nothing yet: it stands where building put it.
    #[default]
    Nothing = 0,
    /// Its blue zone, the first zone that the call came to.
    BlueAnchor = 1,
    /// Its blue zone, another one.
    Blue = 2,
    /// An edge on the other side of the stem, at the fitted width from it.
    Linked = 3,
    /// Its own stem, the first one, where there was no anchor yet.
    Anchor = 4,
    /// Its stem, both of whose edges were placed.
    Stem = 5,
    /// Its link, which was done before, for a stem beside an anchor.
    Adjusted = 6,
    /// Its neighbour, which it had passed.
    Bound = 7,
    /// The edge that it was placed by as a serif.
    Serif = 8,
    /// The rule of the lowercase m, whose third stem it moves with.
    LowercaseM = 9,
    /// The nearest done edges on both sides, between which it was placed.
    Between = 10,
    /// The anchor, from which it was placed at its distance.
    Spaced = 11,
    /// Itself, as the anchor of the edges that were left.
    RemainingAnchor = 12,
}

impl Mark {
    /// All marks, by their words.
    pub const ALL: [Self; 13] = [
        Self::Nothing,
        Self::BlueAnchor,
        Self::Blue,
        Self::Linked,
        Self::Anchor,
        Self::Stem,
        Self::Adjusted,
        Self::Bound,
        Self::Serif,
        Self::LowercaseM,
        Self::Between,
        Self::Spaced,
        Self::RemainingAnchor,
    ];

    /// Its name, for logs.
    #[must_use]
    pub const fn name(self) -> &'static str {
        match self {
            Self::Nothing => "nothing yet",
            Self::BlueAnchor => "blue anchor",
            Self::Blue => "blue",
            Self::Linked => "linked",
            Self::Anchor => "anchor",
            Self::Stem => "stem",
            Self::Adjusted => "adjusted",
            Self::Bound => "bound",
            Self::Serif => "serif",
            Self::LowercaseM => "lowercase m",
            Self::Between => "between",
            Self::Spaced => "spaced",
            Self::RemainingAnchor => "remaining anchor",
        }
    }
}

impl fmt::Display for Mark {
    fn fmt(&self, f: &mut fmt::Formatter<'_>) -> fmt::Result {
        f.pad(self.name())
    }
}

impl Field for Mark {
    fn read(words: &[i32]) -> Self {
        let mark = usize::try_from(words[0]).ok();
        mark.and_then(|ix| Self::ALL.get(ix).copied())
            .unwrap_or_default()
    }

    fn write(self, words: &mut [i32]) {
        words[0] = self as i32;
    }
}

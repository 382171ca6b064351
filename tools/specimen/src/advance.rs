//! Where a glyph stands in a line of text: its advance width, and how far fitting shifts it to the side. Of Latin glyphs both go by the first and the last edge of the widths, as FreeType's autofitter has
//! it, and by what the Rust hands out as `EdgeMetrics`.

use crate::{
    label::Glyph,
    size::{pixel_round, scaled, PIXEL},
};
use khsaemudol::Edge;

/// A side bearing below this many units gets an eighth of a pixel more: too much room is better than too little.
const NARROW: i32 = 24;
const MORE: i32 = PIXEL / 8;

/// An advance width in design units.
#[derive(Clone, Copy, Debug, Default, PartialEq, Eq)]
pub struct Advance {
    pub units: i32,
    /// Whether fitting may not change it, as that of figures which stand below each other.
    pub is_fixed: bool,
    /// Whether the label tells it.
    pub is_told: bool,
    /// What it comes to, in pixels, where the label has that: by another hinter, for this one to be held to.
    pub held_to: Option<i32>,
}

impl Advance {
    /// What a label tells: a number, that it is fixed where it is, and what it comes to.
    pub fn told(text: &str) -> Option<Self> {
        let (text, held_to) = match text.strip_suffix(" pixels") {
            Some(text) => {
                let (text, pixels) = text.split_once(", ")?;
                (text, Some(pixels.parse().ok()?))
            }
            None => (text, None),
        };
        let (units, is_fixed) = match text.strip_suffix(" fixed") {
            Some(units) => (units, true),
            None => (text, false),
        };
        let units = units.parse::<i16>().ok().filter(|units| *units >= 0)?;
        Some(Self {
            units: units.into(),
            is_fixed,
            is_told: true,
            held_to,
        })
    }

    /// That of a glyph: what the label tells, or else what makes the room on its right that on its left.
    pub fn of(glyph: &Glyph) -> Self {
        let designs = || glyph.widths.designs.iter().map(|design| i32::from(*design));
        let (left, right) = (designs().min().unwrap_or(0), designs().max().unwrap_or(0));
        glyph.advance.unwrap_or(Self {
            units: (left + right).max(0),
            ..Self::default()
        })
    }
}

/// Where a glyph stands in a line, in pixels.
#[derive(Clone, Copy, Debug, Default, PartialEq, Eq)]
pub struct Setting {
    /// How far it is shifted to the right.
    pub shift: i32,
    /// How far it is from its place to the next glyph's.
    pub advance: i32,
}

impl Setting {
    /// Without fitting: the advance width at a scale, to the nearest pixel.
    pub fn unfitted(advance: Advance, scale: i32) -> Self {
        Self {
            shift: 0,
            advance: pixel_round(scaled(advance.units, scale)) / PIXEL,
        }
    }

    /// With the edges of a Latin glyph's widths fitted: both sides of the advance width go with the edge that is next to them, and to the nearest pixel from there, not into the glyph.
    pub fn fitted(advance: Advance, scale: i32, edges: &[Edge]) -> Self {
        let unfitted = Self::unfitted(advance, scale);
        let [left, .., right] = edges else {
            return unfitted;
        };
        let bearings = [left.opos(), scaled(advance.units, scale) - right.opos()];
        let more = bearings.map(|bearing| if bearing < NARROW { MORE } else { 0 });
        let mut start = pixel_round(left.pos() - bearings[0] - more[0]);
        let mut end = pixel_round(right.pos() + bearings[1] + more[1]);
        if start >= left.pos() && bearings[0] > 0 {
            start -= PIXEL;
        }
        if end <= right.pos() && bearings[1] > 0 {
            end += PIXEL;
        }
        let keeps = advance.is_fixed || advance.units == 0;
        Self {
            shift: -start / PIXEL,
            advance: if keeps {
                unfitted.advance
            } else {
                (end - start) / PIXEL
            },
        }
    }
}

/// The character of a glyph: that whose number its name begins with, or else its name's last word, where that is one character.
pub fn character_of(name: &str) -> Option<char> {
    let number = |name: &str| {
        let digits = name.strip_prefix("U+")?.split(' ').next()?;
        char::from_u32(u32::from_str_radix(digits, 16).ok()?)
    };
    let last = || {
        let mut letters = name.rsplit(' ').next()?.chars();
        letters.next().filter(|_| letters.next().is_none())
    };
    number(name).or_else(last)
}

//! The arithmetic and width helpers, completed as document 01 says.

use super::{style::ScriptGroup, topo::TopoFlags};

/// a·b / 65,536 to the nearest, halves away from zero.
pub fn fixed_mul(a: i32, b: i32) -> i32 {
    nearest(i64::from(a) * i64::from(b), 65_536)
}

/// a·65,536 / b to the nearest, halves away from zero.
pub fn fixed_div(a: i32, b: i32) -> i32 {
    nearest(i64::from(a) * 65_536, i64::from(b))
}

/// a·b / c to the nearest, halves away from zero.
pub fn fixed_mul_div(a: i32, b: i32, c: i32) -> i32 {
    nearest(i64::from(a) * i64::from(b), i64::from(c))
}

/// A quotient to the nearest, halves away from zero; accepted input keeps it within 32 bits.
fn nearest(dividend: i64, divisor: i64) -> i32 {
    let size = (dividend.abs() + divisor.abs() / 2) / divisor.abs();
    let signed = if (dividend < 0) == (divisor < 0) {
        size
    } else {
        -size
    };
    i32::try_from(signed).expect("accepted input stays within 32 bits")
}

/// The largest multiple of 64 not above x.
pub fn pix_floor(x: i32) -> i32 {
    x & !63
}

/// Pixel floor of x + 32.
pub fn pix_round(x: i32) -> i32 {
    pix_floor(x + 32)
}

/// c · units per em / 2048, fraction dropped.
pub fn derived_constant(units_per_em: i32, c: i32) -> i32 {
    c * units_per_em / 2048
}

/// The rule that stands in place of the standard widths.
#[derive(Clone, PartialEq, Debug)]
pub enum WidthRule {
    /// The width itself.
    Keep(Vec<i32>),
    /// The nearest of these standards that is at most 16 away, and a pixel at least.
    Snap(Vec<i32>),
}

impl WidthRule {
    /// The fitted width.
    pub fn fit(&self, width: i32) -> i32 {
        let WidthRule::Snap(standards) = self else {
            return width;
        };
        let size = width.abs();
        // The standards rise and the first of two equally near ones is taken: the smaller.
        let snapped = match standards.iter().min_by_key(|s| (size - **s).abs()) {
            Some(near) if (size - near).abs() <= 16 => *near,
            _ => size,
        };
        // The sign of width 0 is 0, so it stays 0.
        snapped.max(64) * width.signum()
    }
}

/// Stands in place of `stem_width`: the width rule alone.
pub fn stem_width(
    metrics: &ScaledAxisMetrics,
    _group: ScriptGroup,
    _scale: &Scale,
    width: i32,
    _base_delta: i32,
    _base_flags: TopoFlags,
    _stem_flags: TopoFlags,
) -> i32 {
    metrics.width_rule.fit(width)
}

/// A blue zone's position; its scaled one belongs to parts that are left out.
#[derive(Copy, Clone, PartialEq, Eq, Debug, Default)]
pub struct ScaledWidth {
    pub fitted: i32,
}

/// What building takes from the style's widths.
pub struct WidthMetrics {
    pub edge_distance_threshold: i32,
}

/// What the calls take from an axis's metrics: the caller's values.
pub struct ScaledAxisMetrics {
    pub scale: i32,
    pub width_metrics: WidthMetrics,
    pub segment_length_threshold: i32,
    pub segment_width_threshold: i32,
    pub width_rule: WidthRule,
}

/// Scale flags: those that the calls read.
#[derive(Copy, Clone, PartialEq, Default)]
pub struct ScaleFlags(u8);

impl ScaleFlags {
    /// CJK points snap to their edges on the horizontal axis.
    pub const HORIZONTAL_SNAP: Self = Self(1);
    /// The same on the vertical axis.
    pub const VERTICAL_SNAP: Self = Self(2);
    /// Stems are adjusted.
    pub const STEM_ADJUST: Self = Self(4);

    /// These flags or none.
    pub fn when(self, set: bool) -> Self {
        if set {
            self
        } else {
            Self::default()
        }
    }

    /// Whether the other's flags are set here.
    pub fn contains(self, other: Self) -> bool {
        self.0 & other.0 == other.0
    }
}

/// What fitting reads of the scale.
pub struct Scale {
    pub flags: ScaleFlags,
}

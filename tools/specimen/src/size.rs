//! A glyph of a label file at another size. Its points are scaled anew from design units. The file has zones and two thresholds as they are at its own scale:
//! they are taken back to design units first.

use crate::label::{Axis, Glyph, Zone};

/// Units of a pixel.
pub const PIXEL: i32 = 64;

/// The scale of so many pixels to the em, from design units to units, in 16.16; its fraction is dropped.
pub fn scale_of(pixels: i32, units_per_em: i32) -> i32 {
    (i64::from(pixels) * i64::from(PIXEL) * 65_536 / i64::from(units_per_em)) as i32
}

/// The units to the em by which so many pixels to the em have a scale: the most of them.
pub fn units_per_em_of(pixels: i32, scale: i32) -> i32 {
    // the two change places in the quotient
    scale_of(pixels, scale)
}

/// A design position at a scale, in units: to the nearest, halves away from zero.
pub fn scaled(position: i32, scale: i32) -> i32 {
    let product = i64::from(position) * i64::from(scale);
    ((product.abs() + 0x8000) / 0x1_0000 * product.signum()) as i32
}

/// The glyph at another scale. At the file's own scale it is the file's. What is wrong where a zone's place at another scale cannot be told.
pub fn at_scale(glyph: &Glyph, scale: i32) -> Result<Glyph, String> {
    Ok(Glyph {
        heights: axis_at(&glyph.heights, scale)?,
        widths: axis_at(&glyph.widths, scale)?,
        ..glyph.clone()
    })
}

/// An axis at another scale.
fn axis_at(axis: &Axis, scale: i32) -> Result<Axis, String> {
    let own = axis.building.scale;
    if own == scale {
        return Ok(axis.clone());
    }
    let mut at = axis.clone();
    at.building.scale = scale;
    at.building.length = threshold_at(axis.building.length, own, scale);
    at.building.width = threshold_at(axis.building.width, own, scale);
    let point = |design: &i16| scaled((*design).into(), scale);
    at.originals = axis.designs.iter().map(point).collect();
    for zone in &mut at.zones {
        let reference = reference(*zone, own)?;
        zone.fitted = pixel_round(scaled(reference, scale));
    }
    Ok(at)
}

/// A threshold at another scale. It is a length on the grid, taken to design units with its fraction dropped: the most units that come to it are it. 0 stays 0.
fn threshold_at(threshold: i32, own: i32, scale: i32) -> i32 {
    if threshold == 0 {
        return 0;
    }
    let units = ((i64::from(threshold) + 1) * i64::from(own) - 1) / 0x1_0000;
    (units * 0x1_0000 / i64::from(scale)) as i32
}

/// To whole pixels, halves upward.
pub fn pixel_round(units: i32) -> i32 {
    (units + PIXEL / 2).div_euclid(PIXEL) * PIXEL
}

/// The design position that a zone is rounded by: of those that come to its place at this scale the nearest to its edges'. Overshoots have another than their own.
fn reference(zone: Zone, scale: i32) -> Result<i32, String> {
    let position = i32::from(zone.position);
    let units = i64::from(scale);
    let pixel = ((i64::from(PIXEL) * 0x1_0000 + units / 2) / units) as i32;
    let near = (0..=pixel).flat_map(|distance| [position - distance, position + distance]);
    let mut rounded = near.filter(|near| pixel_round(scaled(*near, scale)) == zone.fitted);
    rounded.next().ok_or_else(|| {
        format!("the zone at {position} comes to {}/64 pixels, which no position within a pixel of it is rounded to: its place at another size is not known", zone.fitted)
    })
}

#[cfg(test)]
mod tests {
    use super::*;

    #[test]
    fn scales_are_those_of_the_label() {
        assert_eq!(scale_of(12, 1_000), 50_331);
        assert_eq!(
            [scaled(-12, 50_331), scaled(68, 50_331), scaled(712, 50_331)],
            [-9, 52, 547]
        );
    }

    #[test]
    fn units_per_em_come_to_the_scale() {
        for pixels in [8, 9, 11, 12, 24, 255] {
            for units in [16, 1_000, 1_024, 2_048] {
                assert_eq!(units_per_em_of(pixels, scale_of(pixels, units)), units);
            }
        }
        // a coarse scale does not tell them apart, and comes out the same
        let scale = scale_of(1, 15_000);
        assert_eq!(units_per_em_of(1, scale), 15_033);
        assert_eq!(scale_of(1, 15_033), scale);
    }

    #[test]
    fn thresholds_are_as_many_units() {
        // a pixel and half a pixel, in design units at 11, 12, 16 and 24 pixels to the em
        for thresholds in [[90, 83, 62, 41], [45, 41, 31, 20], [0; 4]] {
            let scales = [11, 12, 16, 24].map(|pixels| scale_of(pixels, 1_000));
            for (threshold, own) in thresholds.into_iter().zip(scales) {
                assert_eq!(
                    scales.map(|scale| threshold_at(threshold, own, scale)),
                    thresholds
                );
            }
        }
    }

    #[test]
    fn overshoots_are_rounded_with_their_zone() {
        // at 12 pixels to the em 712 by itself would be rounded to 9 pixels, and comes to 8 with the flat heads
        let zone = Zone {
            position: 712,
            fitted: 8 * PIXEL,
            ..Zone::default()
        };
        assert_eq!(reference(zone, scale_of(12, 1_000)), Ok(707));
        let flat = Zone {
            position: 700,
            fitted: 8 * PIXEL,
            ..Zone::default()
        };
        assert_eq!(reference(flat, scale_of(12, 1_000)), Ok(700));
        let lost = Zone {
            position: 700,
            fitted: 8 * PIXEL + 1,
            ..Zone::default()
        };
        assert!(reference(lost, scale_of(12, 1_000)).is_err());
    }
}

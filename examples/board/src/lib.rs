//! A board's program without `std` and without an allocator: fits the bar of the header's example, called from C.

#![no_std]

use khsaemudol::{
    compute_edges, fit_axis, version_fits, AxisPoints, Building, Dimension, Direction, Edge,
    Fitting, Group, Moving, Order, Refusal, Segment, WidthRule, MOST_EDGES,
};

/// A pixel in units.
const PIXEL: i32 = 64;
/// From design units to units at 12 pixels to the em of 1,000, in 16.16.
const SCALE: i32 = 12 * PIXEL * 65_536 / 1_000;

/// There is nobody to tell.
#[panic_handler]
fn panic(_: &core::panic::PanicInfo<'_>) -> ! {
    loop {}
}

/// The bar's sides, which go from 0 to 80; the upper one runs over the contour's start.
fn sides() -> [Segment; 2] {
    let side = Segment::default().with_height(190);
    [
        side.with_dir(Direction::Right)
            .with_pos(80)
            .with_link(Some(1))
            .with_first(4)
            .with_last(0),
        side.with_dir(Direction::Left)
            .with_link(Some(0))
            .with_first(2)
            .with_last(3),
    ]
}

/// Fits the heights of the bar's points, with its foot on a zone at 0.
fn fit(currents: &mut [i32; 5]) -> Result<(), Refusal> {
    let building = Building {
        dimension: Dimension::Vertical,
        major: Direction::Left,
        group: Group::Latin,
        order: Order::BottomToTop,
        scale: SCALE,
        distance: 16,
        length: 0,
        width: (PIXEL / 2 * 65_536 + SCALE / 2) / SCALE,
    };
    let fitting = Fitting {
        dimension: Dimension::Vertical,
        group: Group::Latin,
        stem_adjust: false,
        moving: Moving {
            snap: true,
            done_alone: false,
        },
        rule: WidthRule::Snap(&[PIXEL]),
        lowercase_m: false,
        least: PIXEL / 2,
        linked: true,
    };
    let points = AxisPoints {
        fonts: &[80, 40, 0, 0, 80],
        originals: &[61, 31, 0, 0, 61],
        weak: &[0; 5],
        ends: &[4],
    };
    let (mut segments, mut room) = (sides(), [Edge::default(); MOST_EDGES]);
    let edges = compute_edges(&mut segments, &mut room, &building)?;
    edges[0].set_blue(Some(0));
    currents.copy_from_slice(points.originals);
    fit_axis(&segments, edges, &fitting, &points, currents, &mut [0; 5])?;
    Ok(())
}

/// Writes where the five points come to. 0, or the number of the refusal, or 254 where the library is of another release.
#[no_mangle]
pub extern "C" fn fit_bar(currents: &mut [i32; 5]) -> u8 {
    if !version_fits() {
        return 254;
    }
    fit(currents).map_or_else(Refusal::number, |()| 0)
}

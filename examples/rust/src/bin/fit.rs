//! Fits a figure 3 at 12 pixels to the em, each axis in one call behind building, hands out its path, and asks whether the display shows a 3. examples/fit.c does the same in C,
//! and `three` makes a call for each step. The 3 stands in lib.rs.

use khsaemudol::{
    compute_edges, count_shown, fit_axis, path, AxisPoints, Building, Dimension, Edge, Fitting,
    Group, LostGaps, Moving, Order, Refusal, Shown, MOST_EDGES,
};
use three::{
    outline, print_steps, scaled, segments, Axis, ENDS, HEIGHTS, LEAST_GAP, ON_CURVE, PIXEL,
    PIXELS, POINTS, RULE, SCALE, THREE, WIDTHS, ZONES,
};

/// How the edges of an axis are built.
fn building(axis: &Axis<'_>) -> Building {
    Building {
        dimension: axis.dimension,
        major: axis.major,
        group: Group::Latin,
        order: Order::BottomToTop,
        scale: SCALE,
        distance: 16,
        length: axis.length,
        width: (PIXEL / 2 * 65_536 + SCALE / 2) / SCALE,
    }
}

/// How an axis is fitted.
fn fitting(axis: &Axis<'_>) -> Fitting<'static> {
    Fitting {
        dimension: axis.dimension,
        group: Group::Latin,
        stem_adjust: false,
        moving: Moving {
            snap: true,
            done_alone: false,
        },
        rule: RULE,
        lowercase_m: false,
        least: LEAST_GAP,
        linked: true,
    }
}

/// Gives the edges at the heights of zones their zones.
fn give_zones(edges: &mut [Edge]) {
    for (height, fitted) in ZONES {
        for edge in edges.iter_mut().filter(|edge| edge.fpos() == height) {
            edge.set_blue(Some(fitted));
        }
    }
}

/// Fits an axis, and hands back where its points come to, and what was lost. Those off the curve are weak.
fn fit(axis: &Axis<'_>) -> Result<([i32; POINTS], LostGaps), Refusal> {
    let mut segments = segments(axis);
    let mut room = [Edge::default(); MOST_EDGES];
    let edges = compute_edges(&mut segments, &mut room, &building(axis))?;
    if axis.dimension == Dimension::Vertical {
        give_zones(edges);
    }
    let originals = axis.points.map(scaled);
    let points = AxisPoints {
        fonts: &axis.points,
        originals: &originals,
        weak: &ON_CURVE.map(|on_curve| 1 - on_curve),
        ends: &ENDS,
    };
    let (mut currents, mut touched) = (originals, [0; POINTS]);
    let given = fitting(axis);
    let fitted = fit_axis(
        &segments,
        edges,
        &given,
        &points,
        &mut currents,
        &mut touched,
    )?;
    Ok((currents, fitted.lost))
}

/// Fits the 3, and tells how it is to be shown: fitted where nothing is lost and it has the number of a 3 so, else at another size.
fn main() -> Result<(), Refusal> {
    println!("# digit 3, at {PIXELS} pixels to the em");
    let (ys, heights_lost) = fit(&HEIGHTS)?;
    let (xs, widths_lost) = fit(&WIDTHS)?;
    let fitted = outline(&xs, &ys);
    let mut kinds = vec![0; fitted.most_steps()];
    let mut places = vec![0.0; 4 * fitted.most_steps()];
    print_steps(path(&fitted, &mut kinds, &mut places)?);
    let Shown { black, euler } = count_shown(&fitted, 1)?;
    println!("  shown     {black} black pixels, pieces less holes {euler:4}");
    let lost = [heights_lost, widths_lost].map(|lost| lost.gaps + lost.stems);
    let fits = lost == [0, 0] && euler == THREE;
    println!(
        "  choice    {}",
        if fits { "fitted" } else { "another size" }
    );
    Ok(())
}

//! Fits a figure 3 at 12 pixels to the em on both axes, from its segments to its points, tells what each step changed, hands out its path, and asks whether the display
//! shows a 3. It makes a call for each step, as examples/three.c does in C; `fit` fits each axis in one. The 3 stands in lib.rs.

use khsaemudol::{
    align_blues_and_stems, align_edge_points, align_remaining_edges, align_strong_points,
    align_weak_points, compute_edges, count_shown, lost_gaps, path, BluesAndStems, Building,
    Dimension, Edge, Group, LostGaps, LostPair, Moving, Order, Outline, Refusal, Segment, Shown,
    Stems, MOST_EDGES,
};
use three::{
    outline, print_steps, scaled, segments, Axis, ENDS, HEIGHTS, LEAST_GAP, ON_CURVE, PIXEL,
    PIXELS, POINTS, RULE, SCALE, THREE, WIDTHS, XS, YS, ZONES,
};

/// A position in pixels and 64ths.
fn position(units: i32) -> String {
    match (units / PIXEL, units.abs() % PIXEL) {
        (whole, 0) => whole.to_string(),
        (0, _) => format!("{units}/64"),
        (whole, rest) => format!("{whole} {rest:2}/64"),
    }
}

/// Prints the edges that a step placed: where each was and is, its stem, and what placed it.
fn print_placed(before: &[Edge], edges: &[Edge]) {
    for (ix, (was, edge)) in before.iter().zip(edges).enumerate() {
        if was.flags() == edge.flags() {
            continue;
        }
        let (from, to) = (position(was.pos()), position(edge.pos()));
        print!("    edge {ix:3}  at {:4}{from:>10} ->{to:>10}", edge.fpos());
        if let Some(link) = edge.link().map(usize::from) {
            print!("  stem with {link}");
            if link > ix {
                let width = position(edges[link].opos() - edge.opos());
                let fitted = position(edges[link].pos() - edge.pos());
                print!(", width {width} -> {fitted}");
            }
        }
        println!("  {}", edge.mark());
    }
}

/// Builds the edges of an axis in a room.
fn build<'a>(
    axis: &Axis<'_>,
    segments: &mut [Segment],
    room: &'a mut [Edge; MOST_EDGES],
) -> Result<&'a mut [Edge], Refusal> {
    let building = Building {
        dimension: axis.dimension,
        major: axis.major,
        group: Group::Latin,
        order: Order::BottomToTop,
        scale: SCALE,
        distance: 16,
        length: axis.length,
        width: (PIXEL / 2 * 65_536 + SCALE / 2) / SCALE,
    };
    let edges = compute_edges(segments, room, &building)?;
    let places: String = edges
        .iter()
        .map(|edge| format!(" {:4}", edge.fpos()))
        .collect();
    let (name, sides, made) = (axis.name, segments.len(), edges.len());
    println!("  {name:8}  {sides} segments make {made} edges, at{places}");
    Ok(edges)
}

/// Gives the edges at the heights of zones their zones.
fn give_zones(edges: &mut [Edge]) {
    for (height, fitted) in ZONES {
        for edge in edges.iter_mut().filter(|edge| edge.fpos() == height) {
            edge.set_blue(Some(fitted));
        }
    }
}

/// Which edge is the anchor.
fn anchored(anchor: Option<u16>) -> String {
    anchor.map_or("no anchor".into(), |ix| format!("the anchor is edge {ix}"))
}

/// Puts the edges on their zones, and places the stems by the anchor that these give, or by the first stem where there is none.
fn place_stems(dimension: Dimension, edges: &mut [Edge]) -> Result<Stems, Refusal> {
    let before = edges.to_vec();
    let given = BluesAndStems {
        dimension,
        group: Group::Latin,
        stem_adjust: false,
        order: Order::BottomToTop,
        rule: RULE,
    };
    let stems = align_blues_and_stems(edges, &given)?;
    let (passed_over, anchor) = (stems.passed_over, anchored(stems.anchor));
    println!("  fitting   {passed_over} passed over, {anchor}");
    print_placed(&before, edges);
    Ok(stems)
}

/// Places the edges that are left, where stems have passed over some or there is no anchor.
fn place_remaining(dimension: Dimension, edges: &mut [Edge], stems: Stems) -> Result<(), Refusal> {
    if stems.passed_over == 0 && stems.anchor.is_some() {
        return Ok(());
    }
    let before = edges.to_vec();
    let anchor = align_remaining_edges(edges, dimension, Group::Latin, stems)?;
    println!("  remaining {}", anchored(anchor));
    print_placed(&before, edges);
    Ok(())
}

/// Asks whether a gap of half a pixel and more, or a stem, between two edges with links has no row of pixels left, or is turned, and tells so: a gateway would show the
/// glyph at another size then.
fn guard(edges: &[Edge]) -> Result<(), Refusal> {
    let LostGaps {
        gaps,
        stems,
        first: pair,
        not_done,
    } = lost_gaps(edges, LEAST_GAP, true)?;
    if let Some(LostPair {
        first,
        second,
        before,
        after,
    }) = pair
    {
        let (before, after) = (position(before), position(after));
        println!("  guard     {gaps} gaps and {stems} stems lost, the first between edges {first} and {second}, width {before} -> {after}, {not_done} edges not done");
    }
    Ok(())
}

/// Moves the points of segments with their edges, strong points by the edges around them, and the others behind these. Those off the curve are weak.
fn align_points(
    points: [i16; POINTS],
    segments: &[Segment],
    edges: &[Edge],
) -> Result<[i32; POINTS], Refusal> {
    let originals = points.map(scaled);
    let mut currents = originals;
    let mut touched = [0; POINTS];
    let moving = Moving {
        snap: true,
        done_alone: false,
    };
    align_edge_points(segments, edges, moving, &mut currents, &mut touched, &ENDS)?;
    let count = |touched: &[u8]| touched.iter().filter(|mark| **mark != 0).count();
    let placed = count(&touched);
    let weak = ON_CURVE.map(|on_curve| 1 - on_curve);
    align_strong_points(
        edges,
        &points,
        &originals,
        &mut currents,
        &mut touched,
        &weak,
    )?;
    align_weak_points(&originals, &mut currents, &touched, &ENDS)?;
    let strong = count(&touched) - placed;
    println!("  points    {placed} of {POINTS} placed with their edges, {strong} by the edges around them, the others aligned");
    Ok(currents)
}

/// Fits an axis, and hands back where its points come to.
fn fit(axis: &Axis<'_>) -> Result<[i32; POINTS], Refusal> {
    let mut segments = segments(axis);
    let mut room = [Edge::default(); MOST_EDGES];
    let edges = build(axis, &mut segments, &mut room)?;
    if axis.dimension == Dimension::Vertical {
        give_zones(edges);
    }
    let stems = place_stems(axis.dimension, edges)?;
    place_remaining(axis.dimension, edges, stems)?;
    guard(edges)?;
    align_points(axis.points, &segments, edges)
}

/// Hands out the path of the fitted points.
fn print_path(outline: &Outline<'_>) -> Result<(), Refusal> {
    let mut kinds = vec![0; outline.most_steps()];
    let mut places = vec![0.0; 4 * outline.most_steps()];
    print_steps(path(outline, &mut kinds, &mut places)?);
    Ok(())
}

/// Asks what a display without grey shows of an outline, and hands back pieces less holes.
fn ask(name: &str, outline: &Outline<'_>) -> Result<i32, Refusal> {
    let Shown { black, euler } = count_shown(outline, 1)?;
    println!("  {name:9} {black} black pixels, pieces less holes {euler:4}");
    Ok(euler)
}

/// Tells how the 3 is to be shown: fitted where it has the number of a 3 so, else unfitted where it has it so, else at another size.
fn choose(fitted: &Outline<'_>, unfitted: &Outline<'_>) -> Result<(), Refusal> {
    let numbers = (ask("shown", fitted)?, ask("unfitted", unfitted)?);
    let choice = match numbers {
        (THREE, _) => "fitted",
        (_, THREE) => "unfitted",
        _ => "another size",
    };
    println!("  choice    {choice}");
    Ok(())
}

/// Fits the 3.
fn main() -> Result<(), Refusal> {
    println!("# digit 3, at {PIXELS} pixels to the em");
    let ys = fit(&HEIGHTS)?;
    let xs = fit(&WIDTHS)?;
    let fitted = outline(&xs, &ys);
    print_path(&fitted)?;
    choose(&fitted, &outline(&XS.map(scaled), &YS.map(scaled)))
}

//! The library's functions, as include/khsaemudol.h declares them, each behind a function of its name over slices. All that is unsafe stands here.
//!
//! What the functions ask of their caller holds by the types: each pointer and length is of one live slice, which is aligned and never null, and what is written is lent
//! to the call alone.

use crate::{
    fit::AxisPoints,
    path::Outline,
    records::{Edge, Segment, EDGE_WORDS, SEGMENT_WORDS},
    Catalogue,
};

/// The length of a list, which has 64 bits on every processor.
type Length = u64;

extern "C" {
    fn khs_version() -> u32;

    fn khs_compute_mid_pos(min: i32, max: i32) -> i16;

    fn khs_compute_mid_delta(min: i32, max: i32) -> i16;

    fn khs_align_weak_points(
        originals: *const i32,
        originals_len: Length,
        currents: *mut i32,
        currents_len: Length,
        touched: *const u8,
        touched_len: Length,
        ends: *const u16,
        ends_len: Length,
    ) -> u8;

    fn khs_remember_references(
        touched: *const u8,
        touched_len: Length,
        ends: *const u16,
        ends_len: Length,
        before: *mut u16,
        before_len: Length,
        behind: *mut u16,
        behind_len: Length,
    ) -> u8;

    fn khs_align_with_references(
        originals: *const i32,
        originals_len: Length,
        currents: *mut i32,
        currents_len: Length,
        touched: *const u8,
        touched_len: Length,
        ends: *const u16,
        ends_len: Length,
        before: *const u16,
        before_len: Length,
        behind: *const u16,
        behind_len: Length,
    ) -> u8;

    fn khs_drag_point(
        originals: *const i32,
        originals_len: Length,
        currents: *mut i32,
        currents_len: Length,
        touched: *const u8,
        touched_len: Length,
        ends: *const u16,
        ends_len: Length,
        point: u32,
    ) -> u8;

    fn khs_align_catalogue(
        originals: *const i32,
        originals_len: Length,
        currents: *mut i32,
        currents_len: Length,
        touched: *const u8,
        touched_len: Length,
        ends: *const u16,
        ends_len: Length,
        point_counts: *const u16,
        point_counts_len: Length,
        contour_counts: *const u16,
        contour_counts_len: Length,
        answers: *mut u8,
        answers_len: Length,
    ) -> u8;

    fn khs_link_segments_cjk(
        segments: *mut i32,
        segments_len: Length,
        major_dir: i32,
        units_per_em: i32,
        scale: i32,
    ) -> u8;

    fn khs_compute_edges(
        segments: *mut i32,
        segments_len: Length,
        edges: *mut i32,
        edges_len: Length,
        dim: i32,
        major_dir: i32,
        group: i32,
        top_to_bottom: i32,
        scale: i32,
        distance: i32,
        length: i32,
        width: i32,
        count: *mut i32,
    ) -> u8;

    fn khs_align_edges_to_blues(
        edges: *mut i32,
        edges_len: Length,
        dim: i32,
        group: i32,
        rule: i32,
        standards: *const i32,
        standards_len: Length,
        anchor: *mut i32,
    ) -> u8;

    fn khs_align_linked_edge(
        edges: *mut i32,
        edges_len: Length,
        rule: i32,
        standards: *const i32,
        standards_len: Length,
        base: i32,
        stem: i32,
    ) -> u8;

    fn khs_align_serif_edge(edges: *mut i32, edges_len: Length, base: i32, serif: i32) -> u8;

    fn khs_adjust_link(
        edges: *mut i32,
        edges_len: Length,
        edge: i32,
        dir: i32,
        top_to_bottom: i32,
    ) -> u8;

    fn khs_latin_remaining_bounds(
        edges: *const i32,
        edges_len: Length,
        edge: i32,
        lower: *mut i32,
        upper: *mut i32,
    ) -> u8;

    fn khs_hint_normal_stem_cjk(
        edges: *mut i32,
        edges_len: Length,
        dim: i32,
        stem_adjust: i32,
        rule: i32,
        standards: *const i32,
        standards_len: Length,
        edge: i32,
        edge2: i32,
        delta: i32,
        own_delta: *mut i32,
    ) -> u8;

    fn khs_align_stem_edges(
        edges: *mut i32,
        edges_len: Length,
        dim: i32,
        group: i32,
        stem_adjust: i32,
        top_to_bottom: i32,
        anchor: i32,
        rule: i32,
        standards: *const i32,
        standards_len: Length,
        count: *mut i32,
        found: *mut i32,
    ) -> u8;

    fn khs_align_blues_and_stems(
        edges: *mut i32,
        edges_len: Length,
        dim: i32,
        group: i32,
        stem_adjust: i32,
        top_to_bottom: i32,
        rule: i32,
        standards: *const i32,
        standards_len: Length,
        count: *mut i32,
        anchor: *mut i32,
    ) -> u8;

    fn khs_align_remaining_edges(
        edges: *mut i32,
        edges_len: Length,
        dim: i32,
        group: i32,
        count: i32,
        anchor: i32,
        found: *mut i32,
    ) -> u8;

    fn khs_hint_lowercase_m(edges: *mut i32, edges_len: Length, group: i32) -> u8;

    fn khs_lost_gaps(
        edges: *const i32,
        edges_len: Length,
        least: i32,
        linked: i32,
        count: *mut i32,
        first: *mut i32,
        second: *mut i32,
        before: *mut i32,
        after: *mut i32,
        stems: *mut i32,
        not_done: *mut i32,
    ) -> u8;

    fn khs_align_edge_points(
        segments: *const i32,
        segments_len: Length,
        edges: *const i32,
        edges_len: Length,
        snap: i32,
        done_alone: i32,
        currents: *mut i32,
        currents_len: Length,
        touched: *mut u8,
        touched_len: Length,
        ends: *const u16,
        ends_len: Length,
    ) -> u8;

    fn khs_align_strong_points(
        edges: *const i32,
        edges_len: Length,
        fonts: *const i16,
        fonts_len: Length,
        originals: *const i32,
        originals_len: Length,
        currents: *mut i32,
        currents_len: Length,
        touched: *mut u8,
        touched_len: Length,
        weak: *const u8,
        weak_len: Length,
    ) -> u8;

    fn khs_fit_axis(
        segments: *const i32,
        segments_len: Length,
        edges: *mut i32,
        edges_len: Length,
        numbers: *const i32,
        numbers_len: Length,
        standards: *const i32,
        standards_len: Length,
        fonts: *const i16,
        fonts_len: Length,
        originals: *const i32,
        originals_len: Length,
        currents: *mut i32,
        currents_len: Length,
        touched: *mut u8,
        touched_len: Length,
        weak: *const u8,
        weak_len: Length,
        ends: *const u16,
        ends_len: Length,
        fitted: *mut i32,
        fitted_len: Length,
    ) -> u8;

    fn khs_path_step(
        xs: *const i32,
        xs_len: Length,
        ys: *const i32,
        ys_len: Length,
        marks: *const u8,
        marks_len: Length,
        ends: *const u16,
        ends_len: Length,
        cursor: u32,
        kind: *mut u8,
        places: *mut [f32; 4],
        next: *mut u32,
    ) -> u8;

    fn khs_path(
        xs: *const i32,
        xs_len: Length,
        ys: *const i32,
        ys_len: Length,
        marks: *const u8,
        marks_len: Length,
        ends: *const u16,
        ends_len: Length,
        kinds: *mut u8,
        kinds_len: Length,
        places: *mut f32,
        places_len: Length,
        count: *mut u32,
    ) -> u8;

    fn khs_count_shown(
        xs: *const i32,
        xs_len: Length,
        ys: *const i32,
        ys_len: Length,
        marks: *const u8,
        marks_len: Length,
        ends: *const u16,
        ends_len: Length,
        magnify: i32,
        black: *mut u32,
        euler: *mut i32,
    ) -> u8;

    fn khs_write_frame(
        originals: *const i32,
        originals_len: Length,
        currents: *const i32,
        currents_len: Length,
        touched: *const u8,
        touched_len: Length,
        ends: *const u16,
        ends_len: Length,
        line: *mut u8,
        line_len: Length,
        digits: *mut u32,
    ) -> u8;

    fn khs_read_frame(
        line: *const u8,
        line_len: Length,
        originals: *mut i32,
        originals_len: Length,
        currents: *mut i32,
        currents_len: Length,
        touched: *mut u8,
        touched_len: Length,
        ends: *mut u16,
        ends_len: Length,
        points: *mut u32,
        contours: *mut u32,
    ) -> u8;

    fn khs_turn_over(
        segments: *mut i32,
        segments_len: Length,
        edges: *mut i32,
        edges_len: Length,
    ) -> u8;

    fn khs_mend(
        segments: *mut i32,
        segments_len: Length,
        edges: *mut i32,
        edges_len: Length,
        altered: *mut i32,
        altered_len: Length,
        count: *mut i32,
    ) -> u8;

    fn khs_pack_axis(
        segments: *mut i32,
        segments_len: Length,
        edges: *mut i32,
        edges_len: Length,
        count: *mut i32,
    ) -> u8;
}

/// The length of a list as the library takes it.
fn length<T>(list: &[T]) -> Length {
    list.len() as Length
}

/// The words of lent edges. An edge is its words and nothing else.
fn edge_words(edges: &mut [Edge]) -> (*mut i32, Length) {
    (
        edges.as_mut_ptr().cast(),
        length(edges) * EDGE_WORDS as Length,
    )
}

/// The words of edges that are only read.
fn read_edges(edges: &[Edge]) -> (*const i32, Length) {
    (edges.as_ptr().cast(), length(edges) * EDGE_WORDS as Length)
}

/// The words of segments that are only read.
fn read_segments(segments: &[Segment]) -> (*const i32, Length) {
    (
        segments.as_ptr().cast(),
        length(segments) * SEGMENT_WORDS as Length,
    )
}

/// The words of lent segments. A segment is its words and nothing else.
fn segment_words(segments: &mut [Segment]) -> (*mut i32, Length) {
    (
        segments.as_mut_ptr().cast(),
        length(segments) * SEGMENT_WORDS as Length,
    )
}

pub fn version() -> u32 {
    // SAFETY: the call takes nothing.
    unsafe { khs_version() }
}

pub fn compute_mid_pos(min: i32, max: i32) -> i16 {
    // SAFETY: the call takes numbers alone.
    unsafe { khs_compute_mid_pos(min, max) }
}

pub fn compute_mid_delta(min: i32, max: i32) -> i16 {
    // SAFETY: the call takes numbers alone.
    unsafe { khs_compute_mid_delta(min, max) }
}

pub fn align_weak_points(
    originals: &[i32],
    currents: &mut [i32],
    touched: &[u8],
    ends: &[u16],
) -> u8 {
    // SAFETY: four slices, of which `currents` is lent to this call alone.
    unsafe {
        khs_align_weak_points(
            originals.as_ptr(),
            length(originals),
            currents.as_mut_ptr(),
            length(currents),
            touched.as_ptr(),
            length(touched),
            ends.as_ptr(),
            length(ends),
        )
    }
}

pub fn remember_references(
    touched: &[u8],
    ends: &[u16],
    before: &mut [u16],
    behind: &mut [u16],
) -> u8 {
    // SAFETY: four slices, of which `before` and `behind` are lent to this call alone.
    unsafe {
        khs_remember_references(
            touched.as_ptr(),
            length(touched),
            ends.as_ptr(),
            length(ends),
            before.as_mut_ptr(),
            length(before),
            behind.as_mut_ptr(),
            length(behind),
        )
    }
}

pub fn align_with_references(
    originals: &[i32],
    currents: &mut [i32],
    touched: &[u8],
    ends: &[u16],
    before: &[u16],
    behind: &[u16],
) -> u8 {
    // SAFETY: six slices, of which `currents` is lent to this call alone.
    unsafe {
        khs_align_with_references(
            originals.as_ptr(),
            length(originals),
            currents.as_mut_ptr(),
            length(currents),
            touched.as_ptr(),
            length(touched),
            ends.as_ptr(),
            length(ends),
            before.as_ptr(),
            length(before),
            behind.as_ptr(),
            length(behind),
        )
    }
}

pub fn drag_point(
    originals: &[i32],
    currents: &mut [i32],
    touched: &[u8],
    ends: &[u16],
    point: u32,
) -> u8 {
    // SAFETY: four slices, of which `currents` is lent to this call alone.
    unsafe {
        khs_drag_point(
            originals.as_ptr(),
            length(originals),
            currents.as_mut_ptr(),
            length(currents),
            touched.as_ptr(),
            length(touched),
            ends.as_ptr(),
            length(ends),
            point,
        )
    }
}

pub fn align_catalogue(catalogue: &Catalogue<'_>, currents: &mut [i32], answers: &mut [u8]) -> u8 {
    // SAFETY: seven slices, of which `currents` and `answers` are lent to this call alone.
    unsafe {
        khs_align_catalogue(
            catalogue.originals.as_ptr(),
            length(catalogue.originals),
            currents.as_mut_ptr(),
            length(currents),
            catalogue.touched.as_ptr(),
            length(catalogue.touched),
            catalogue.ends.as_ptr(),
            length(catalogue.ends),
            catalogue.point_counts.as_ptr(),
            length(catalogue.point_counts),
            catalogue.contour_counts.as_ptr(),
            length(catalogue.contour_counts),
            answers.as_mut_ptr(),
            length(answers),
        )
    }
}

pub fn link_segments_cjk(
    segments: &mut [Segment],
    major_dir: i32,
    units_per_em: i32,
    scale: i32,
) -> u8 {
    let (words, len) = segment_words(segments);
    // SAFETY: one slice, lent to this call alone.
    unsafe { khs_link_segments_cjk(words, len, major_dir, units_per_em, scale) }
}

/// `[dim, major_dir, group, top_to_bottom, scale, distance, length, width]` are the numbers.
pub fn compute_edges(
    segments: &mut [Segment],
    room: &mut [Edge],
    numbers: [i32; 8],
    count: &mut i32,
) -> u8 {
    let (words, len) = segment_words(segments);
    let (edges, edges_len) = edge_words(room);
    let [dim, major_dir, group, top_to_bottom, scale, distance, length, width] = numbers;
    // SAFETY: two slices and a place, lent to this call alone.
    unsafe {
        khs_compute_edges(
            words,
            len,
            edges,
            edges_len,
            dim,
            major_dir,
            group,
            top_to_bottom,
            scale,
            distance,
            length,
            width,
            count,
        )
    }
}

pub fn align_edges_to_blues(
    edges: &mut [Edge],
    dim: i32,
    group: i32,
    (rule, standards): (i32, &[i32]),
    anchor: &mut i32,
) -> u8 {
    let (words, len) = edge_words(edges);
    // SAFETY: two slices and a place, of which `edges` and `anchor` are lent to this call alone.
    unsafe {
        khs_align_edges_to_blues(
            words,
            len,
            dim,
            group,
            rule,
            standards.as_ptr(),
            length(standards),
            anchor,
        )
    }
}

pub fn align_linked_edge(
    edges: &mut [Edge],
    (rule, standards): (i32, &[i32]),
    base: i32,
    stem: i32,
) -> u8 {
    let (words, len) = edge_words(edges);
    // SAFETY: two slices, of which `edges` is lent to this call alone.
    unsafe {
        khs_align_linked_edge(
            words,
            len,
            rule,
            standards.as_ptr(),
            length(standards),
            base,
            stem,
        )
    }
}

pub fn align_serif_edge(edges: &mut [Edge], base: i32, serif: i32) -> u8 {
    let (words, len) = edge_words(edges);
    // SAFETY: one slice, lent to this call alone.
    unsafe { khs_align_serif_edge(words, len, base, serif) }
}

pub fn adjust_link(edges: &mut [Edge], edge: i32, dir: i32, top_to_bottom: i32) -> u8 {
    let (words, len) = edge_words(edges);
    // SAFETY: one slice, lent to this call alone.
    unsafe { khs_adjust_link(words, len, edge, dir, top_to_bottom) }
}

pub fn latin_remaining_bounds(edges: &[Edge], edge: i32, lower: &mut i32, upper: &mut i32) -> u8 {
    let (words, len) = read_edges(edges);
    // SAFETY: one slice and two places, which are lent to this call alone.
    unsafe { khs_latin_remaining_bounds(words, len, edge, lower, upper) }
}

/// `[edge, second, delta]` are the numbers behind the width rule.
pub fn hint_normal_stem_cjk(
    edges: &mut [Edge],
    dim: i32,
    stem_adjust: i32,
    (rule, standards): (i32, &[i32]),
    [edge, second, delta]: [i32; 3],
    own_delta: &mut i32,
) -> u8 {
    let (words, len) = edge_words(edges);
    // SAFETY: two slices and a place, of which `edges` and `own_delta` are lent to this call alone.
    unsafe {
        khs_hint_normal_stem_cjk(
            words,
            len,
            dim,
            stem_adjust,
            rule,
            standards.as_ptr(),
            length(standards),
            edge,
            second,
            delta,
            own_delta,
        )
    }
}

/// `[dim, group, stem_adjust, top_to_bottom, anchor]` are the numbers in front of the width rule.
pub fn align_stem_edges(
    edges: &mut [Edge],
    [dim, group, stem_adjust, top_to_bottom, anchor]: [i32; 5],
    (rule, standards): (i32, &[i32]),
    count: &mut i32,
    found: &mut i32,
) -> u8 {
    let (words, len) = edge_words(edges);
    // SAFETY: two slices and two places, of which all but `standards` are lent to this call alone.
    unsafe {
        khs_align_stem_edges(
            words,
            len,
            dim,
            group,
            stem_adjust,
            top_to_bottom,
            anchor,
            rule,
            standards.as_ptr(),
            length(standards),
            count,
            found,
        )
    }
}

/// `[dim, group, stem_adjust, top_to_bottom]` are the numbers in front of the width rule.
pub fn align_blues_and_stems(
    edges: &mut [Edge],
    [dim, group, stem_adjust, top_to_bottom]: [i32; 4],
    (rule, standards): (i32, &[i32]),
    count: &mut i32,
    anchor: &mut i32,
) -> u8 {
    let (words, len) = edge_words(edges);
    // SAFETY: two slices and two places, of which all but `standards` are lent to this call alone.
    unsafe {
        khs_align_blues_and_stems(
            words,
            len,
            dim,
            group,
            stem_adjust,
            top_to_bottom,
            rule,
            standards.as_ptr(),
            length(standards),
            count,
            anchor,
        )
    }
}

/// `[dim, group, count, anchor]` are the numbers.
pub fn align_remaining_edges(
    edges: &mut [Edge],
    [dim, group, count, anchor]: [i32; 4],
    found: &mut i32,
) -> u8 {
    let (words, len) = edge_words(edges);
    // SAFETY: one slice and a place, lent to this call alone.
    unsafe { khs_align_remaining_edges(words, len, dim, group, count, anchor, found) }
}

pub fn hint_lowercase_m(edges: &mut [Edge], group: i32) -> u8 {
    let (words, len) = edge_words(edges);
    // SAFETY: one slice, lent to this call alone.
    unsafe { khs_hint_lowercase_m(words, len, group) }
}

/// The places are for the count of gaps, the two edges and the two widths of the first pair, the count of stems and that of edges that are not done.
pub fn lost_gaps(edges: &[Edge], least: i32, linked: i32, places: &mut [i32; 7]) -> u8 {
    let (words, len) = read_edges(edges);
    let [count, first, second, before, after, stems, not_done] = places;
    // SAFETY: one slice and seven places, which are lent to this call alone.
    unsafe {
        khs_lost_gaps(
            words, len, least, linked, count, first, second, before, after, stems, not_done,
        )
    }
}

/// `[snap, done_alone]` are the choices.
pub fn align_edge_points(
    segments: &[Segment],
    edges: &[Edge],
    [snap, done_alone]: [i32; 2],
    currents: &mut [i32],
    touched: &mut [u8],
    ends: &[u16],
) -> u8 {
    let (words, len) = read_segments(segments);
    let (edges, edges_len) = read_edges(edges);
    let (currents_len, touched_len) = (length(currents), length(touched));
    // SAFETY: five slices, of which `currents` and `touched` are lent to this call alone.
    unsafe {
        khs_align_edge_points(
            words,
            len,
            edges,
            edges_len,
            snap,
            done_alone,
            currents.as_mut_ptr(),
            currents_len,
            touched.as_mut_ptr(),
            touched_len,
            ends.as_ptr(),
            length(ends),
        )
    }
}

pub fn align_strong_points(
    edges: &[Edge],
    fonts: &[i16],
    originals: &[i32],
    currents: &mut [i32],
    touched: &mut [u8],
    weak: &[u8],
) -> u8 {
    let (words, len) = read_edges(edges);
    let (currents_len, touched_len) = (length(currents), length(touched));
    // SAFETY: six slices, of which `currents` and `touched` are lent to this call alone.
    unsafe {
        khs_align_strong_points(
            words,
            len,
            fonts.as_ptr(),
            length(fonts),
            originals.as_ptr(),
            length(originals),
            currents.as_mut_ptr(),
            currents_len,
            touched.as_mut_ptr(),
            touched_len,
            weak.as_ptr(),
            length(weak),
        )
    }
}

/// `numbers` and `fitted` are the words of the C structs `khs_fit` and `khs_fitted`.
pub fn fit_axis(
    segments: &[Segment],
    edges: &mut [Edge],
    (numbers, standards): (&[i32; 9], &[i32]),
    points: &AxisPoints<'_>,
    currents: &mut [i32],
    touched: &mut [u8],
    fitted: &mut [i32; 9],
) -> u8 {
    let (words, len) = read_segments(segments);
    let (edges, edges_len) = edge_words(edges);
    let (currents_len, touched_len) = (length(currents), length(touched));
    let fitted_len = length(fitted);
    // SAFETY: eleven slices, of which `edges`, `currents`, `touched` and `fitted` are lent to this call alone.
    unsafe {
        khs_fit_axis(
            words,
            len,
            edges,
            edges_len,
            numbers.as_ptr(),
            length(numbers),
            standards.as_ptr(),
            length(standards),
            points.fonts.as_ptr(),
            length(points.fonts),
            points.originals.as_ptr(),
            length(points.originals),
            currents.as_mut_ptr(),
            currents_len,
            touched.as_mut_ptr(),
            touched_len,
            points.weak.as_ptr(),
            length(points.weak),
            points.ends.as_ptr(),
            length(points.ends),
            fitted.as_mut_ptr(),
            fitted_len,
        )
    }
}

pub fn path_step(
    outline: &Outline<'_>,
    cursor: u32,
    kind: &mut u8,
    places: &mut [f32; 4],
    next: &mut u32,
) -> u8 {
    // SAFETY: four slices and three places, of which the places are lent to this call alone.
    unsafe {
        khs_path_step(
            outline.xs.as_ptr(),
            length(outline.xs),
            outline.ys.as_ptr(),
            length(outline.ys),
            outline.marks.as_ptr(),
            length(outline.marks),
            outline.ends.as_ptr(),
            length(outline.ends),
            cursor,
            kind,
            places,
            next,
        )
    }
}

pub fn path(outline: &Outline<'_>, kinds: &mut [u8], places: &mut [f32], count: &mut u32) -> u8 {
    // SAFETY: six slices and a place, of which `kinds`, `places` and `count` are lent to this call alone.
    unsafe {
        khs_path(
            outline.xs.as_ptr(),
            length(outline.xs),
            outline.ys.as_ptr(),
            length(outline.ys),
            outline.marks.as_ptr(),
            length(outline.marks),
            outline.ends.as_ptr(),
            length(outline.ends),
            kinds.as_mut_ptr(),
            length(kinds),
            places.as_mut_ptr(),
            length(places),
            count,
        )
    }
}

pub fn count_shown(outline: &Outline<'_>, magnify: i32, black: &mut u32, euler: &mut i32) -> u8 {
    // SAFETY: four slices, and two places that are lent to this call alone.
    unsafe {
        khs_count_shown(
            outline.xs.as_ptr(),
            length(outline.xs),
            outline.ys.as_ptr(),
            length(outline.ys),
            outline.marks.as_ptr(),
            length(outline.marks),
            outline.ends.as_ptr(),
            length(outline.ends),
            magnify,
            black,
            euler,
        )
    }
}

pub fn write_frame(
    originals: &[i32],
    currents: &[i32],
    touched: &[u8],
    ends: &[u16],
    line: &mut [u8],
    digits: &mut u32,
) -> u8 {
    // SAFETY: five slices, of which `line` is lent to this call alone, as is `digits`.
    unsafe {
        khs_write_frame(
            originals.as_ptr(),
            length(originals),
            currents.as_ptr(),
            length(currents),
            touched.as_ptr(),
            length(touched),
            ends.as_ptr(),
            length(ends),
            line.as_mut_ptr(),
            length(line),
            digits,
        )
    }
}

pub fn read_frame(
    line: &[u8],
    originals: &mut [i32],
    currents: &mut [i32],
    touched: &mut [u8],
    ends: &mut [u16],
    points: &mut u32,
    contours: &mut u32,
) -> u8 {
    // SAFETY: five slices, of which the last four are lent to this call alone, as are the two counts.
    unsafe {
        khs_read_frame(
            line.as_ptr(),
            length(line),
            originals.as_mut_ptr(),
            length(originals),
            currents.as_mut_ptr(),
            length(currents),
            touched.as_mut_ptr(),
            length(touched),
            ends.as_mut_ptr(),
            length(ends),
            points,
            contours,
        )
    }
}

pub fn turn_over(segments: &mut [Segment], edges: &mut [Edge]) -> u8 {
    let (words, len) = segment_words(segments);
    let (edges, edges_len) = edge_words(edges);
    // SAFETY: two slices, lent to this call alone.
    unsafe { khs_turn_over(words, len, edges, edges_len) }
}

pub fn mend(
    segments: &mut [Segment],
    edges: &mut [Edge],
    altered: &mut [i32],
    count: &mut i32,
) -> u8 {
    let (words, len) = segment_words(segments);
    let (edges, edges_len) = edge_words(edges);
    let room = length(altered);
    // SAFETY: three slices and a place, lent to this call alone.
    unsafe {
        khs_mend(
            words,
            len,
            edges,
            edges_len,
            altered.as_mut_ptr(),
            room,
            count,
        )
    }
}

pub fn pack_axis(segments: &mut [Segment], edges: &mut [Edge], count: &mut i32) -> u8 {
    let (words, len) = segment_words(segments);
    let (edges, edges_len) = edge_words(edges);
    // SAFETY: two slices and a place, lent to this call alone.
    unsafe { khs_pack_axis(words, len, edges, edges_len, count) }
}

//! The library's functions as include/khsaemudol.h declares them, and what memory is lent with.

extern "C" {
    pub fn khs_compute_mid_pos(min: i32, max: i32) -> i16;
    pub fn khs_compute_mid_delta(min: i32, max: i32) -> i16;
    pub fn khs_align_weak_points(
        originals: *const i32,
        originals_len: usize,
        currents: *mut i32,
        currents_len: usize,
        touched: *const u8,
        touched_len: usize,
        ends: *const u16,
        ends_len: usize,
    ) -> u8;
    pub fn khs_align_catalogue(
        originals: *const i32,
        originals_len: usize,
        currents: *mut i32,
        currents_len: usize,
        touched: *const u8,
        touched_len: usize,
        ends: *const u16,
        ends_len: usize,
        point_counts: *const u16,
        point_counts_len: usize,
        contour_counts: *const u16,
        contour_counts_len: usize,
        answers: *mut u8,
        answers_len: usize,
    ) -> u8;
    pub fn khs_remember_references(
        touched: *const u8,
        touched_len: usize,
        ends: *const u16,
        ends_len: usize,
        before: *mut u16,
        before_len: usize,
        behind: *mut u16,
        behind_len: usize,
    ) -> u8;
    pub fn khs_align_with_references(
        originals: *const i32,
        originals_len: usize,
        currents: *mut i32,
        currents_len: usize,
        touched: *const u8,
        touched_len: usize,
        ends: *const u16,
        ends_len: usize,
        before: *const u16,
        before_len: usize,
        behind: *const u16,
        behind_len: usize,
    ) -> u8;
    pub fn khs_drag_point(
        originals: *const i32,
        originals_len: usize,
        currents: *mut i32,
        currents_len: usize,
        touched: *const u8,
        touched_len: usize,
        ends: *const u16,
        ends_len: usize,
        point: u32,
    ) -> u8;
    pub fn khs_link_segments_cjk(
        segments: *mut i32,
        segments_len: usize,
        major_dir: i32,
        units_per_em: i32,
        scale: i32,
    ) -> u8;
    pub fn khs_compute_edges(
        segments: *mut i32,
        segments_len: usize,
        edges: *mut i32,
        edges_len: usize,
        dim: i32,
        major_dir: i32,
        group: i32,
        top_to_bottom: i32,
        scale: i32,
        distance: i32,
        length: i32,
        width: i32,
        count: *mut i32,
    ) -> u8;
    pub fn khs_align_edges_to_blues(
        edges: *mut i32,
        edges_len: usize,
        dim: i32,
        group: i32,
        rule: i32,
        standards: *const i32,
        standards_len: usize,
        anchor: *mut i32,
    ) -> u8;
    pub fn khs_align_linked_edge(
        edges: *mut i32,
        edges_len: usize,
        rule: i32,
        standards: *const i32,
        standards_len: usize,
        base: i32,
        stem: i32,
    ) -> u8;
    pub fn khs_align_serif_edge(edges: *mut i32, edges_len: usize, base: i32, serif: i32) -> u8;
    pub fn khs_adjust_link(
        edges: *mut i32,
        edges_len: usize,
        edge: i32,
        dir: i32,
        top_to_bottom: i32,
    ) -> u8;
    pub fn khs_latin_remaining_bounds(
        edges: *const i32,
        edges_len: usize,
        edge: i32,
        lower: *mut i32,
        upper: *mut i32,
    ) -> u8;
    pub fn khs_hint_normal_stem_cjk(
        edges: *mut i32,
        edges_len: usize,
        dim: i32,
        stem_adjust: i32,
        rule: i32,
        standards: *const i32,
        standards_len: usize,
        edge: i32,
        edge2: i32,
        delta: i32,
        own_delta: *mut i32,
    ) -> u8;
    pub fn khs_align_stem_edges(
        edges: *mut i32,
        edges_len: usize,
        dim: i32,
        group: i32,
        stem_adjust: i32,
        top_to_bottom: i32,
        anchor: i32,
        rule: i32,
        standards: *const i32,
        standards_len: usize,
        count: *mut i32,
        found: *mut i32,
    ) -> u8;
    pub fn khs_align_blues_and_stems(
        edges: *mut i32,
        edges_len: usize,
        dim: i32,
        group: i32,
        stem_adjust: i32,
        top_to_bottom: i32,
        rule: i32,
        standards: *const i32,
        standards_len: usize,
        count: *mut i32,
        anchor: *mut i32,
    ) -> u8;
    pub fn khs_align_remaining_edges(
        edges: *mut i32,
        edges_len: usize,
        dim: i32,
        group: i32,
        count: i32,
        anchor: i32,
        found: *mut i32,
    ) -> u8;
    pub fn khs_hint_lowercase_m(edges: *mut i32, edges_len: usize, group: i32) -> u8;
    pub fn khs_lost_gaps(
        edges: *const i32,
        edges_len: usize,
        least: i32,
        linked: i32,
        count: *mut i32,
        first: *mut i32,
        second: *mut i32,
        before: *mut i32,
        after: *mut i32,
        stems: *mut i32,
        not_done: *mut i32,
    ) -> u8;
    pub fn khs_align_edge_points(
        segments: *const i32,
        segments_len: usize,
        edges: *const i32,
        edges_len: usize,
        snap: i32,
        done_alone: i32,
        currents: *mut i32,
        currents_len: usize,
        touched: *mut u8,
        touched_len: usize,
        ends: *const u16,
        ends_len: usize,
    ) -> u8;
    pub fn khs_align_strong_points(
        edges: *const i32,
        edges_len: usize,
        fonts: *const i16,
        fonts_len: usize,
        originals: *const i32,
        originals_len: usize,
        currents: *mut i32,
        currents_len: usize,
        touched: *mut u8,
        touched_len: usize,
        weak: *const u8,
        weak_len: usize,
    ) -> u8;
    pub fn khs_fit_axis(
        segments: *const i32,
        segments_len: usize,
        edges: *mut i32,
        edges_len: usize,
        numbers: *const i32,
        numbers_len: usize,
        standards: *const i32,
        standards_len: usize,
        fonts: *const i16,
        fonts_len: usize,
        originals: *const i32,
        originals_len: usize,
        currents: *mut i32,
        currents_len: usize,
        touched: *mut u8,
        touched_len: usize,
        weak: *const u8,
        weak_len: usize,
        ends: *const u16,
        ends_len: usize,
        fitted: *mut i32,
        fitted_len: usize,
    ) -> u8;
    pub fn khs_count_shown(
        xs: *const i32,
        xs_len: usize,
        ys: *const i32,
        ys_len: usize,
        marks: *const u8,
        marks_len: usize,
        ends: *const u16,
        ends_len: usize,
        magnify: i32,
        black: *mut u32,
        euler: *mut i32,
    ) -> u8;
    pub fn khs_path_step(
        xs: *const i32,
        xs_len: usize,
        ys: *const i32,
        ys_len: usize,
        marks: *const u8,
        marks_len: usize,
        ends: *const u16,
        ends_len: usize,
        cursor: u32,
        kind: *mut u8,
        places: *mut f32,
        next: *mut u32,
    ) -> u8;
    pub fn khs_path(
        xs: *const i32,
        xs_len: usize,
        ys: *const i32,
        ys_len: usize,
        marks: *const u8,
        marks_len: usize,
        ends: *const u16,
        ends_len: usize,
        kinds: *mut u8,
        kinds_len: usize,
        places: *mut f32,
        places_len: usize,
        count: *mut u32,
    ) -> u8;
    pub fn khs_write_frame(
        originals: *const i32,
        originals_len: usize,
        currents: *const i32,
        currents_len: usize,
        touched: *const u8,
        touched_len: usize,
        ends: *const u16,
        ends_len: usize,
        line: *mut u8,
        line_len: usize,
        digits: *mut u32,
    ) -> u8;
    pub fn khs_read_frame(
        line: *const u8,
        line_len: usize,
        originals: *mut i32,
        originals_len: usize,
        currents: *mut i32,
        currents_len: usize,
        touched: *mut u8,
        touched_len: usize,
        ends: *mut u16,
        ends_len: usize,
        points: *mut u32,
        contours: *mut u32,
    ) -> u8;
    pub fn khs_mend(
        segments: *mut i32,
        segments_len: usize,
        edges: *mut i32,
        edges_len: usize,
        altered: *mut i32,
        altered_len: usize,
        count: *mut i32,
    ) -> u8;
    pub fn khs_pack_axis(
        segments: *mut i32,
        segments_len: usize,
        edges: *mut i32,
        edges_len: usize,
        count: *mut i32,
    ) -> u8;
    pub fn khs_turn_over(
        segments: *mut i32,
        segments_len: usize,
        edges: *mut i32,
        edges_len: usize,
    ) -> u8;
}

// Linux's C library; the numbers below are the same on its processors.
extern "C" {
    pub fn mmap(
        at: *mut u8,
        len: usize,
        protection: i32,
        flags: i32,
        file: i32,
        offset: i64,
    ) -> *mut u8;
    pub fn mprotect(at: *mut u8, len: usize, protection: i32) -> i32;
    pub fn signal(number: i32, handler: extern "C" fn(i32)) -> usize;
    pub fn _exit(status: i32) -> !;
}

/// Memory that can be neither read nor written.
pub const PROT_NONE: i32 = 0;
/// Memory that can be both.
pub const PROT_READ_WRITE: i32 = 3;
/// Memory of this process, of no file.
pub const MAP_PRIVATE_ANONYMOUS: i32 = 0x22;
/// The signals of a read or write outside memory.
pub const SIGBUS: i32 = 7;
pub const SIGSEGV: i32 = 11;

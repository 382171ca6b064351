//! Jobs made up from a seed.

mod axes;
mod catalogue;
mod damage;
mod drag;
pub mod edge_points;
mod edges;
pub mod few;
mod files;
pub mod fit;
mod frames;
mod limits;
mod logs;
mod path;
pub mod patterns;
mod points;
mod random;
mod references;
mod remaining;
mod saved;
mod segments;
pub mod shown;
pub mod small_axes;
pub mod strong;

pub use files::file;
pub use logs::{good_log, log};
pub use random::Random;

use crate::{
    job::{CjkStem, Dimension, Edge, Job, Joined, ScriptGroup, Stems, Table, WidthRule},
    joined,
    limits::{DELTA, LEAST},
    text,
    words::encode,
};

/// What kind of jobs are made up.
#[derive(Copy, Clone, PartialEq, Debug)]
pub enum Profile {
    /// A blend of all, with data like a glyph's.
    Mixed,
    /// Few elements over few values, so that ties and equal indices meet.
    Small,
    /// Values and counts at document 01's limits and just beyond.
    Limits,
    /// Good jobs, damaged: most are no jobs.
    Damaged,
}

/// All profiles with their names.
pub const PROFILES: [(&str, Profile); 4] = [
    ("mixed", Profile::Mixed),
    ("small", Profile::Small),
    ("limits", Profile::Limits),
    ("damaged", Profile::Damaged),
];

/// A job line for a call, without its line feed.
pub fn line(call: usize, profile: Profile, random: &mut Random) -> Vec<u8> {
    let profile = match profile {
        Profile::Mixed => mixed(random),
        other => other,
    };
    match profile {
        Profile::Mixed => good(call, false, random),
        Profile::Small => good(call, true, random),
        Profile::Limits => limits::line(call, random),
        Profile::Damaged => damage::line(call, random),
    }
}

/// What a job of the blend is.
fn mixed(random: &mut Random) -> Profile {
    match random.below(20) {
        0..=7 => Profile::Small,
        8..=15 => Profile::Mixed,
        16..=18 => Profile::Limits,
        _ => Profile::Damaged,
    }
}

/// The line of a job within the limits.
fn good(call: usize, small: bool, random: &mut Random) -> Vec<u8> {
    let job = job(call, small, random);
    text::write(&encode(&job).values).into_bytes()
}

/// A job within the limits, or nearly always so.
fn job(call: usize, small: bool, random: &mut Random) -> Job {
    match call {
        1 => Job::MidPos(any_word(random), any_word(random)),
        2 => Job::MidDelta(any_word(random), any_word(random)),
        3 => Job::Weak(points::points(small, random)),
        4 => segments::link(small, random),
        15 | 16 => path::job(call, small, random),
        17 => catalogue::job(small, random),
        18 => references::remember(small, random),
        19 => references::align(small, random),
        20 => drag::job(small, random),
        25 => frames::write(small, random),
        26 => frames::read(small, random),
        105 => segments::build(small, random),
        121 => saved::mend(small, random),
        122 => blues_and_stems(small, random),
        123 => saved::pack(small, random),
        124 => axes::turn_over(small, random),
        127 => gaps(small, random),
        128 => edge_points::job(small, random),
        129 => fit::job(small, random),
        130 => remaining::job(small, random),
        131 => strong::job(small, random),
        132 => shown::job(small, random),
        _ => on_edges(call, small, random),
    }
}

/// A job of calls 106 to 114.
fn on_edges(call: usize, small: bool, random: &mut Random) -> Job {
    if call >= 113 {
        let (edges, group) = edges::lowercase_m(random);
        return match call {
            113 => Job::M(Table::of(edges), group),
            _ => Job::MLent(edges, group),
        };
    }
    let edges = edges::edges(small, random);
    let count = edges.len();
    let table = Table::of(edges);
    let rule = edges::rule(random);
    match call {
        106 => Job::Blues(table, dimension(random), group(random), rule),
        107 => Job::Linked(table, rule, named(count, random), named(count, random)),
        108 => Job::Serif(table, named(count, random), named(count, random)),
        109 => adjust_link(table, random),
        110 => Job::Bounds(table, named(count, random)),
        111 => cjk_stem(table, rule, random),
        _ => stem_pass(table, rule, random),
    }
}

/// A job of `adjust_link`: mostly on an edge that its neighbours are near.
fn adjust_link(table: Table<Edge>, random: &mut Random) -> Job {
    let (table, edge) = if random.once_in(3) {
        let edge = named(table.count, random);
        (table, edge)
    } else {
        (Table::of(edges::neighbours(random)), 1)
    };
    Job::Adjust(table, edge, random.coin(), old_order(random))
}

/// A job of the stem pass: mostly on stems one behind the other.
fn stem_pass(table: Table<Edge>, rule: WidthRule, random: &mut Random) -> Job {
    let table = if random.once_in(3) {
        table
    } else {
        Table::of(edges::stems(random))
    };
    let given = Stems {
        dim: dimension(random),
        group: group(random),
        stem_adjust: random.coin(),
        top_to_bottom: old_order(random),
        anchor: random.coin().then(|| named(table.count, random)),
        rule,
    };
    Job::Stems(table, given)
}

/// A job of blues and stems in one call: mostly with zones, seldom where they are refused.
fn blues_and_stems(small: bool, random: &mut Random) -> Job {
    let mut edges = edges::zoned(small, random);
    let given = Joined {
        dim: dimension(random),
        group: group(random),
        stem_adjust: random.coin(),
        top_to_bottom: old_order(random),
        rule: edges::rule(random),
    };
    drop_skipped_zones(&mut edges, given.dim, given.group, random);
    Job::Joined(Table::of(edges), given)
}

/// Takes the zones from edges on the axis where they are refused, the default group's horizontal one, but for once in four times.
fn drop_skipped_zones(edges: &mut [Edge], dim: Dimension, group: ScriptGroup, random: &mut Random) {
    let skipped = group == ScriptGroup::Default && dim == Dimension::Horizontal;
    if skipped && random.below(4) > 0 {
        for edge in edges {
            edge.blue_edge = None;
        }
    }
}

/// A job of the guard: mostly on edges whose gaps and stems are lost here and there, or on what blues and stems leave, with a least width about that of a pair.
fn gaps(small: bool, random: &mut Random) -> Job {
    let edges = match blues_and_stems(small, random) {
        Job::Joined(mut edges, given) if random.once_in(4) => {
            let _ = joined::align_blues_and_stems(&mut edges, &given);
            edges.items
        }
        _ => edges::gapped(small, random),
    };
    let least = least(&edges, random);
    Job::Gaps(Table::of(edges), least, random.coin())
}

/// A least width of gaps: about that of a pair of these edges, a common one, or 0.
fn least(edges: &[Edge], random: &mut Random) -> i32 {
    let ix = random.below(edges.len());
    let width = edges[ix].opos - edges[ix.saturating_sub(random.below(3) + 1)].opos;
    match random.below(3) {
        0 => random.pick(&[0, 1, 31, 32, 33, 64, *LEAST.end()]),
        1 => 0,
        _ => (width + random.between(-1, 1)).clamp(*LEAST.start(), *LEAST.end()),
    }
}

/// A job of the CJK stem: mostly a narrow one.
fn cjk_stem(table: Table<Edge>, rule: WidthRule, random: &mut Random) -> Job {
    let narrow = random.below(4) > 0;
    let table = if narrow {
        Table::of(edges::stem(random))
    } else {
        table
    };
    let edge = if narrow {
        0
    } else {
        named(table.count, random)
    };
    let edge2 = if narrow {
        1
    } else {
        named(table.count, random)
    };
    let given = CjkStem {
        dim: dimension(random),
        stem_adjust: random.coin(),
        rule,
        edge,
        edge2,
        delta: delta(random),
    };
    Job::CjkStem(table, given)
}

/// A word for the middles: often near where the sum, the half or the low 16 bits turn over.
fn any_word(random: &mut Random) -> i32 {
    match random.below(6) {
        0 => random.between(-4, 4),
        1 => random
            .pick(&[i32::MIN, i32::MAX])
            .wrapping_add(random.between(-3, 3)),
        2 => random.pick(&[-65_536, -32_768, 32_768, 65_536]) + random.between(-3, 3),
        3 => random.between(-40_000, 40_000),
        4 => 1i32
            .wrapping_shl(random.below(32) as u32)
            .wrapping_sub(random.between(-1, 1)),
        _ => random.bits() as i32,
    }
}

/// An edge named in a call.
fn named(count: usize, random: &mut Random) -> u16 {
    random.below(count.max(1)) as u16
}

/// A delta passed to the CJK stem.
fn delta(random: &mut Random) -> i32 {
    match random.below(4) {
        0 => 0,
        1 => random.between(-14, 14),
        2 => random.between(-80, 80),
        _ => random.between(*DELTA.start(), *DELTA.end()),
    }
}

/// Whether the old order is asked for: seldom, since it is refused.
fn old_order(random: &mut Random) -> bool {
    random.once_in(24)
}

/// A dimension.
fn dimension(random: &mut Random) -> Dimension {
    random.pick(&[Dimension::Horizontal, Dimension::Vertical])
}

/// A group.
fn group(random: &mut Random) -> ScriptGroup {
    random.pick(&[ScriptGroup::Default, ScriptGroup::Cjk])
}

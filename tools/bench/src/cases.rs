//! What is timed: for each call some kinds of inputs, at several sizes, as jobs.

use crate::{
    by_edges,
    chain::Chain,
    edges,
    outlines::{self, Outlines},
    port,
    segments::{self, Kind},
};
use khsaemudol::{EDGE_WORDS, SEGMENT_WORDS};
use oracle::generate::Random;

/// The calls, by short names.
pub const NAMES: [&str; 20] = [
    "mid",
    "weak",
    "link",
    "build",
    "blues",
    "linked",
    "serif",
    "adjust",
    "bounds",
    "stem",
    "stems",
    "joined",
    "remaining",
    "guard",
    "m",
    "lent",
    "points",
    "strong",
    "path",
    "step",
];

/// The inputs of one round.
pub struct Case {
    pub name: &'static str,
    pub kind: String,
    pub size: usize,
    /// Jobs that are done.
    pub jobs: Vec<Vec<i32>>,
    /// The same, refused by the last test that every one of them meets; none for a call that refuses nothing.
    pub refused: Vec<Vec<i32>>,
    pub role: Role,
}

/// Damages a job of a size so that that test refuses it.
pub type Damage = fn(&mut [i32], usize);

impl Case {
    /// A case of the call itself.
    pub fn own(
        name: &'static str,
        kind: String,
        size: usize,
        jobs: Vec<Vec<i32>>,
        damage: Damage,
    ) -> Self {
        let mut refused = jobs.clone();
        for job in &mut refused {
            damage(job, size);
        }
        Self {
            name,
            kind,
            size,
            jobs,
            refused,
            role: Role::Own,
        }
    }
}

/// What a case is in the table of its call.
#[derive(Copy, Clone, PartialEq)]
pub enum Role {
    /// The call itself.
    Own,
    /// Beside blues and stems in one call, or a whole axis: its steps by a call each.
    Apart,
    /// Beside the guard: the call whose edges it is asked about.
    Fitting,
}

/// The groups of scripts by their words.
pub const GROUPS: [(i32, &str); 2] = [(0, "default group"), (1, "CJK")];

/// Jobs over edges in a round, and glyphs.
pub const ROUND: usize = 16;

/// Whether a name is that of a call, or of a chain, whose cases are its steps.
pub fn is_name(name: &str) -> bool {
    NAMES.contains(&name) || Chain::named(name).is_some()
}

/// The cases of a name.
pub fn cases(name: &str) -> Vec<Case> {
    if let Some(chain) = Chain::named(name) {
        return chain.cases();
    }
    match name {
        "mid" => middles(),
        "weak" => weak(),
        "link" => link(),
        "build" => build(),
        "blues" => by_group("blues", 106, edges::on_zones, |group| vec![1, group, 0, 0]),
        "linked" => single("linked", 107, &[0, 0, 0, 1]),
        "serif" => single("serif", 108, &[0, 3]),
        "adjust" => single("adjust", 109, &[2, 0, 0]),
        "bounds" => single("bounds", 110, &[2]),
        "stem" => single("stem", 111, &[1, 0, 0, 0, 0, 1, 0]),
        "stems" => by_group("stems", 112, edges::stems, |group| {
            vec![1, group, 0, 0, -1, 0, 0]
        }),
        "joined" => joined(),
        "remaining" => by_group("remaining", 130, edges::remaining, |group| {
            vec![1, group, 128, 0]
        }),
        "guard" => guard(),
        "m" => m("m", 113),
        "lent" => m("lent", 114),
        "points" => by_edges::points(),
        "strong" => by_edges::strong(),
        "path" => path(),
        "step" => step(),
        _ => unreachable!("the names are those of NAMES"),
    }
}

/// Pairs of coordinates, for both middles.
fn middles() -> Vec<Case> {
    let mut random = Random::new(1);
    let mut any = || random.between(-1_000_000_000, 1_000_000_000);
    let titles = ["compute_mid_pos", "compute_mid_delta"];
    let case = |(call, title): (i32, &str)| Case {
        name: "mid",
        kind: title.to_string(),
        size: 1,
        jobs: (0..1_000).map(|_| vec![call, any(), any()]).collect(),
        refused: Vec::new(),
        role: Role::Own,
    };
    (1..).zip(titles).map(case).collect()
}

/// Outlines.
fn weak() -> Vec<Case> {
    let mut cases = Vec::new();
    for kind in Outlines::ALL {
        for size in [4, 16, 64, 256, 1_024, 4_096] {
            let mut random = Random::new(size as u64);
            let outline = |_| outlines::job(&outlines::outline(kind, size, &mut random));
            let jobs = (0..4_096_usize.div_ceil(size)).map(outline).collect();
            cases.push(Case::own("weak", kind.title(), size, jobs, far_point));
        }
    }
    cases
}

/// Sets the last original out of range.
pub fn far_point(job: &mut [i32], size: usize) {
    job[1 + size] = 65_536;
}

/// Outlines whose points are on the curve once in so many, each with what a job of a path has behind its lists.
fn paths(
    name: &'static str,
    call: i32,
    sizes: &[usize],
    behind: fn(usize) -> Vec<i32>,
) -> Vec<Case> {
    let mut cases = Vec::new();
    for times in [1, 2, 4] {
        for size in sizes.iter().copied() {
            let mut random = Random::new(size as u64);
            let mut job = |_| {
                let kind = Outlines::Scattered(times);
                let mut words = outlines::job(&outlines::outline(kind, size, &mut random));
                words[0] = call;
                words.extend(behind(size));
                words
            };
            let jobs = (0..4_096_usize.div_ceil(size)).map(&mut job).collect();
            let kind = match times {
                1 => "all points on the curve".to_string(),
                _ => format!("one point in {times} on the curve"),
            };
            cases.push(Case::own(name, kind, size, jobs, far_place));
        }
    }
    cases
}

/// Sets the last y of a path out of range.
pub fn far_place(job: &mut [i32], size: usize) {
    job[2 * size + 2] = 196_606;
}

/// Whole paths.
fn path() -> Vec<Case> {
    paths("path", 15, &[4, 16, 64, 256, 1_024, 4_096], |_| Vec::new())
}

/// A step in the middle of a path, beside the plain loop's whole path.
fn step() -> Vec<Case> {
    paths("step", 16, &[4, 16, 64, 256, 1_024, 4_096], |size| {
        vec![size as i32 / 2]
    })
}

/// The sizes of tables of segments.
const SEGMENTS: [usize; 4] = [10, 50, 150, 512];

/// Sets the score of the last segment below 0.
pub fn bad_score(job: &mut [i32], size: usize) {
    job[2 + SEGMENT_WORDS * (size - 1) + 7] = -1;
}

/// Segments to link.
fn link() -> Vec<Case> {
    let mut cases = Vec::new();
    for kind in Kind::ALL {
        for size in SEGMENTS {
            let mut random = Random::new(size as u64);
            let job = |_| segments::linking(kind, size, &mut random);
            let jobs = (0..20_000_usize.div_ceil(size * size)).map(job).collect();
            let kind = kind.title().to_string();
            cases.push(Case::own("link", kind, size, jobs, bad_score));
        }
    }
    cases
}

/// Linked segments, at no more than 52 positions, to build edges from on the vertical axis, with an edge distance of 10 and no other threshold.
fn build() -> Vec<Case> {
    let mut cases = Vec::new();
    for (group, title) in GROUPS {
        for size in SEGMENTS {
            let mut random = Random::new(size as u64);
            let job = |_| {
                let mut linking = segments::linking(Kind::Scattered, size, &mut random);
                for pos in linking[2..]
                    .iter_mut()
                    .skip(2)
                    .step_by(SEGMENT_WORDS)
                    .take(size)
                {
                    *pos -= *pos % 20;
                }
                let linked = port::answer(&linking);
                let mut words = vec![105];
                words.extend(&linked[1..]);
                words.extend([0, 1, 3, group, 0, 65_536, 10, 0, 65_535]);
                words
            };
            let jobs = (0..2_000_usize.div_ceil(size)).map(job).collect();
            let kind = title.to_string();
            cases.push(Case::own("build", kind, size, jobs, bad_score));
        }
    }
    cases
}

/// A case over edges: their words, and what a job has behind them.
fn over_edges(
    name: &'static str,
    call: i32,
    kind: String,
    size: usize,
    mut edges: impl FnMut() -> Vec<i32>,
    behind: &[i32],
) -> Case {
    let job = |_| [&[call, size as i32], &edges()[..], behind].concat();
    let jobs = (0..ROUND).map(job).collect();
    Case::own(name, kind, size, jobs, far_edge)
}

/// Sets the position of the last edge out of range.
pub fn far_edge(job: &mut [i32], size: usize) {
    job[2 + EDGE_WORDS * (size - 1) + 1] = 65_536;
}

/// Sets the fitted position of the last edge of an axis, whose segments stand in front, beyond where points may be.
pub fn far_position(job: &mut [i32], _: usize) {
    let edges = 2 + SEGMENT_WORDS * job[1] as usize;
    let last = job[edges] as usize - 1;
    job[edges + 1 + EDGE_WORDS * last + 2] = 65_536;
}

/// A pass over edges, for each group.
fn by_group(
    name: &'static str,
    call: i32,
    edges: fn(usize, &mut Random) -> Vec<i32>,
    behind: fn(i32) -> Vec<i32>,
) -> Vec<Case> {
    let mut cases = Vec::new();
    for (group, title) in GROUPS {
        for size in [6, 8, 20, 60, 128] {
            let mut random = Random::new(size as u64);
            let edges = || edges(size, &mut random);
            let kind = title.to_string();
            cases.push(over_edges(name, call, kind, size, edges, &behind(group)));
        }
    }
    cases
}

/// Blues and stems in one call, and beside it by a call each; the Rust runs the two in a row.
fn joined() -> Vec<Case> {
    let on_zones = |group| vec![1, group, 0, 0, 0, 0];
    let mut cases = by_group("joined", 122, edges::on_zones, on_zones);
    let apart = by_group("joined", 122, edges::on_zones, on_zones);
    let apart = apart.into_iter();
    cases.extend(apart.map(|case| beside(case, "blues and stems apart", Role::Apart)));
    cases
}

/// A case that stands beside the call's own.
pub fn beside(case: Case, what: &str, role: Role) -> Case {
    Case {
        kind: format!("{}, {what}", case.kind),
        role,
        ..case
    }
}

/// The guard, with a least width of half a pixel, on the edges that blues and stems leave, and beside it the call that leaves them.
fn guard() -> Vec<Case> {
    let on_zones = |group| vec![1, group, 0, 0, 0, 0];
    let fitting = by_group("guard", 122, edges::on_zones, on_zones);
    let asked = |case: &Case| {
        // answer, count and anchor stand in front of the edges that are left
        let ask = |job: &Vec<i32>| [&[127], &port::answer(job)[3..], &[32, 0]].concat();
        let jobs = case.jobs.iter().map(ask).collect();
        Case::own(case.name, case.kind.clone(), case.size, jobs, far_edge)
    };
    let mut cases: Vec<Case> = fitting.iter().map(asked).collect();
    let fitting = fitting.into_iter();
    cases.extend(fitting.map(|case| beside(case, "the joined call", Role::Fitting)));
    cases
}

/// A call that places one edge.
fn single(name: &'static str, call: i32, behind: &[i32]) -> Vec<Case> {
    let case = |size| {
        let mut random = Random::new(size as u64);
        let edges = || edges::stems(size, &mut random);
        over_edges(name, call, "one edge".to_string(), size, edges, behind)
    };
    [6, 20, 60, 128].map(case).into()
}

/// The lowercase m, in one of its two forms.
fn m(name: &'static str, call: i32) -> Vec<Case> {
    let mut cases = Vec::new();
    for (group, title) in GROUPS {
        for size in [6, 12] {
            let mut random = Random::new(size as u64);
            let edges = || edges::m(size, &mut random);
            cases.push(over_edges(
                name,
                call,
                title.to_string(),
                size,
                edges,
                &[group],
            ));
        }
    }
    cases
}

//! The given Rust, put in by the build script, and what it leans on.

pub mod metrics;
pub mod outline;
pub mod recorder;
pub mod smallvec;
pub mod style;

/// topo/mod.rs: segments, edges and the axis that holds them.
#[allow(clippy::all, dead_code, unused_parens)]
pub mod topo {
    use super::{
        metrics::ScaledWidth,
        outline::{Direction, Orientation, Point},
        recorder::Mark,
        smallvec::SmallVec,
    };
    include!(concat!(env!("OUT_DIR"), "/topo.rs"));
}

/// topo/segments.rs: CJK linking and the two middles.
#[allow(clippy::all, unused_parens)]
pub mod topo_segments {
    use super::{
        metrics::{derived_constant, fixed_div},
        outline::Outline,
        topo::{Axis, Segment},
    };
    include!(concat!(env!("OUT_DIR"), "/topo_segments.rs"));
}

/// topo/edges.rs: building.
#[allow(clippy::all, unused_parens, unused_variables)]
pub mod topo_edges {
    use super::{
        metrics::{fixed_div, fixed_mul, ScaledAxisMetrics},
        outline::Direction,
        style::ScriptGroup,
        topo::{Axis, Dimension, Edge, TopoFlags},
    };
    include!(concat!(env!("OUT_DIR"), "/topo_edges.rs"));
}

/// hint/edges.rs: fitting, the lowercase m and remaining edges.
#[allow(clippy::all, unused_parens, unreachable_code)]
pub mod hint_edges {
    use super::{
        metrics::{
            fixed_mul_div, pix_floor, pix_round, stem_width, Scale, ScaleFlags, ScaledAxisMetrics,
        },
        recorder::{EdgeAction, HintsRecorder},
        style::ScriptGroup,
        topo::{Axis, Dimension, Edge, TopoFlags},
    };
    include!(concat!(env!("OUT_DIR"), "/hint_edges.rs"));
}

/// hint/outline.rs: edge points, strong points and weak points.
#[allow(clippy::all, unused_parens)]
pub mod hint_outline {
    use super::{
        metrics::{fixed_div, fixed_mul, Scale, ScaleFlags},
        outline::{Outline, Point, PointMarker},
        recorder::HintsRecorder,
        style::ScriptGroup,
        topo::{Axis, Dimension},
    };
    use std::cmp::Ordering;
    include!(concat!(env!("OUT_DIR"), "/hint_outline.rs"));
}

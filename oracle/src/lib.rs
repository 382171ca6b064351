//! The oracle: the given Rust behind document 01's refusals, plain answers to document 02's calls, and what is needed to compare with them.

pub mod answer;
pub mod calls;
#[cfg(feature = "count")]
pub mod count;
pub mod decode;
pub mod drag;
pub mod edge_points;
pub mod explain;
pub mod fit;
pub mod frames;
pub mod gaps;
pub mod generate;
pub mod given;
pub mod job;
pub mod joined;
pub mod limits;
pub mod log;
pub mod mend;
pub mod mender;
pub mod pack;
pub mod path;
pub mod plain;
pub mod prepared;
pub mod ranges;
pub mod references;
pub mod refusals;
pub mod remaining;
pub mod shown;
pub mod streams;
pub mod strong;
pub mod text;
pub mod turn;
pub mod weak;
pub mod words;

#[cfg(test)]
mod tests;

//! The given Rust's inline vectors, as plain ones.

/// An array type, known by what it holds.
pub trait Array {
    /// What it holds.
    type Item;
}

impl<T, const N: usize> Array for [T; N] {
    type Item = T;
}

/// A vector; how many elements stand inline does not matter here.
pub type SmallVec<A> = Vec<<A as Array>::Item>;

//! Script groups, as far as the calls tell them apart.

/// The group of a script.
#[derive(Copy, Clone, PartialEq, Eq, Debug)]
pub enum ScriptGroup {
    /// Latin and most others.
    Default,
    /// Chinese, Japanese, Korean.
    Cjk,
}

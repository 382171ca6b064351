//! Which release is this, and which is the library?

use crate::ffi;

/// The release of this crate, and of the C header beside it: major * 10,000 + minor * 100 + patch.
pub const VERSION: u32 = 10_000;

/// The release of the library that is linked, in the same way.
#[must_use]
pub fn version() -> u32 {
    ffi::version()
}

/// Whether the library is good for this crate: of its release, or a later one of the same major number. Ask once, at the start: a linker does not tell.
///
/// ```
/// assert!(khsaemudol::version_fits());
/// ```
#[must_use]
pub fn version_fits() -> bool {
    version() / 10_000 == VERSION / 10_000 && version() >= VERSION
}

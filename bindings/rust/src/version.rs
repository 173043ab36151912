//! The version of the library.

use crate::exported;

/// The version of the library that is linked: its major, minor and patch number.
/// The first two are the package's own, since the package is not built with
/// another library.
pub fn library_version() -> (u32, u32, u32) {
    let version = exported::version();
    (
        version / 1_000_000,
        version / 1_000 % 1_000,
        version % 1_000,
    )
}

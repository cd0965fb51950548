//! Which library is linked, and which one this crate is for.

use std::error::Error;
use std::fmt;

use crate::linked;

/// A version of the library, in its three numbers.
#[derive(Clone, Copy, Debug, PartialEq, Eq, PartialOrd, Ord, Hash)]
pub struct Version {
    /// Another one: structs or functions are others.
    pub major: u32,
    /// Another one: something was added.
    pub minor: u32,
    /// Another one: nothing that a caller sees.
    pub patch: u32,
}

/// The version of the C header that this crate is written for.
pub const HEADER_VERSION: Version = Version { major: 1, minor: 0, patch: 0 };

/// The version of the library that is linked.
///
/// ```
/// assert_eq!(vikkozhan::version().major, vikkozhan::HEADER_VERSION.major);
/// ```
pub fn version() -> Version {
    let number = linked::version();
    Version { major: number >> 16, minor: number >> 8 & 0xFF, patch: number & 0xFF }
}

/// Whether the library that is linked has the structs and functions of this crate: its major number
/// is that of [`HEADER_VERSION`]. Call it once at the start where the archive comes from elsewhere.
///
/// ```
/// vikkozhan::check_version()?;
/// # Ok::<(), vikkozhan::WrongVersion>(())
/// ```
pub fn check_version() -> Result<(), WrongVersion> {
    let linked = version();
    if linked.major == HEADER_VERSION.major {
        Ok(())
    } else {
        Err(WrongVersion { linked })
    }
}

/// The library that is linked has another major number than [`HEADER_VERSION`].
#[derive(Clone, Copy, Debug, PartialEq, Eq)]
#[non_exhaustive]
pub struct WrongVersion {
    /// The library's version.
    pub linked: Version,
}

impl fmt::Display for Version {
    fn fmt(&self, out: &mut fmt::Formatter<'_>) -> fmt::Result {
        write!(out, "{}.{}.{}", self.major, self.minor, self.patch)
    }
}

impl fmt::Display for WrongVersion {
    fn fmt(&self, out: &mut fmt::Formatter<'_>) -> fmt::Result {
        let linked = self.linked;
        write!(
            out,
            "vikkozhan {linked} is linked, the crate is for {HEADER_VERSION}: link a library whose \
             major number is {}",
            HEADER_VERSION.major
        )
    }
}

impl Error for WrongVersion {}

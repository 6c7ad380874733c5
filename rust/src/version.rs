//! What the library is.

use crate::entries;
use std::fmt;

/// A version of the library, and what it says of what is stored: pouch_version, taken apart. Shown as 3.0.0.
#[derive(Clone, Copy, Debug, PartialEq, Eq)]
pub struct Version {
    /// The first number.
    pub major: u16,
    /// The second.
    pub minor: u8,
    /// The third.
    pub patch: u8,
    /// The bytes of an image: `IMAGE_LEN`, where the library is of this crate's version.
    pub image_len: usize,
    /// The bytes of a record: `RECORD_LEN`, as above.
    pub record_len: usize,
}

impl fmt::Display for Version {
    fn fmt(&self, f: &mut fmt::Formatter) -> fmt::Result {
        write!(f, "{}.{}.{}", self.major, self.minor, self.patch)
    }
}

/// The version of the library that is linked. To be stored beside images, which do not say of which version they are: those of 2.0 and 3.0 have one length
/// and two layouts. A journal says it by its mark.
pub fn version() -> Version {
    let number = entries::version();
    Version {
        major: (number >> 48) as u16,
        minor: (number >> 40) as u8,
        patch: (number >> 32) as u8,
        image_len: (number >> 8 & 0xFF_FFFF) as usize,
        record_len: (number & 0xFF) as usize,
    }
}

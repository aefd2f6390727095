use crate::versions::ReadVersion;

/// The version of a release, with the text that it was read from.
pub struct Release(pub ReadVersion); // text

/// One text, or some.
pub enum OneOrMany { // untagged, lossless, stable
    One(String),
    Many(Vec<String>),
}

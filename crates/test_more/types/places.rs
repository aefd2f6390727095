use crate::lists::OneOrMany;

/// A port.
pub struct Port(u16); // lossless, stable

/// Where a thing is: a port, its name, or both.
pub enum Place { // untagged, lossless, stable
    /// As `8080`.
    Number(Port),
    Named(String),
    Both { port: Port, name: String },
    Pair(u16, bool),
}

/// A row of things, and what is said of them.
pub struct Row { // lossless, stable
    pub places: Vec<Place>,
    pub tags: Option<OneOrMany>,
}

/// A host, and how much of the work it gets.
pub struct Host { // lossless, stable, events
    pub host: String,
    pub weight: u8,
}

/// How a connection is secured.
pub struct Tls { // lossless, stable, events, refused
    pub cert: String,
    pub verify: bool,
}

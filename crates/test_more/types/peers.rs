use std::collections::BTreeMap;

/// Another server, with whatever else its text says.
pub struct Peer { // lossless
    pub name: String, // alias "host", alias "hostname"
    pub port: u16, // default 80, alias "p"
    pub labels: BTreeMap<String, Document>, // rest
}

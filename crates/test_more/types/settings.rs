use std::collections::BTreeMap;

/// Settings of a server.
pub struct Settings { // lossless, stable
    pub port: u16, // once
    pub name: String,
    pub rest: BTreeMap<String, Document>, // rest
    pub note: Option<String>, // omit
}

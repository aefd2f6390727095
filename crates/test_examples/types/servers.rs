use settings::parts::Tls;
use settings::types::Settings;

/// How many connections a server takes.
pub struct Range { // refused
    pub most: u16, // once
    pub least: u16, // default 1
}

/// A server, with a field of a name with a dot, and one of the empty name.
pub struct Server { // refused
    pub name: String, // rename "server.name"
    pub inner: Tls, // refused
    pub outer: Option<Tls>, // refused
    pub range: Range,
    pub hosts: Vec<Range>,
    pub share: Option<u8>, // rename "", omit
    pub settings: Option<Settings>, // refused
}

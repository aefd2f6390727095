use crate::commands::Command;

/// A host and nothing else, which earlier versions named otherwise.
pub struct Host { // inside, closed, lossless
    pub name: String, // alias "host", alias "hostname"
    pub port: u16, // default 80, once, alias "p"
    pub note: Option<String>, // omit, rename "of", alias "remark"
    pub command: Option<Command>, // omit
}

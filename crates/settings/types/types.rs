use crate::parts::{Host, Tls};
use std::collections::BTreeMap;

/// Settings of a server.
pub struct Settings { // lossless, stable, events, refused
    pub name: String,
    pub port: u16,
    pub tls: Option<Tls>, // refused
    pub hosts: Vec<Host>,
    pub limits: BTreeMap<String, u64>,
}

use miniserde::json::Value;
use std::collections::BTreeMap;

/// What a client asks for: how many of each kind of goods. Its member `besides` may be any JSON; members of other names are skipped.
pub struct Request {
    pub client: String,
    pub note: Option<String>,
    pub items: BTreeMap<String, u32>,
    pub besides: Value,
}

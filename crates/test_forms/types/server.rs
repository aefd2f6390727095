use crate::generic::Both;
use std::collections::BTreeMap;

/// Thirty settings of a server. An unknown name is invalid.
pub struct Server { // closed, lossless, stable
    pub name: String,
    pub id: u64,
    pub region: String,
    pub zone: Option<String>, // default
    pub version: u32,
    pub active: bool,
    pub owner: Option<u64>,
    pub aliases: Vec<String>,
    pub weights: Vec<u64>,
    pub listener: Both<String, u16>,
    pub more_listeners: Vec<Both<String, u16>>,
    pub backup: Option<Both<String, u16>>,
    pub by_zone: BTreeMap<String, Both<String, u16>>,
    pub limits: BTreeMap<String, u64>,
    pub labels: BTreeMap<String, Vec<String>>,
    pub memory: u64,
    pub processors: u8,
    pub nice: i8,
    pub offset: i64,
    pub window: (u32, u32),
    pub cache: u64, // once
    pub log: Option<String>,
    pub verbose: bool,
    pub retries: u16, // default 3
    pub timeout: u32,
    pub proxy: Option<String>,
    pub secret: String,
    pub tags: VecDeque<String>, // default
    pub flags: BTreeMap<String, bool>,
    pub note: Option<String>,
}

use std::collections::BTreeMap;

/// How much is written to the log.
pub enum Level {
    Error,
    Warn,
    Info,
    Debug,
}

/// Settings of thirty fields.
pub struct Service {
    pub name: String,
    pub host: String,
    pub port: u16,
    pub admin_port: Option<u16>,
    pub workers: u8,
    pub queue: u32,
    pub timeout_ms: u64,
    pub idle_timeout_ms: Option<u64>,
    pub max_body: u64,
    pub max_header: u32,
    pub keep_alive: bool,
    pub tls: bool,
    pub cert: Option<String>,
    pub key: Option<String>,
    pub level: Level,
    pub log_file: Option<String>,
    pub origins: Vec<String>,
    pub methods: Vec<String>,
    pub headers: BTreeMap<String, String>,
    pub routes: BTreeMap<String, Vec<String>>,
    pub per_second: u32,
    pub burst: u32,
    pub block_seconds: Option<u64>,
    pub retry: Vec<u16>,
    pub backoff: (u32, u32),
    pub offset: i32,
    pub region: String,
    pub tags: Option<Vec<String>>,
    pub quota: BTreeMap<u64, i64>,
    pub share: u8,
}

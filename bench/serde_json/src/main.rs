//! The jobs of crates/test_driver with serde_json: `serde_json_jobs TYPE MODE`.
use serde::de::{DeserializeOwned, IgnoredAny};
use serde::{Deserialize, Serialize};
use std::collections::BTreeMap;
use std::io::{Read, Write};
use std::process::ExitCode;

#[derive(Serialize, Deserialize)]
struct Demo {
    code: u32,
    message: String,
}

#[derive(Serialize, Deserialize)]
enum Tag {
    A,
    #[serde(rename = "renamedB")]
    B,
    #[serde(rename = "enum")]
    Enum,
}

#[derive(Serialize, Deserialize)]
enum Command {
    Ping,
    Text(String),
    Move { x: i64, y: i64 },
}

#[derive(Serialize, Deserialize)]
struct Say {
    text: String,
    to: Option<String>,
}

#[derive(Serialize, Deserialize)]
#[serde(tag = "kind")]
enum Action {
    Ping,
    Say(Say),
    #[serde(rename = "move")]
    Move { x: i64, y: i64 },
}

#[derive(Serialize, Deserialize)]
struct User {
    id: u64,
    name: String,
    screen_name: String,
    followers_count: u32,
    verified: bool,
    description: String,
    url: Option<String>,
}

#[derive(Serialize, Deserialize)]
struct Hashtag {
    text: String,
    indices: (u16, u16),
}

#[derive(Serialize, Deserialize)]
struct Entities {
    hashtags: Vec<Hashtag>,
    urls: Vec<String>,
}

#[derive(Serialize, Deserialize)]
enum Media {
    Photo { url: String, width: u32, height: u32 },
    Video { url: String, seconds: u32 },
    Link(String),
}

#[derive(Serialize, Deserialize)]
struct Post {
    id: u64,
    created_at: String,
    text: String,
    truncated: bool,
    user: User,
    coordinates: Option<(i64, i64)>,
    entities: Entities,
    favorited: bool,
    lang: String,
    media: Vec<Media>,
    counts: BTreeMap<String, u32>,
}

#[derive(Serialize, Deserialize)]
struct Position {
    x: i64,
    y: Option<i64>,
}

#[derive(Serialize, Deserialize)]
struct Entry {
    id: u64,
    name: String,
    tags: Vec<String>,
    ok: bool,
    at: Position,
}

#[derive(Serialize, Deserialize)]
struct Page {
    total: u64,
    next: Option<String>,
    records: Vec<Entry>,
}

#[derive(Serialize, Deserialize)]
enum Level {
    Error,
    Warn,
    Info,
    Debug,
}

#[derive(Serialize, Deserialize)]
struct Service {
    name: String,
    host: String,
    port: u16,
    admin_port: Option<u16>,
    workers: u8,
    queue: u32,
    timeout_ms: u64,
    idle_timeout_ms: Option<u64>,
    max_body: u64,
    max_header: u32,
    keep_alive: bool,
    tls: bool,
    cert: Option<String>,
    key: Option<String>,
    level: Level,
    log_file: Option<String>,
    origins: Vec<String>,
    methods: Vec<String>,
    headers: BTreeMap<String, String>,
    routes: BTreeMap<String, Vec<String>>,
    per_second: u32,
    burst: u32,
    block_seconds: Option<u64>,
    retry: Vec<u16>,
    backoff: (u32, u32),
    offset: i32,
    region: String,
    tags: Option<Vec<String>>,
    quota: BTreeMap<u64, i64>,
    share: u8,
}

fn put(text: &str) -> bool {
    std::io::stdout().write_all(text.as_bytes()).is_ok()
}

#[inline(never)]
fn job<T: DeserializeOwned + Serialize>(mode: &str, text: &str) -> bool {
    if mode == "io" {
        return put(text);
    }
    match serde_json::from_str::<T>(text) {
        Ok(_) if mode == "read" => true,
        Ok(value) => serde_json::to_string(&value).is_ok_and(|again| put(&again)),
        Err(_) => false,
    }
}

fn skip(mode: &str, text: &str) -> bool {
    match mode {
        "io" => put(text),
        _ => serde_json::from_str::<IgnoredAny>(text).is_ok(),
    }
}

fn main() -> ExitCode {
    let words: Vec<String> = std::env::args().skip(1).collect();
    let mut text = String::new();
    if std::io::stdin().read_to_string(&mut text).is_err() {
        return ExitCode::from(3);
    }
    let mode = words[1].as_str();
    let done = match words[0].as_str() {
        "u64s" => job::<Vec<u64>>(mode, &text),
        "strings" => job::<Vec<String>>(mode, &text),
        "rows" => job::<Vec<Vec<u64>>>(mode, &text),
        "cubes" => job::<Vec<Vec<Vec<u64>>>>(mode, &text),
        "map" => job::<BTreeMap<String, u64>>(mode, &text),
        "demos" => job::<Vec<Demo>>(mode, &text),
        "tags" => job::<Vec<Tag>>(mode, &text),
        "commands" => job::<Vec<Command>>(mode, &text),
        "actions" => job::<Vec<Action>>(mode, &text),
        "pairs" => job::<Vec<(u64, String)>>(mode, &text),
        "triples" => job::<Vec<(u8, u8, u8)>>(mode, &text),
        "options" => job::<Vec<Option<bool>>>(mode, &text),
        "posts" => job::<Vec<Post>>(mode, &text),
        "pages" => job::<Vec<Page>>(mode, &text),
        "services" => job::<Vec<Service>>(mode, &text),
        "value" => job::<serde_json::Value>(mode, &text),
        "canonical" => job::<serde_json::Value>("both", &text),
        "ignore" => skip(mode, &text),
        _ => false,
    };
    if done { ExitCode::SUCCESS } else { ExitCode::from(1) }
}

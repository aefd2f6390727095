/// What a client asks for.
pub enum Command { // lossless, stable
    Ping,
    Text(String),
    Move { x: i64, y: i64 },
}

/// What a machine is told. A move may leave out each of its fields.
pub enum Command { // lossless, stable
    Ping,
    Text(String),
    Move {
        x: Option<i64>, // omit
        y: Option<i64>, // omit
    },
}

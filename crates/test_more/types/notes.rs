/// A note.
pub enum Note { // tag "kind", content "data", lossless, stable
    Text(String),
    Ping,
    Bytes(Vec<u8>),
}

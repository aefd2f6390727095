/// What is said.
pub struct Say { // lossless, stable
    pub text: String,
    pub to: Option<String>,
}

/// What somebody does: an object whose member `kind` says which.
pub enum Action { // tag "kind", lossless, stable
    Ping,
    Say(Say),
    Move { x: i64, y: i64 }, // rename "move"
}

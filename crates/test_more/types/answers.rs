/// What a program is told.
pub struct Reply { // lossless, stable
    pub retries: u8,
    pub name: Option<String>,
}

/// What is answered.
#[serde(untagged)]
pub enum Answer { // lossless, stable
    Text(String),
    Data(Reply),
    None,
}

/// A service of a network. An unknown name is invalid.
pub struct Service { // closed, lossless, stable
    pub id: u64, // once
    pub host: String, // default "localhost"
    pub port: u16, // default 8080, once
    pub secure: bool, // default true
    pub tags: Vec<String>, // default
    pub note: Option<String>,
}

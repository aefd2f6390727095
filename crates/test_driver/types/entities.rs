/// A word by which a post is found, and where it begins and ends in the text.
pub struct Hashtag {
    pub text: String,
    pub indices: (u16, u16),
}

/// What is found in the text of a post.
pub struct Entities {
    pub hashtags: Vec<Hashtag>,
    pub urls: Vec<String>,
}

/// What a post shows.
pub enum Media {
    Photo { url: String, width: u32, height: u32 },
    Video { url: String, seconds: u32 },
    Link(String),
}

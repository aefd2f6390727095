/// Who writes posts.
pub struct User {
    pub id: u64,
    pub name: String,
    pub screen_name: String,
    pub followers_count: u32,
    pub verified: bool,
    pub description: String,
    pub url: Option<String>,
}

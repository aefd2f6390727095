use crate::entities::{Entities, Media};
use crate::users::User;
use std::collections::BTreeMap;

/// A message to many readers.
pub struct Post {
    pub id: u64,
    pub created_at: String,
    pub text: String,
    pub truncated: bool,
    pub user: User,
    pub coordinates: Option<(i64, i64)>,
    pub entities: Entities,
    pub favorited: bool,
    pub lang: String,
    pub media: Vec<Media>,
    pub counts: BTreeMap<String, u32>,
}

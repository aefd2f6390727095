/// Where something stands.
pub struct Position {
    pub x: i64,
    pub y: Option<i64>,
}

/// One of the records of a page.
pub struct Entry {
    pub id: u64,
    pub name: String,
    pub tags: Vec<String>,
    pub ok: bool,
    pub at: Position,
}

/// A page of records.
pub struct Page {
    pub total: u64,
    pub next: Option<String>,
    pub records: Vec<Entry>,
}

use crate::tag::Tag;

/// A struct of two optional fields.
pub struct Nested { // stable, events
    pub y: Option<Vec<String>>,
    pub z: Option<String>,
}

/// A struct of five fields, one of which is written under another name.
pub struct Example { // stable
    pub x: String,
    pub t1: Tag,
    pub t2: Box<Tag>,
    pub t3: [Tag; 1],
    pub nested: Box<Nested>, // rename "struct"
}

use std::collections::BTreeMap;

/// What a server reports: the data stands in one object with the tag.
pub enum Report { // tag "kind", lossless
    Up(Health),
    Moved(Place),
    Slow(Slow),
    Down,
}

/// How a server is, with whatever else it says.
pub struct Health { // lossless, stable
    pub load: u8,
    pub more: BTreeMap<String, Document>, // rest
}

/// Where it is now.
pub struct Place { // lossless
    pub name: String, // alias "host"
    pub more: BTreeMap<String, u64>, // rest
}

/// What is slow.
pub struct Slow { // lossless
    pub path: String, // alias "url"
    pub more: BTreeMap<String, Document>, // rest
}

/// A page, and what else is asked of it.
pub struct Page { // lossless, stable
    pub path: String,
    pub more: BTreeMap<String, String>, // rest
}

/// What a server was asked, one member by the variant's name.
pub enum Asked { // lossless, stable
    Page(Page),
    Nothing,
}

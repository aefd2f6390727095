use std::collections::BTreeMap;

/// Two things of two types. An unknown name is invalid, and so is a duplicate of `one`.
#[derive(Debug)]
pub struct Both<A, B> { // inside, closed, lossless, stable
    pub one: A, // once
    pub two: B,
}

/// An answer: data, or what went wrong, with more of both.
pub struct Reply<T, E> { // lossless, stable, rename_all "camelCase"
    pub data: Option<T>,
    pub error: Option<Box<E>>,
    pub more_of: VecDeque<Both<T, E>>,
    pub by_name: BTreeMap<String, (T, u8)>, // default
    pub page_count: u16, // rename "of", default 1
    pub note: Option<String>, // omit
}

/// A page of a list, and the name of the next page.
pub struct Page<T> { // lossless, stable
    pub items: Vec<T>,
    pub next: Option<String>,
}

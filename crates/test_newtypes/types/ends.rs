/// Both ends of a span.
pub struct Ends<T> { // lossless
    pub from: T,
    pub to: T,
}

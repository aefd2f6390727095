/// What a server answers.
pub enum Reply<T> { // lossless, stable
    Done(T),
    /// It lies between two.
    Between(T, T),
    Failed {
        code: u32, // default 500, once
        why: Option<String>,
    },
    Gone, // rename "gone"
}

use crate::task::Task;

/// Where a parcel is.
pub enum State { // rename_all "lowercase", lossless, stable
    Packed,
    Sent,
}

/// A parcel, with what its sender wrote on it.
pub struct Parcel { // closed, lossless, stable
    pub id: u64, // once
    pub state: State,
    pub before: State, // default Packed
    pub weights: Vec<u32>, // default
    pub tasks: Vec<Task>, // default
    pub note: Option<String>, // omit
    pub extra: Document,
}

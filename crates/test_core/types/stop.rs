use crate::parcel::State;

/// A stop of a parcel. The names of its fields rise in byte order.
pub struct Stop {
    pub at: u64,
    pub before: State,
    pub cost: u32,
    pub days: Vec<u8>,
    pub extra: Document,
    pub note: Option<String>, // omit
}

/// How a way ends.
pub enum End {
    At(Stop),
    Lost,
}

/// An order, as version 1 stores it.
pub struct OldOrder {
    pub id: u64,
    pub count: u32,
    pub paid: bool,
}

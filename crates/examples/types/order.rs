/// An order of a shop.
pub struct Order { // lossless
    pub id: u64,
    pub quantity: u32,
    pub paid: bool,
    pub note: Option<String>,
}

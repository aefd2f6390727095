/// Goods in stock.
pub struct Goods { // lossless, stable, refused
    pub name: String,
    pub count: u32,
    pub note: Option<String>,
}

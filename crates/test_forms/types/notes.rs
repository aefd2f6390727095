use crate::hosts::Host;

/// An order, with an amount as its text.
pub struct Order { // closed
    pub total: Number, // once
    pub places: u8, // default 2
    pub kind: String, // rename "type", default "sale"
    pub discount: Option<(u8, u64)>, // omit
    pub extra: Value,
}

/// A note, of which the name and four more are always written. Two values of an order or a number may be written alike.
pub struct Note {
    pub text: Option<String>, // omit
    pub name: String,
    pub stars: Option<u8>, // rename "*", once, omit
    pub points: Option<Vec<Option<u8>>>, // omit
    pub a: bool,
    pub b: bool,
    pub c: bool,
    pub d: bool,
    pub host: Option<Box<Host>>, // omit
    pub order: Option<Order>, // omit
    pub number: Option<Number>, // omit
}

/// A choice.
pub struct Option { // lossless
    pub some: String,
    pub count: u8, // default 3
}

/// A number.
pub struct Some(pub u8); // key, lossless, stable

/// A size.
pub struct Box { // lossless
    pub width: u8,
    pub height: u8,
}

/// What is there.
pub enum Ok { // lossless
    None,
    Some(Some),
    Err(Vec),
}

/// A direction.
pub struct Vec { // lossless
    pub x: i8,
    pub y: i8,
}

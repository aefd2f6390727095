pub enum Tag { // lossless, stable, events
    A,
    B,    // rename "renamedB"
    Enum, // rename "enum"
}

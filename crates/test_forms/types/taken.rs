/// Something that happened. Its fields have names that derived functions bind.
pub struct Event { // lossless, stable, events
    pub source: u64,
    pub w: String,
}

/// What went wrong.
pub enum Error { // lossless, stable, events
    List,
    Record,
    Step, // rename "step"
}

/// What is kept of an event.
pub struct Record { // lossless
    pub parts: u8,
    pub alloc: Error,
    pub token: Event,
    pub take_four: bool,
    pub value: Option<u8>, // omit
    pub names: u16, // default 3
}

/// What is done next.
pub enum Step { // lossless, stable
    List(Vec<u8>),
    line(u8, Slot),
    Parts { w: u8, write_fields: bool },
    first_case,
    x(Event),
}

/// A type that has the name of the struct of `Step::Parts`.
pub struct StepParts { // lossless
    pub of: u8,
}

/// A type that has the name of what is written for `Event`.
pub struct EventFields { // lossless
    pub of: u8,
}

/// A page, whose parameter has a name in lower case.
pub struct Result<item> { // lossless, stable
    pub items: Vec<item>,
    pub error: Option<item>,
}

/// A page, whose parameters have the names of types.
pub struct Source<Value, Event> {
    pub value: Value,
    pub event: Event,
}

/// A key.
pub struct Slot(pub u8); // key, lossless, stable

/// A value around another.
pub struct Writer<v>(pub v); // key, lossless

/// Two words that clauses reserve.
pub enum Value { // lossless, tag "kind"
    data { open: u8 },
    refl,
}

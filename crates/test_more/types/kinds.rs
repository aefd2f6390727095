/// A level.
pub enum Level { // kinds
    Low,
    High,
}

/// What is done.
pub enum Action { // kinds
    Stop,
    Go(u8),
}

/// What has changed.
pub enum Change { // tag "kind", kinds
    Added { id: u8 },
    Cleared,
}

/// A holder of something.
pub struct Holder<T> { // kinds
    pub inside: T,
}

/// A name for something.
pub struct Named<T>(T); // kinds

/// A switch.
pub struct Switch(bool); // kinds

/// What is set.
pub enum Setting { // untagged
    Level(Level),
    On(Switch),
    Number(Named<u16>),
    Change(Change),
    Unset,
}

/// A list of what is set, or what is done.
pub enum Work { // untagged
    Action(Action),
    Many(Vec<Setting>),
    Nested(Option<Named<u8>>),
}

/// A number, or none.
pub enum Count { // untagged, lossless, stable
    Of(u8),
    Unset,
}

/// A count, its text, or a list of counts.
pub enum Counts { // untagged, lossless, stable
    One(Count),
    Text(String),
    All(Vec<Count>),
}

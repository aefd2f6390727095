use crate::hosts::Host;

/// A page of a list.
pub struct Page<T> { // lossless
    pub items: Vec<T>,
    pub next: Option<String>, // omit
    pub of: Option<T>, // omit
}

/// An enum of sixteen, one with omitted fields, whose names are not in the style of the variants.
pub enum Entry<T> { // rename_all "kebab-case"
    SignedOut,
    NewUrl(String),
    SeenAt(u64, String, Option<bool>),
    OneHost(Host),
    Hosts(Vec<Host>),
    Three(u8, u16, u32),
    LogEntry {
        log_level: Option<u8>, // omit
        of: Option<T>, // omit
        page_of: Page<T>,
    },
    Up,
    Down,
    Delete,
    Letter(u32),
    Digit(u8),
    Chord(Vec<u32>),
    Click(i32, i32),
    Wheel(i8),
    Other(u64),
}

use jiff::civil::Date;

/// A day of the calendar, written as `2026-11-30` (RFC 3339, section 5.6, `full-date`).
pub struct Day(pub Date); // text, lossless, stable

/// Bytes, written as base64 (RFC 4648, section 4).
pub struct Blob(pub Vec<u8>); // text, lossless, stable

/// Bytes, and the day on which they came.
pub struct Upload { // lossless, stable
    pub content: Blob,
    pub day: Day,
}

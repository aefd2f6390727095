use crate::ends::Ends;

/// A span, which ends no earlier than it begins.
pub struct Span(Ends<u32>); // check orders::is_ordered

use crate::edits::Edit;
use crate::generic::Both;
use crate::hosts::Host;

/// A change: the data of its variants stands in one object with the tag.
pub enum Change { // tag "type", lossless
    Clear,
    Add(Host),
    Mark {
        at: (u8, u8, u8), // alias "old"
        note: Option<String>, // omit, alias "new"
    },
    Deep(Both<Edit, Vec<Edit>>),
}

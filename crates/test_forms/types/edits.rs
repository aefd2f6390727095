use crate::generic::Both;

/// An edit, whose tag has the name of the change's that it may stand in.
pub enum Edit { // tag "type", rename_all "snake_case", lossless, stable
    Reset,
    SetName(Both<String, Option<u8>>),
    BothOf(Both<u8, String>),
    Accent, // rename "é"
}

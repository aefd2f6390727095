/// How far a job is.
#[derive(Debug, Clone, Copy, PartialEq)]
pub enum Phase { // rename_all "SCREAMING_SNAKE_CASE"
    NotBegun,
    InProgress,
    Done, // rename "done"
}

/// A struct of two fields.
pub struct Demo { // stable, events
    pub code: u32,
    pub message: String,
}

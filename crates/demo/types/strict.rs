/// As `Demo`, whose `message` is the field `text`, and invalid if `code` or `message` is duplicated among its members. Other names may be.
pub struct StrictDemo { // once, stable, events
    pub code: u32,
    pub text: String, // rename "message"
}

/// What stands on a parcel.
pub struct Label { // lossless, stable
    pub text: String, // default
}

/// What was done with a parcel.
pub enum Task { // tag "kind", lossless, stable
    Weighed { grams: u32 },
    Labelled(Label),
    Sealed { twice: bool },
    Done,
}

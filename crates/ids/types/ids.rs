use uuid::Uuid;

/// The identifier of an account: a UUID, read in each of its four text forms, and written in hyphenated lower case.
#[derive(Clone, Copy)]
pub struct AccountId(pub Uuid); // text, lossless, stable, events

/// An account.
pub struct Account { // lossless, stable
    pub id: AccountId,
    pub name: String,
    pub parent: Option<AccountId>,
}

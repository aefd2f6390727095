/// How a task of version 1 stands.
pub enum OldState {
    Open, // rename "open"
    Done, // rename "done"
}

/// A task, as version 1 stores it.
pub struct OldTask {
    pub id: u64,
    pub title: String,
    pub state: OldState,
    pub colour: u32,
}

/// How a task stands. `Failed` is new.
pub enum State {
    Open,   // rename "open"
    Done,   // rename "done"
    Failed, // rename "failed"
}

/// A task, as version 2 stores it: `retries` and `note` are new, and there is no `colour`.
pub struct Task {
    pub id: u64,
    pub name: String, // rename "title"
    pub state: State,
    pub retries: u32, // default 3
    pub note: Option<String>,
}

//! How a command ends.

/// A command that was done: what it prints, and its exit status.
pub struct Reply {
    pub output: String,
    pub status: u8,
}

impl Reply {
    pub fn help(usage: &str) -> Self {
        Self {
            output: usage.to_string(),
            status: 0,
        }
    }
}

/// A command that could not be done: the message for standard error.
#[derive(Debug)]
pub struct Trouble(pub String);

impl Trouble {
    pub fn new(message: impl Into<String>) -> Self {
        Self(message.into())
    }
}

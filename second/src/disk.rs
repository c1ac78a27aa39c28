//! Reading and writing whole files, with the path in the message if it fails.

use crate::reply::Trouble;
use std::io;
use std::path::Path;

pub fn read(path: impl AsRef<Path>) -> Result<Vec<u8>, Trouble> {
    std::fs::read(&path).map_err(|error| trouble("read", path.as_ref(), &error))
}

pub fn write(path: impl AsRef<Path>, bytes: &[u8]) -> Result<(), Trouble> {
    std::fs::write(&path, bytes).map_err(|error| trouble("write", path.as_ref(), &error))
}

/// `path` could not be read, written and so on (`deed`).
pub fn trouble(deed: &str, path: &Path, error: &io::Error) -> Trouble {
    Trouble(format!("cannot {deed} {}: {error}", path.display()))
}

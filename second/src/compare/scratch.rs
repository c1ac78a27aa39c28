//! The folder for temporary files.

use crate::disk;
use crate::reply::Trouble;
use std::path::{Path, PathBuf};
use std::{env, fs, process};

/// A folder of memory, as files are made and removed many thousand times.
const MEMORY: &str = "/dev/shm";

/// A folder of this process, removed in the end unless it is to be kept.
pub struct Scratch {
    folder: PathBuf,
    kept: bool,
}

impl Scratch {
    pub fn new() -> Result<Self, Trouble> {
        let folder = made(Path::new(MEMORY)).or_else(|_| made(&env::temp_dir()))?;
        Ok(Self {
            folder,
            kept: false,
        })
    }

    pub fn folder(&self) -> &Path {
        &self.folder
    }

    pub fn keep(&mut self) {
        self.kept = true;
    }
}

impl Drop for Scratch {
    fn drop(&mut self) {
        if !self.kept {
            let _ = fs::remove_dir_all(&self.folder);
        }
    }
}

fn made(parent: &Path) -> Result<PathBuf, Trouble> {
    let folder = parent.join(format!("second-{}", process::id()));
    // What an earlier process of the same number kept makes room.
    let _ = fs::remove_dir_all(&folder);
    fs::create_dir(&folder).map_err(|error| disk::trouble("make", &folder, &error))?;
    Ok(folder)
}

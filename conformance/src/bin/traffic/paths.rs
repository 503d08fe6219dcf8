//! The files that paths stand for.

use std::fs;
use std::path::{Path, PathBuf};

/// The files among the paths and in the folders among them, to the bottom, a folder's entries by name.
pub fn files(paths: &[PathBuf]) -> Result<Vec<PathBuf>, String> {
    let mut found = Vec::new();
    for path in paths {
        gather(path, &mut found)?;
    }
    Ok(found)
}

pub fn contents(file: &Path) -> Result<Vec<u8>, String> {
    fs::read(file).map_err(|error| unreadable(file, error))
}

fn gather(path: &Path, found: &mut Vec<PathBuf>) -> Result<(), String> {
    let unread = |error| unreadable(path, error);
    if !fs::metadata(path).map_err(unread)?.is_dir() {
        found.push(path.to_path_buf());
        return Ok(());
    }
    let entries: Result<Vec<PathBuf>, _> = fs::read_dir(path)
        .map_err(unread)?
        .map(|entry| entry.map(|entry| entry.path()))
        .collect();
    let mut entries = entries.map_err(unread)?;
    entries.sort();
    entries.iter().try_for_each(|entry| gather(entry, found))
}

fn unreadable(path: &Path, error: std::io::Error) -> String {
    format!("{} cannot be read: {error}", path.display())
}

//! The hand-ins of a folder.

use crate::files::{take, Source};
use crate::text::shown;
use crate::words::{calling, class};
use std::collections::BTreeMap;
use std::fs;
use std::io;
use std::os::unix::ffi::OsStrExt;
use std::path::{Path, PathBuf};

/// The ends of the names of models and of hand-ins.
const MODEL: &str = ".eon";
const ANSWER: &str = ".answer";

/// What the folder has under one name.
#[derive(Default)]
pub struct Entry {
    pub name: String,
    pub model: Option<PathBuf>,
    pub answer: Option<PathBuf>,
}

/// The entries of a folder by rising names, and how many other files it has.
pub struct Found {
    pub entries: Vec<Entry>,
    pub others: usize,
}

/// Lists a folder; the given model is no hand-in, even where it lies there.
pub fn list(folder: &Path, given: Option<&Path>) -> io::Result<Found> {
    let mut entries: BTreeMap<Vec<u8>, Entry> = BTreeMap::new();
    let mut others = 0;
    for file in fs::read_dir(folder)? {
        let path = file?.path();
        let bytes = path.file_name().map_or(Vec::new(), |n| n.as_bytes().to_vec());
        if let Some(name) = stem(&bytes, ANSWER) {
            entry(&mut entries, name).answer = Some(path);
        } else if let Some(name) = stem(&bytes, MODEL) {
            entry(&mut entries, name).model = Some(path);
        } else {
            others += 1;
        }
    }
    let given = given.and_then(|g| g.canonicalize().ok());
    let is_given = |e: &Entry| e.answer.is_none() && given.is_some() && e.model.as_ref().and_then(|m| m.canonicalize().ok()) == given;
    let entries = entries.into_values().filter(|e| !is_given(e)).collect();
    Ok(Found { entries, others })
}

/// A file's name without its end, where it has this one and something before it.
fn stem<'a>(name: &'a [u8], end: &str) -> Option<&'a [u8]> {
    name.strip_suffix(end.as_bytes()).filter(|stem| !stem.is_empty())
}

/// The entry of a name.
fn entry<'a>(entries: &'a mut BTreeMap<Vec<u8>, Entry>, name: &[u8]) -> &'a mut Entry {
    entries.entry(name.to_vec()).or_insert_with(|| Entry {
        name: shown(&String::from_utf8_lossy(name)),
        ..Entry::default()
    })
}

impl Entry {
    pub fn model_name(&self) -> String {
        format!("{}{MODEL}", self.name)
    }

    pub fn answer_name(&self) -> String {
        format!("{}{ANSWER}", self.name)
    }
}

/// An ordinary file of the folder, or why it cannot be read; what is none is never opened, since a pipe would wait for ever.
pub fn fetch(path: &Path, name: String, most: usize) -> Result<Source, String> {
    let kind = fs::metadata(path).map_err(|_| calling::not_read(&name))?;
    if kind.is_dir() {
        return Err(calling::folder(&name));
    }
    if !kind.is_file() {
        return Err(class::not_ordinary(&name));
    }
    let bytes = take(path, most).map_err(|_| calling::not_read(&name))?;
    Ok(Source { name, bytes })
}

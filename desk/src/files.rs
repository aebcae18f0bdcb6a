//! Files that are read.

use crate::answer::{failure, Answer};
use crate::text::shown;
use crate::words::calling;
use std::fs::File;
use std::io::Read;
use std::path::Path;

/// The bytes of a file, at most so many.
pub fn take(path: &Path, most: usize) -> std::io::Result<Vec<u8>> {
    let mut bytes = Vec::new();
    File::open(path)?.take(most as u64).read_to_end(&mut bytes)?;
    Ok(bytes)
}

/// A file: its name as it is shown, and its bytes.
pub struct Source {
    pub name: String,
    pub bytes: Vec<u8>,
}

/// A file that the call names, or why it cannot be read.
pub fn read(name: &str, most: usize) -> Result<Source, Answer> {
    let path = Path::new(name);
    let bytes = take(path, most).map_err(|_| failure(if path.is_dir() { calling::folder(name) } else { calling::not_read(name) }))?;
    let name = shown(name);
    Ok(Source { name, bytes })
}

//! Files that are read: by name, or from standard input. Assumes a Unix system, where a file is known by its device and its number there.
use std::ffi::OsStr;
use std::fs::{self, Metadata};
use std::io::{self, Read};
use std::os::fd::AsFd;
use std::os::unix::fs::MetadataExt;

/// How much of a file is read. No good file has a thousandth of that, and the library's answer on a front that is longer than any good file
/// is its answer on the whole file (docs/PROMISES.md).
const BYTES_MOST: u64 = 64 << 20;

/// What tells a file from every other, whatever its names.
pub type Identity = (u64, u64);

pub struct Input {
    /// What messages call it.
    pub name: String,
    pub bytes: Vec<u8>,
    /// The file goes on behind these bytes.
    pub is_front: bool,
    pub identity: Option<Identity>,
}

/// The name `-` stands for standard input or standard output.
pub fn is_standard(name: &OsStr) -> bool {
    name == OsStr::new("-")
}

pub fn identity(metadata: &Metadata) -> Identity {
    (metadata.dev(), metadata.ino())
}

/// The file behind standard input or standard output, where it is a regular one.
pub fn identity_of(standard: impl AsFd) -> Option<Identity> {
    let file = fs::File::from(standard.as_fd().try_clone_to_owned().ok()?);
    file.metadata().ok().filter(Metadata::is_file).map(|metadata| identity(&metadata))
}

/// Reads a file, or says by name why it cannot.
pub fn read(name: &OsStr) -> Result<Input, String> {
    if is_standard(name) {
        return taken("standard input", Ok(io::stdin().lock()), identity_of(io::stdin()));
    }
    let opened = fs::File::open(name);
    let metadata = opened.as_ref().ok().and_then(|file| file.metadata().ok());
    taken(&name.to_string_lossy(), opened, metadata.map(|metadata| identity(&metadata)))
}

fn taken(name: &str, opened: io::Result<impl Read>, identity: Option<Identity>) -> Result<Input, String> {
    let mut bytes = Vec::new();
    let read = opened.and_then(|from| from.take(BYTES_MOST + 1).read_to_end(&mut bytes));
    read.map_err(|error| failed(name, &error))?;
    let is_front = bytes.len() as u64 > BYTES_MOST;
    bytes.truncate(BYTES_MOST as usize);
    Ok(Input { name: name.to_string(), bytes, is_front, identity })
}

/// What could not be read or written, and why, in the system's words.
pub fn failed(name: &str, error: &io::Error) -> String {
    let text = error.to_string();
    let words = text.split(" (os error").next().unwrap_or(&text);
    format!("{name}: {words}")
}

//! A file that is written whole or not at all: to a temporary file beside it, which is synced and then takes its name. Assumes a Unix
//! system, where a file takes another's name in one step.
use crate::files::{failed, identity, identity_of, is_standard, Input};
use std::ffi::{OsStr, OsString};
use std::fs::{self, File, Metadata, OpenOptions};
use std::io::{self, Write};
use std::path::{Path, PathBuf};
use std::process;

/// Where the output of a job goes, and what messages call it.
#[derive(Debug)]
pub struct Output {
    name: String,
    place: Place,
}

#[derive(Debug)]
enum Place {
    Standard,
    /// A device or a pipe, which has no old bytes to lose.
    Stream(PathBuf),
    /// A file, and what is known of the one that is there.
    File(PathBuf, Option<Metadata>),
}

impl Output {
    /// Looks at the place before the job begins: it is no input, no folder, and may be written.
    pub fn prepare(name: &OsStr, inputs: &[&Input]) -> Result<Output, String> {
        if is_standard(name) {
            let name = "standard output".to_string();
            refuse_inputs(&name, identity_of(io::stdout()), inputs)?;
            return Ok(Output { name, place: Place::Standard });
        }
        let shown = name.to_string_lossy().into_owned();
        let (place, old) = look(Path::new(name)).map_err(|error| failed(&shown, &error))?;
        refuse_inputs(&shown, old.as_ref().map(identity), inputs)?;
        let place = if old.as_ref().is_none_or(Metadata::is_file) { Place::File(place, old) } else { Place::Stream(place) };
        Ok(Output { name: shown, place })
    }

    pub fn is_standard(&self) -> bool {
        matches!(self.place, Place::Standard)
    }

    pub fn put(&self, bytes: &[u8]) -> Result<(), String> {
        let put = match &self.place {
            Place::Standard => put_standard(bytes),
            Place::Stream(place) => OpenOptions::new().write(true).open(place).and_then(|mut file| file.write_all(bytes)),
            Place::File(place, old) => replace(place, old.as_ref(), bytes),
        };
        let kept = if matches!(self.place, Place::File(_, Some(_))) { "; it is as it was" } else { "" };
        put.map_err(|error| failed(&self.name, &error) + kept)
    }
}

fn put_standard(bytes: &[u8]) -> io::Result<()> {
    let mut out = io::stdout().lock();
    out.write_all(bytes)?;
    out.flush()
}

fn refuse_inputs(shown: &str, output: Option<(u64, u64)>, inputs: &[&Input]) -> Result<(), String> {
    let Some(input) = inputs.iter().find(|input| output.is_some() && input.identity == output) else {
        return Ok(());
    };
    Err(format!("{shown} is the same file as {}, which is read; choose another file to write to", input.name))
}

/// The place itself, behind any links, and what is known of the file that is there, if there is one. A link that leads nowhere, a folder,
/// and a file that may not be written are refused.
fn look(name: &Path) -> io::Result<(PathBuf, Option<Metadata>)> {
    if fs::symlink_metadata(name).is_err_and(|error| error.kind() == io::ErrorKind::NotFound) {
        fs::metadata(folder(name))?;
        return Ok((name.to_path_buf(), None));
    }
    let place = fs::canonicalize(name)?;
    let metadata = fs::metadata(&place)?;
    if metadata.is_file() || metadata.is_dir() {
        OpenOptions::new().append(true).open(&place)?;
    }
    Ok((place, Some(metadata)))
}

fn replace(place: &Path, old: Option<&Metadata>, bytes: &[u8]) -> io::Result<()> {
    let (beside, file) = create_beside(place)?;
    let done = fill(file, old, bytes).and_then(|()| fs::rename(&beside, place));
    if done.is_err() {
        let _ = fs::remove_file(&beside);
        return done;
    }
    // The new name is there; a folder that cannot be synced takes nothing back.
    let _ = File::open(folder(place)).and_then(|folder| folder.sync_all());
    Ok(())
}

fn folder(place: &Path) -> &Path {
    match place.parent() {
        Some(parent) if parent != Path::new("") => parent,
        _ => Path::new("."),
    }
}

/// A new file in the same folder, whose name shows whose it is.
fn create_beside(place: &Path) -> io::Result<(PathBuf, File)> {
    let name = place.file_name().ok_or(io::ErrorKind::InvalidInput)?;
    let mut number = 0;
    loop {
        let mut beside = OsString::from(".");
        beside.push(name);
        beside.push(format!(".{}-{number}.tmp", process::id()));
        let beside = folder(place).join(beside);
        match File::create_new(&beside) {
            Err(error) if error.kind() == io::ErrorKind::AlreadyExists && number < 100 => number += 1,
            created => return created.map(|file| (beside, file)),
        }
    }
}

fn fill(mut file: File, old: Option<&Metadata>, bytes: &[u8]) -> io::Result<()> {
    file.write_all(bytes)?;
    if let Some(old) = old {
        file.set_permissions(old.permissions())?;
    }
    file.sync_all()
}

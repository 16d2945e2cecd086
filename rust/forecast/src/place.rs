//! Files that are written whole or not at all.
//!
//! A file is written beside its place, flushed to disk and renamed. Who reads sees
//! the old one or the new one; a full disk, or a run that is killed, keeps the old
//! one.

use std::fs::{self, File, Metadata, OpenOptions};
use std::io::{self, Seek, Write};
use std::os::unix::fs::{FileTypeExt, MetadataExt};
use std::path::{Path, PathBuf};
use std::process;

use crate::failure::Failure;

/// Where a file will stand. What is no plain file, such as a pipe or a device, is
/// written as it is.
pub struct Place {
    path: PathBuf,
    file: File,
    /// The file beside the place, until it is put there.
    beside: Option<PathBuf>,
}

impl Place {
    /// Makes the file beside the place, so that a folder that cannot be written is
    /// found before the work is done.
    pub fn new(path: &Path) -> Result<Self, Failure> {
        // A name that is too long, or links that go round, are told at once.
        if let Err(error) = fs::metadata(path) {
            if error.kind() != io::ErrorKind::NotFound {
                return Err(Failure::file(path, error));
            }
        }
        if takes_what_is_said(path) {
            return Err(Failure::file(path, "standard output goes there"));
        }
        let place = if is_plain(path) {
            Place::beside(path)
        } else {
            Place::as_it_is(path)
        };
        place.map_err(|error| Failure::file(path, error))
    }

    fn as_it_is(path: &Path) -> io::Result<Self> {
        Ok(Place {
            path: path.to_owned(),
            file: OpenOptions::new().append(true).open(path)?,
            beside: None,
        })
    }

    fn beside(path: &Path) -> io::Result<Self> {
        let path = resolved(path)?;
        let old = fs::metadata(&path).ok();
        if old.is_some() {
            // Renaming would go over a file that may not be written.
            OpenOptions::new().append(true).open(&path)?;
        }
        let (beside, file) = create_beside(&path)?;
        let place = Place {
            path,
            file,
            beside: Some(beside),
        };
        if let Some(old) = old {
            may_replace(&old, &place)?;
            place.file.set_permissions(old.permissions())?;
        }
        Ok(place)
    }

    /// Whether the file that will stand here is another than that of these paths, which
    /// the same command reads or writes.
    pub fn apart_from(&self, others: &[&Path]) -> Result<(), Failure> {
        let own = self.beside.is_some();
        let named = |other: &Path| match other.to_str() {
            Some("-") => resolved(Path::new("/dev/stdin")),
            _ => resolved(other),
        };
        let same = |other: &&&Path| own && named(other).is_ok_and(|other| other == self.path);
        match others.iter().find(same) {
            Some(_) => {
                let words = "the same command reads or writes this file already";
                Err(Failure::file(&self.path, words))
            }
            None => Ok(()),
        }
    }

    /// The path, with links followed.
    pub fn path(&self) -> &Path {
        &self.path
    }

    /// Takes so much room on the disk, where the length is known before the work
    /// is done: a disk that is full is found then and not after.
    pub fn reserve(&mut self, length: usize) -> Result<(), Failure> {
        if self.beside.is_none() {
            return Ok(());
        }
        let taken = self
            .file
            .write_all(&vec![0; length])
            .and_then(|()| self.file.sync_all())
            .and_then(|()| self.file.rewind());
        self.told(taken)
    }

    /// Writes the next bytes.
    pub fn write(&mut self, bytes: &[u8]) -> Result<(), Failure> {
        let written = self.file.write_all(bytes);
        self.told(written)
    }

    /// Flushes what was written to the disk. What was reserved past it goes.
    fn settle(&mut self) -> Result<(), Failure> {
        if self.beside.is_none() {
            return Ok(());
        }
        let end = self.file.stream_position();
        let settled = end
            .and_then(|end| self.file.set_len(end))
            .and_then(|()| self.file.sync_all());
        self.told(settled)
    }

    /// Puts the file in its place.
    fn put(&mut self) -> Result<(), Failure> {
        let Some(beside) = &self.beside else {
            return Ok(());
        };
        let renamed = fs::rename(beside, &self.path);
        self.told(renamed)?;
        self.beside = None;
        // The file is there; that its name is on disk too is asked for, and not
        // every disk can say so.
        if let Some(folder) = self.path.parent() {
            let _ = File::open(folder).and_then(|folder| folder.sync_all());
        }
        Ok(())
    }

    fn told(&self, done: io::Result<()>) -> Result<(), Failure> {
        done.map_err(|error| Failure::file(&self.path, error))
    }
}

/// A file that was not put in its place is gone.
impl Drop for Place {
    fn drop(&mut self) {
        if let Some(beside) = &self.beside {
            let _ = fs::remove_file(beside);
        }
    }
}

/// Puts several files in their places: all are on disk before the first one is
/// renamed.
pub fn put_all(places: &mut [Place]) -> Result<(), Failure> {
    places.iter_mut().try_for_each(Place::settle)?;
    places.iter_mut().try_for_each(Place::put)
}

/// Writes one file.
pub fn write_file(path: &Path, bytes: &[u8]) -> Result<(), Failure> {
    let mut place = Place::new(path)?;
    place.write(bytes)?;
    put_all(&mut [place])
}

/// Whether the file that is there may be renamed over. In a folder for all, as many
/// machines have one for files that do not last, only its owner may, whoever may write
/// to it.
fn may_replace(old: &Metadata, place: &Place) -> io::Result<()> {
    let folder = fs::metadata(place.path.parent().unwrap_or(Path::new(".")))?;
    let me = place.file.metadata()?.uid();
    let sticky = folder.mode() & 0o1000 != 0;
    if sticky && me != 0 && me != old.uid() && me != folder.uid() {
        return Err(io::ErrorKind::PermissionDenied.into());
    }
    Ok(())
}

/// Whether a path is that of the file or pipe that standard output goes to: one of the
/// two would be lost in the other.
fn takes_what_is_said(path: &Path) -> bool {
    let kept = |there: &Metadata| there.is_file() || there.file_type().is_fifo();
    let file = |path: &Path| fs::metadata(path).ok().filter(kept);
    match (file(path), file(Path::new("/dev/stdout"))) {
        (Some(a), Some(b)) => (a.dev(), a.ino()) == (b.dev(), b.ino()),
        _ => false,
    }
}

/// The path of a file, there or not yet, by one spelling. A link stays one: the file
/// that it leads to is meant.
fn resolved(path: &Path) -> io::Result<PathBuf> {
    let mut path = path.to_owned();
    // As many links as a system follows.
    for _ in 0..40 {
        if let Ok(there) = fs::canonicalize(&path) {
            return Ok(there);
        }
        let folder = match path.parent() {
            Some(folder) if folder != Path::new("") => fs::canonicalize(folder)?,
            _ => fs::canonicalize(".")?,
        };
        match fs::read_link(&path) {
            Ok(to) => path = folder.join(to),
            Err(_) => {
                let name = path.file_name().ok_or(io::ErrorKind::InvalidInput)?;
                return Ok(folder.join(name));
            }
        }
    }
    Err(io::Error::other("too many links"))
}

/// Whether a path is that of a file, or of none yet. A name of a descriptor is not:
/// what stands behind it is written by others too.
fn is_plain(path: &Path) -> bool {
    let descriptors = ["/dev/fd", "/dev/stdout", "/dev/stderr", "/proc"];
    let descriptor = descriptors.iter().any(|name| path.starts_with(name));
    !descriptor && fs::metadata(path).map_or(true, |there| there.is_file())
}

/// A new file in the folder of a path. Its name is short, whatever the path's, and
/// no other program has it.
fn create_beside(path: &Path) -> io::Result<(PathBuf, File)> {
    let mut number = 0u32;
    loop {
        let name = format!(".forecast-{}-{number}.new", process::id());
        let beside = path.with_file_name(name);
        match OpenOptions::new()
            .write(true)
            .create_new(true)
            .open(&beside)
        {
            Ok(file) => return Ok((beside, file)),
            Err(error) if error.kind() == io::ErrorKind::AlreadyExists => number += 1,
            Err(error) => {
                let words = format!("a file beside it cannot be made: {error}");
                return Err(io::Error::new(error.kind(), words));
            }
        }
    }
}

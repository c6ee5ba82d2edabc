//! Images in files. An image is never half written: the new one is made in a
//! temporary file beside it, synced, and takes its place by a rename. Whoever is
//! about to write holds a lock, so that nobody writes over what another has just
//! written; reading needs none, for there is a whole image at any moment.

use std::ffi::OsString;
use std::fs::{self, File, Metadata, OpenOptions, TryLockError};
use std::io::{self, Read, Write};
use std::os::unix::ffi::OsStrExt;
use std::os::unix::fs::{fchown, MetadataExt};
use std::path::{Path, PathBuf};
use std::thread::sleep;
use std::time::{Duration, Instant};
use val_host::IMAGE_SIZE;

/// How long another `van` may take; each takes some milliseconds.
const PATIENCE: Duration = Duration::from_secs(3);

/// The bytes of a lesson at the most.
const LONGEST_LESSON: usize = 1 << 20;

/// What went wrong with a file, in words.
pub type Failure = String;

fn failure(what: &str, path: &Path) -> impl Fn(io::Error) -> Failure {
    let words = format!("cannot {what} {}", path.display());
    move |error| format!("{words}: {error}")
}

/// The bytes of an image. One byte more than an image has is enough to tell that
/// it is none, however long the file is.
pub fn read(path: &Path) -> Result<Vec<u8>, Failure> {
    read_up_to(IMAGE_SIZE + 1, path).map_err(failure("read", path))
}

/// The text of a lesson, which is no longer than a person can read.
pub fn read_lesson(path: &Path) -> Result<String, Failure> {
    let bytes = read_up_to(LONGEST_LESSON + 1, path).map_err(failure("read", path))?;
    let text = String::from_utf8(bytes).ok().filter(|text| text.len() <= LONGEST_LESSON);
    text.ok_or_else(|| format!("cannot read {}: it is no text, or too long", path.display()))
}

fn read_up_to(length: usize, path: &Path) -> io::Result<Vec<u8>> {
    let mut bytes = Vec::new();
    File::open(path)?.take(length as u64).read_to_end(&mut bytes)?;
    Ok(bytes)
}

/// A place for an image that this program alone writes to, until it is dropped.
pub struct Locked {
    /// As it was named.
    shown: PathBuf,
    image: PathBuf,
    lock: PathBuf,
    /// The system takes the lock away with the program, however that ends.
    _held: File,
}

impl Locked {
    /// An image that is there. Symbolic links are followed, so that a link stays
    /// one and the names of an image have one lock. (A hard link is parted from
    /// its other names by the rename.)
    pub fn existing(path: &Path) -> Result<Self, Failure> {
        let image = fs::canonicalize(path).map_err(failure("read", path))?;
        Self::at(image, path)
    }

    /// A place where nothing is yet.
    pub fn vacant(path: &Path) -> Result<Self, Failure> {
        let name = match path.file_name() {
            Some(name) if !path.as_os_str().as_bytes().ends_with(b"/") => name,
            _ => return Err(format!("cannot write {}: it names no file", path.display())),
        };
        let folder = match path.parent() {
            Some(folder) if folder != Path::new("") => folder,
            _ => Path::new("."),
        };
        let folder = fs::canonicalize(folder).map_err(failure("write", path))?;
        let locked = Self::at(folder.join(name), path)?;
        match fs::symlink_metadata(&locked.image) {
            Ok(_) => Err(format!("cannot write {}: it is there already", path.display())),
            Err(error) if error.kind() == io::ErrorKind::NotFound => Ok(locked),
            Err(error) => Err(failure("write", path)(error)),
        }
    }

    fn at(image: PathBuf, shown: &Path) -> Result<Self, Failure> {
        if is_helper(&image) {
            let words = "van has files of such names for itself";
            return Err(format!("cannot write {}: {words}", shown.display()));
        }
        let lock = beside(&image, LOCK);
        match hold(&lock).map_err(failure("lock", shown))? {
            Some(held) => Ok(Locked { shown: shown.into(), image, lock, _held: held }),
            None => Err(format!("cannot lock {}: another van is writing to it", shown.display())),
        }
    }

    pub fn read(&self) -> Result<Vec<u8>, Failure> {
        read_up_to(IMAGE_SIZE + 1, &self.image).map_err(failure("read", &self.shown))
    }

    /// Puts a new image in the place. Whatever goes wrong, and whenever, there is
    /// the old one or the new one.
    pub fn write(&self, bytes: &[u8]) -> Result<(), Failure> {
        let temporary = beside(&self.image, NEW);
        let written = self.replace(&temporary, bytes);
        if written.is_err() {
            // What is left of it is of no use, and the next one would remove it.
            let _ = fs::remove_file(&temporary);
        }
        written.map_err(failure("write", &self.shown))
    }

    fn replace(&self, temporary: &Path, bytes: &[u8]) -> io::Result<()> {
        remove_if_there(temporary)?;
        let mut file = OpenOptions::new().write(true).create_new(true).open(temporary)?;
        if let Ok(old) = fs::metadata(&self.image) {
            take_after(&file, &self.image, &old)?;
        }
        file.write_all(bytes)?;
        file.sync_all()?;
        // Opened before anything is replaced, and synced after it, so that the
        // rename outlasts a loss of power.
        let folder = File::open(self.image.parent().unwrap_or(Path::new("/")))?;
        fs::rename(temporary, &self.image)?;
        let not_synced = |error| io::Error::other(format!("it is there, but not synced: {error}"));
        folder.sync_all().map_err(not_synced)
    }
}

impl Drop for Locked {
    fn drop(&mut self) {
        // While it is still held: see `hold`.
        let _ = fs::remove_file(&self.lock);
    }
}

/// The lock's file, held; none if another program holds it all the while. Its
/// holder removes the file at the end, so what was locked may be a file that is
/// no longer there: only the one that is counts.
fn hold(lock: &Path) -> io::Result<Option<File>> {
    let end = Instant::now() + PATIENCE;
    while Instant::now() < end {
        if let Some(file) = open_or_create(lock)? {
            match file.try_lock() {
                Ok(()) if is_at(&file, lock)? => return Ok(Some(file)),
                Ok(()) | Err(TryLockError::WouldBlock) => {}
                Err(TryLockError::Error(error)) => return Err(error),
            }
        }
        sleep(Duration::from_millis(2));
    }
    Ok(None)
}

/// It may be another user's: to lock it, reading it is enough. None if it was made
/// between the two.
fn open_or_create(lock: &Path) -> io::Result<Option<File>> {
    let opened = match File::open(lock) {
        Err(error) if error.kind() == io::ErrorKind::NotFound => File::create_new(lock),
        opened => opened,
    };
    match opened {
        Err(error) if error.kind() == io::ErrorKind::AlreadyExists => Ok(None),
        opened => opened.map(Some),
    }
}

/// Gives the new file the old one's permissions and, where the system allows it,
/// owner and group. Whoever may not write to the old one may not replace it.
fn take_after(new: &File, image: &Path, old: &Metadata) -> io::Result<()> {
    if old.permissions().readonly() {
        return Err(io::Error::new(io::ErrorKind::PermissionDenied, "it is read-only"));
    }
    OpenOptions::new().write(true).open(image)?;
    let _ = fchown(new, None, Some(old.gid()));
    let _ = fchown(new, Some(old.uid()), None);
    new.set_permissions(old.permissions())
}

fn is_at(file: &File, path: &Path) -> io::Result<bool> {
    let held = file.metadata()?;
    match fs::metadata(path) {
        Ok(there) => Ok((there.dev(), there.ino()) == (held.dev(), held.ino())),
        Err(error) if error.kind() == io::ErrorKind::NotFound => Ok(false),
        Err(error) => Err(error),
    }
}

fn remove_if_there(path: &Path) -> io::Result<()> {
    match fs::remove_file(path) {
        Err(error) if error.kind() != io::ErrorKind::NotFound => Err(error),
        _ => Ok(()),
    }
}

/// The endings of the files that stand beside an image for a while.
const LOCK: &str = ".van-lock";
const NEW: &str = ".van-new";

fn is_helper(path: &Path) -> bool {
    let name = path.file_name().unwrap_or_default().as_bytes();
    name.starts_with(b".") && [LOCK, NEW].iter().any(|ending| name.ends_with(ending.as_bytes()))
}

/// A hidden file in the same folder, named after the image.
fn beside(image: &Path, ending: &str) -> PathBuf {
    let mut name = OsString::from(".");
    name.push(image.file_name().unwrap_or_default());
    name.push(ending);
    image.with_file_name(name)
}

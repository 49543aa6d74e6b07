//! Files that are replaced as a whole, and a registry on disk (the paper: a book), which is one such file.
//!
//! A file is written beside the old one and then renamed, so that a stop at any moment leaves the old one or the new
//! one. Those who change a registry keep each other waiting by a lock on a file beside it, which the system frees when
//! a process ends, however it ends; those who only read it need none.
use crate::registry::LONGEST_FILE;
use crate::{DamagedRegistry, Registry, StoredRegistry};
use std::ffi::OsString;
use std::fmt;
use std::fs::{self, File, TryLockError};
use std::io::{self, Read, Write};
use std::path::{Path, PathBuf};
use std::sync::atomic::{AtomicU64, Ordering};
use std::thread;
use std::time::{Duration, Instant};

/// Replaces a file by what `write` writes; what is no regular file, as a terminal or `/dev/null`, is written to.
/// `ready` is called when all is written, just before the new file takes the place of the old one.
pub fn replace(
    path: &Path,
    write: impl FnOnce(&mut dyn Write) -> io::Result<()>,
    ready: impl FnOnce() -> io::Result<()>,
) -> io::Result<()> {
    match fs::metadata(path) {
        Ok(found) if !found.is_file() && !found.is_dir() => write(&mut File::options().write(true).open(path)?),
        _ => {
            // no other thread and no other process has this name
            static MADE: AtomicU64 = AtomicU64::new(0);
            let number = MADE.fetch_add(1, Ordering::Relaxed);
            let path = resolved(path);
            let beside = beside(&path, &format!(".{}.{number}.new~", std::process::id()));
            write_and_rename(&path, &beside, write, ready)
        }
    }
}

/// Makes a registry on disk: the new file has its name once it is whole, and was read back as this registry. There must
/// be no such file. `waits` is called as by [`change`].
pub fn make(path: &Path, registry: &Registry, waits: impl FnOnce(&Path)) -> Result<(), Error> {
    let path = resolved(path);
    // before there is a lock beside what may be no registry, and again when nobody else makes one
    still_free(&path)?;
    let _lock = lock(&path, waits)?;
    still_free(&path)?;
    write_registry(&path, registry, |beside| read_back(beside, registry))
}

/// What was written is this registry.
fn read_back(path: &Path, registry: &Registry) -> io::Result<()> {
    match read(path) {
        Ok(read) if read == *registry => Ok(()),
        Ok(_) => Err(io::Error::other("another book is read back than was written")),
        Err(error) => Err(io::Error::other(format!("what was written is not read back: {error}"))),
    }
}

/// There is no such file.
fn still_free(path: &Path) -> io::Result<()> {
    match fs::symlink_metadata(path) {
        Ok(_) => Err(io::Error::new(io::ErrorKind::AlreadyExists, "there is such a file already")),
        Err(_) => Ok(()),
    }
}

/// There is such a file, and no folder or pipe.
fn regular(path: &Path) -> io::Result<()> {
    match fs::metadata(path)?.is_file() {
        true => Ok(()),
        false => Err(io::Error::new(io::ErrorKind::InvalidInput, "not a regular file, as a book is")),
    }
}

/// Reads a registry on disk, of the make that is written.
pub fn read(path: &Path) -> Result<Registry, Error> {
    Ok(Registry::from_bytes(&file_of(path)?)?)
}

/// Reads a registry on disk, of any make up to the one that is written.
pub fn read_any(path: &Path) -> Result<StoredRegistry, Error> {
    Ok(StoredRegistry::from_bytes(&file_of(path)?)?)
}

/// The bytes of the file of a registry. A longer file is none, and is not read to its end.
fn file_of(path: &Path) -> io::Result<Vec<u8>> {
    let mut bytes = Vec::new();
    regular(path)?;
    File::open(path)?.take(LONGEST_FILE + 1).read_to_end(&mut bytes)?;
    Ok(bytes)
}

/// Changes a registry on disk: what `change` answers, once the changed registry is on disk. A registry that it leaves
/// as it was is not written. Another change of the same registry waits until this one is done, so `change` must not
/// begin one itself. `waits` is called with the path of the lock where another has held it for a second; the wait then
/// goes on.
///
/// ```
/// use caplune::{store, Alphabets, Registry, Transducer};
/// # let folder = std::env::temp_dir().join(format!("caplune-doc-{}", std::process::id()));
/// # let _ = std::fs::remove_dir_all(&folder);
/// # std::fs::create_dir_all(&folder)?;
/// let path = folder.join("book");
/// let alphabets = Alphabets::new(&[1, 0], &[2, 0])?;
/// let constant = Transducer::read(&alphabets, &[0, 0, 1, 0, 1])?;
/// let waits = |lock: &std::path::Path| eprintln!("{} is held by another", lock.display());
/// store::make(&path, &Registry::new(&alphabets, 60)?, waits)?;
/// assert_eq!(store::change(&path, waits, |registry| registry.enter(&constant))?, Ok(1));
/// assert_eq!(store::read(&path)?.held(), 1);
/// # std::fs::remove_dir_all(&folder)?;
/// # Ok::<(), Box<dyn std::error::Error>>(())
/// ```
pub fn change<T>(path: &Path, waits: impl FnOnce(&Path), change: impl FnOnce(&mut Registry) -> T) -> Result<T, Error> {
    let path = resolved(path);
    // where there is no registry, there is to be no lock beside it
    regular(&path)?;
    let _lock = lock(&path, waits)?;
    let old = read(&path)?;
    let mut new = old.clone();
    let answer = change(&mut new);
    if new != old {
        write_registry(&path, &new, |_| Ok(()))?;
    }
    Ok(answer)
}

/// Replaces the file of a registry, whose lock is held. What an earlier stop left beside it goes. `ready` is called with
/// the path of the new file when all is written.
fn write_registry(path: &Path, registry: &Registry, ready: impl FnOnce(&Path) -> io::Result<()>) -> Result<(), Error> {
    let beside = beside(path, ".new~");
    match fs::remove_file(&beside) {
        Err(error) if error.kind() != io::ErrorKind::NotFound => Err(not_made(&beside, error).into()),
        _ => {
            let write = |file: &mut dyn Write| file.write_all(&registry.to_bytes());
            Ok(write_and_rename(path, &beside, write, || ready(&beside))?)
        }
    }
}

/// The file that a path leads to, over links, even if there is none yet: it is replaced, and the links stay.
#[must_use]
pub fn resolved(path: &Path) -> PathBuf {
    let mut path = path.to_path_buf();
    // as many links as systems follow
    for _ in 0..40 {
        if let Ok(found) = fs::canonicalize(&path) {
            return found;
        }
        match fs::read_link(&path) {
            Ok(target) => path = path.parent().unwrap_or(Path::new("")).join(target),
            Err(_) => break,
        }
    }
    path
}

/// The path of a file beside another: this stands behind its name.
#[must_use]
pub fn beside(path: &Path, end: &str) -> PathBuf {
    let mut name = OsString::from(path);
    name.push(end);
    name.into()
}

/// An error that says with which file it has to do.
fn named(path: &Path, error: io::Error) -> io::Error {
    let name = path.file_name().unwrap_or(path.as_os_str()).to_string_lossy().into_owned();
    io::Error::new(error.kind(), format!("{}: {error}", name.escape_debug()))
}

/// The folder of a file.
fn folder_of(path: &Path) -> &Path {
    path.parent().filter(|folder| !folder.as_os_str().is_empty()).unwrap_or(Path::new("."))
}

/// Why a file cannot be made or removed: that its folder is missing or cannot be written, if that is it.
fn not_made(path: &Path, error: io::Error) -> io::Error {
    let folder = folder_of(path);
    let whole = fs::canonicalize(folder).unwrap_or(folder.to_path_buf());
    let shown = whole.to_string_lossy().escape_debug().to_string();
    match error.kind() {
        io::ErrorKind::PermissionDenied | io::ErrorKind::ReadOnlyFilesystem => {
            io::Error::new(error.kind(), format!("the folder {shown} cannot be written: {error}"))
        }
        io::ErrorKind::NotFound if !folder.is_dir() => {
            io::Error::new(error.kind(), format!("there is no folder {shown}"))
        }
        _ => named(path, error),
    }
}

/// How long a lock that another holds is waited for in silence.
const SILENCE: Duration = Duration::from_secs(1);
/// How often it is tried in that time.
const PAUSE: Duration = Duration::from_millis(5);

/// Waits until nobody else changes the registry of this path. The file of the lock stays: if it were removed, one
/// process could hold the removed file and another a new one. One that may not be written is still locked.
fn lock(path: &Path, waits: impl FnOnce(&Path)) -> io::Result<File> {
    let path = beside(path, ".lock");
    let file = File::options().create(true).truncate(false).write(true).open(&path);
    let file = file.or_else(|error| match path.exists() {
        true => File::open(&path).map_err(|error| named(&path, error)),
        false => Err(not_made(&path, error)),
    })?;
    wait_for(&file, || waits(&path)).map_err(|error| named(&path, error))?;
    Ok(file)
}

/// Waits for a lock; `waits` is called where that takes longer than a while.
fn wait_for(file: &File, waits: impl FnOnce()) -> io::Result<()> {
    let begun = Instant::now();
    loop {
        match file.try_lock() {
            Ok(()) => return Ok(()),
            Err(TryLockError::Error(error)) => return Err(error),
            Err(TryLockError::WouldBlock) if begun.elapsed() < SILENCE => thread::sleep(PAUSE),
            Err(TryLockError::WouldBlock) => break,
        }
    }
    waits();
    // the system wakes those who wait from here on
    file.lock()
}

/// Writes `beside`, which there is not yet, calls `ready` and renames it to `path`.
fn write_and_rename(
    path: &Path,
    beside: &Path,
    write: impl FnOnce(&mut dyn Write) -> io::Result<()>,
    ready: impl FnOnce() -> io::Result<()>,
) -> io::Result<()> {
    // opened first, so that nothing has changed where it cannot be
    let folder = File::open(folder_of(path)).map_err(|error| not_made(beside, error))?;
    let mut file =
        File::options().write(true).create_new(true).open(beside).map_err(|error| not_made(beside, error))?;
    let written = write_through(path, &mut file, write).and_then(|()| ready()).and_then(|()| fs::rename(beside, path));
    if let Err(error) = written {
        // what is left of it is of no use, and why is told
        let _ = fs::remove_file(beside);
        return Err(error);
    }
    // the new name, too, is on disk before anything is answered
    folder.sync_all()
}

/// Writes a new file, with the permissions of what is at `path`, and through to the disk.
fn write_through(path: &Path, file: &mut File, write: impl FnOnce(&mut dyn Write) -> io::Result<()>) -> io::Result<()> {
    if let Ok(old) = fs::metadata(path) {
        // the system would let it be replaced, since it asks only who may write in the folder
        if old.is_file() && old.permissions().readonly() {
            return Err(io::Error::new(io::ErrorKind::PermissionDenied, "the file is write-protected"));
        }
        file.set_permissions(old.permissions())?;
    }
    write(file)?;
    file.sync_all()
}

/// Why a registry on disk is not made, read or changed. What is on disk has not changed, unless the disk itself fails
/// when it is told to keep the new name.
#[non_exhaustive]
#[derive(Debug)]
pub enum Error {
    /// The system cannot read or write a file.
    System(io::Error),
    /// The file is not that of a registry, or is one of another make.
    Damaged(DamagedRegistry),
}

impl From<io::Error> for Error {
    fn from(error: io::Error) -> Self {
        Error::System(error)
    }
}

impl From<DamagedRegistry> for Error {
    fn from(damaged: DamagedRegistry) -> Self {
        Error::Damaged(damaged)
    }
}

impl fmt::Display for Error {
    fn fmt(&self, f: &mut fmt::Formatter) -> fmt::Result {
        match self {
            Error::System(error) => error.fmt(f),
            Error::Damaged(damaged) => damaged.fmt(f),
        }
    }
}

impl std::error::Error for Error {
    fn source(&self) -> Option<&(dyn std::error::Error + 'static)> {
        match self {
            Error::System(error) => Some(error),
            Error::Damaged(damaged) => Some(damaged),
        }
    }
}

/// Another file than was written is not renamed.
#[test]
fn read_back_again() {
    let alphabets = crate::Alphabets::new(&[1, 0], &[2, 0]).unwrap();
    let [one, two] = [60, 61].map(|area| Registry::new(&alphabets, area).unwrap());
    let path = std::env::temp_dir().join(format!("caplune-read-back-{}", std::process::id()));
    let mut damaged = one.to_bytes();
    damaged[20] ^= 1;
    for (bytes, is_same) in [(one.to_bytes(), true), (two.to_bytes(), false), (damaged, false), (vec![], false)] {
        let _ = fs::remove_file(&path);
        let made = write_and_rename(
            &path,
            &beside(&path, ".new~"),
            |file| file.write_all(&bytes),
            || read_back(&beside(&path, ".new~"), &one),
        );
        assert_eq!((made.is_ok(), path.exists()), (is_same, is_same));
    }
    fs::remove_file(&path).unwrap_or(());
}

/// A folder that is missing or cannot be written is told by its name, on one line, and any other error by the file's.
#[test]
fn folders_told() {
    let folder = fs::canonicalize(std::env::temp_dir()).unwrap();
    let told = |path: &Path, kind: io::ErrorKind| not_made(path, kind.into()).to_string();
    for kind in [io::ErrorKind::PermissionDenied, io::ErrorKind::ReadOnlyFilesystem] {
        let begun = format!("the folder {} cannot be written: ", folder.display());
        assert!(told(&folder.join("book.lock"), kind).starts_with(&begun));
    }
    assert_eq!(told(Path::new("no\nfolder/book"), io::ErrorKind::NotFound), "there is no folder no\\nfolder");
    for kind in [io::ErrorKind::NotFound, io::ErrorKind::AlreadyExists] {
        assert!(told(&folder.join("book.lock"), kind).starts_with("book.lock: "));
    }
}

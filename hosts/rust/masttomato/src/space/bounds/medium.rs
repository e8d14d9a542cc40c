//! What bounds are written to: a file that is locked, or what a test puts in its place.

use super::BoundsError;
use std::ffi::OsStr;
use std::fs::{self, File, OpenOptions, TryLockError};
use std::io::{self, Read, Seek, SeekFrom, Write};
use std::path::{Path, PathBuf};

/// What bounds are written to, by one life alone.
pub(super) trait Medium: Send {
    /// All of it.
    fn read(&mut self) -> io::Result<Vec<u8>>;

    /// Puts bytes at a place. They may be lost, or some of them, until it was synced.
    fn write_at(&mut self, place: usize, bytes: &[u8]) -> io::Result<()>;

    /// What was written before is on disk when this returns.
    fn sync(&mut self) -> io::Result<()>;

    /// Whether this is still what others find who look for the bounds.
    fn is_in_place(&self) -> io::Result<bool>;
}

/// A file that no other life has open: it is locked until it is closed, by the process or with it.
#[derive(Debug)]
pub(super) struct Locked {
    file: File,
    path: PathBuf,
}

impl Locked {
    /// Opens and locks a file that is there.
    pub(super) fn open(path: &Path) -> Result<Locked, BoundsError> {
        let opened = OpenOptions::new().read(true).write(true).open(path);
        let file = opened.map_err(|error| match error.kind() {
            io::ErrorKind::NotFound => BoundsError::Missing,
            _ => BoundsError::Io(error),
        })?;
        file.try_lock().map_err(|error| match error {
            TryLockError::WouldBlock => BoundsError::InUse,
            TryLockError::Error(error) => BoundsError::Io(error),
        })?;
        Ok(Locked { file, path: path.to_path_buf() })
    }

    /// Makes a file of these bytes where there is none. It is whole from its first moment: it is written under
    /// another name, synced, and only then named so.
    pub(super) fn create(path: &Path, bytes: &[u8]) -> Result<(), BoundsError> {
        if path.try_exists()? {
            return Err(BoundsError::Exists);
        }
        let folder = path.parent().filter(|parent| !parent.as_os_str().is_empty());
        let folder = folder.unwrap_or(Path::new("."));
        let (draft, file) = draft_of(folder, path.file_name().ok_or(BoundsError::Missing)?)?;
        let made = write_whole(file, bytes).and_then(|()| fs::hard_link(&draft, path));
        let _was_there = fs::remove_file(&draft);
        made.map_err(|error| match error.kind() {
            io::ErrorKind::AlreadyExists => BoundsError::Exists,
            _ => BoundsError::Io(error),
        })?;
        Ok(sync_folder(folder)?)
    }
}

// A file beside the one of this name that nobody else has, whoever makes one at once: what it becomes is written by one alone.
fn draft_of(folder: &Path, name: &OsStr) -> io::Result<(PathBuf, File)> {
    let mut number = 0_u32;
    loop {
        let mut draft = name.to_os_string();
        draft.push(format!(".{}-{number}.new", std::process::id()));
        let draft = folder.join(draft);
        match File::create_new(&draft) {
            Err(error) if error.kind() == io::ErrorKind::AlreadyExists => number += 1,
            made => return Ok((draft, made?)),
        }
    }
}

fn write_whole(mut file: File, bytes: &[u8]) -> io::Result<()> {
    file.write_all(bytes)?;
    file.sync_all()
}

// The name of a new file is on disk, too, where a system knows such a thing.
fn sync_folder(folder: &Path) -> io::Result<()> {
    if cfg!(unix) { File::open(folder)?.sync_all() } else { Ok(()) }
}

impl Drop for Locked {
    fn drop(&mut self) {
        // Closing it would do, but where a process is just being started, which has all files until it runs its program.
        let _unlocked = self.file.unlock();
    }
}

impl Medium for Locked {
    fn read(&mut self) -> io::Result<Vec<u8>> {
        let mut bytes = Vec::new();
        self.file.seek(SeekFrom::Start(0))?;
        // More than any such file has is read of none.
        (&self.file).take(1 << 16).read_to_end(&mut bytes)?;
        Ok(bytes)
    }

    fn write_at(&mut self, place: usize, bytes: &[u8]) -> io::Result<()> {
        self.file.seek(SeekFrom::Start(place as u64))?;
        self.file.write_all(bytes)
    }

    fn sync(&mut self) -> io::Result<()> {
        self.file.sync_data()
    }

    #[cfg(unix)]
    fn is_in_place(&self) -> io::Result<bool> {
        use std::os::unix::fs::MetadataExt;
        let name = |data: fs::Metadata| (data.dev(), data.ino());
        match fs::metadata(&self.path) {
            Ok(found) => Ok(name(found) == name(self.file.metadata()?)),
            Err(error) if error.kind() == io::ErrorKind::NotFound => Ok(false),
            Err(error) => Err(error),
        }
    }

    #[cfg(not(unix))]
    fn is_in_place(&self) -> io::Result<bool> {
        self.path.try_exists()
    }
}

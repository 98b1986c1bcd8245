//! Files that end with an image. What precedes the image belongs to others and is kept byte for byte.

use crate::diagnosis::diagnosis;
use keeper::{image_length, Keeper};
use std::fs::{self, File, OpenOptions};
use std::io::{self, ErrorKind, Write};
use std::os::unix::fs::{chown, MetadataExt, OpenOptionsExt};
use std::path::{Path, PathBuf};

/// The bytes before an image, and the keeper of the image.
pub struct Contents {
    pub front: Vec<u8>,
    pub keeper: Keeper,
}

/// What went wrong with a file.
fn trouble(path: &Path, said: impl std::fmt::Display) -> String {
    format!("{}: {said}", path.display())
}

/// The bytes of a file.
pub fn bytes(path: &Path) -> Result<Vec<u8>, String> {
    fs::read(path).map_err(|error| trouble(path, error))
}

/// The contents of a file that ends with an image.
pub fn read(path: &Path) -> Result<Contents, String> {
    let bytes = bytes(path)?;
    let refused = |refusal| trouble(path, diagnosis(&bytes, refusal));
    let length = image_length(&bytes).map_err(refused)?;
    let keeper = Keeper::of_image(&bytes).map_err(refused)?;
    let front = bytes[..bytes.len() - length].to_vec();
    Ok(Contents { front, keeper })
}

/// What is said of a lock that is there.
const LOCKED: &str = "is there: another keeper is changing the file; if none is, one was broken off, and this is to be removed";

/// A file that is going to be replaced. Beside it stands a file `.lock` with the new bytes to be, which keeps others from replacing it meanwhile.
pub struct Replaced {
    path: PathBuf,
    beside: PathBuf,
    file: File,
    done: bool,
}

impl Replaced {
    /// Takes hold of a file that exists.
    pub fn hold(path: &Path) -> Result<Replaced, String> {
        let path = fs::canonicalize(path).map_err(|error| trouble(path, error))?;
        if !path.is_file() {
            return Err(trouble(&path, "not a file that can be replaced"));
        }
        if fs::metadata(&path).is_ok_and(|old| old.permissions().readonly()) {
            return Err(trouble(&path, "is read-only"));
        }
        // What stands in a file is not for others to read before the new one has its mode.
        Replaced::lock(path, 0o600)
    }

    /// Takes hold of a file to be made. It must not be there, before the lock is taken or after.
    pub fn hold_absent(path: &Path) -> Result<Replaced, String> {
        let absent = || match path.symlink_metadata() {
            Ok(_) => Err(trouble(
                path,
                "is there already; --behind puts an image behind its bytes",
            )),
            Err(_) => Ok(()),
        };
        absent()?;
        let held = Replaced::lock(path.to_path_buf(), 0o666)?;
        absent()?;
        Ok(held)
    }

    /// Makes the file `.lock` beside a file.
    fn lock(path: PathBuf, mode: u32) -> Result<Replaced, String> {
        let name = path.file_name();
        let mut name = name
            .ok_or_else(|| trouble(&path, "not the name of a file"))?
            .to_os_string();
        name.push(".lock");
        let beside = path.with_file_name(name);
        let mut options = OpenOptions::new();
        let file = options
            .write(true)
            .create_new(true)
            .mode(mode)
            .open(&beside);
        let file = file.map_err(|error| match error.kind() {
            ErrorKind::AlreadyExists => trouble(&beside, LOCKED),
            ErrorKind::NotFound => trouble(&path, "there is no such folder"),
            _ => trouble(&beside, error),
        })?;
        let done = false;
        Ok(Replaced {
            path,
            beside,
            file,
            done,
        })
    }

    /// Replaces the file by these bytes, whole or not at all; its mode stays, and its owner where that is allowed.
    pub fn replace(mut self, bytes: &[u8]) -> Result<(), String> {
        let written = self
            .write(bytes)
            .and_then(|()| fs::rename(&self.beside, &self.path));
        written.map_err(|error| trouble(&self.path, format!("not written: {error}")))?;
        self.done = true;
        let folder = match self.path.parent() {
            Some(folder) if folder != Path::new("") => folder,
            _ => Path::new("."),
        };
        let synced = File::open(folder).and_then(|folder| folder.sync_all());
        synced.map_err(|error| {
            trouble(
                &self.path,
                format!("written, and its folder not made sure: {error}"),
            )
        })
    }

    /// Writes the bytes beside the file, with its owner and its mode.
    fn write(&mut self, bytes: &[u8]) -> io::Result<()> {
        self.file.write_all(bytes)?;
        if let Ok(old) = fs::metadata(&self.path) {
            let _ = chown(&self.beside, Some(old.uid()), Some(old.gid()));
            self.file.set_permissions(old.permissions())?;
        }
        self.file.sync_all()
    }
}

impl Drop for Replaced {
    fn drop(&mut self) {
        if !self.done {
            let _ = fs::remove_file(&self.beside);
        }
    }
}

//! The files that stores stand in.
use std::error::Error;
use std::fs::{self, File, TryLockError};
use std::io;
use std::os::unix::fs::MetadataExt;
use std::path::Path;

/// Opens a regular file to read it.
pub fn open_to_read(path: &str) -> Result<File, Box<dyn Error>> {
    let file = File::open(path)?;
    refuse_irregular(&file)?;
    Ok(file)
}

/// Opens a regular file to read it and to append to it, with a lock that keeps others from changing it until it is
/// closed. It is made where there is none; then its name is on the disk on return.
pub fn open_to_change(path: &str) -> Result<File, Box<dyn Error>> {
    let is_new = fs::metadata(path).is_err();
    let file = File::options()
        .read(true)
        .append(true)
        .create(true)
        .open(path)?;
    refuse_irregular(&file)?;
    match file.try_lock() {
        Ok(()) => (),
        Err(TryLockError::WouldBlock) => return Err("another program has it locked".into()),
        Err(TryLockError::Error(error)) => return Err(error.into()),
    }
    let (ours, theirs) = (file.metadata()?, fs::metadata(path)?);
    if (ours.dev(), ours.ino()) != (theirs.dev(), theirs.ino()) {
        return Err("it was replaced while it was opened".into());
    }
    if is_new {
        sync_folder(path)?;
    }
    Ok(file)
}

/// Fails where a file is not a regular one.
fn refuse_irregular(file: &File) -> Result<(), Box<dyn Error>> {
    if file.metadata()?.is_file() {
        Ok(())
    } else {
        Err("this is no regular file".into())
    }
}

/// Brings the names in the folder of this file to the disk.
fn sync_folder(path: &str) -> io::Result<()> {
    let folder = Path::new(path)
        .parent()
        .filter(|folder| !folder.as_os_str().is_empty());
    File::open(folder.unwrap_or(Path::new(".")))?.sync_all()
}

//! Writing a file so that it is there whole, or as it was before.

use std::fs::{self, File, OpenOptions, Permissions};
use std::io::{self, ErrorKind, Write};
use std::path::{Path, PathBuf};
use std::process;

/// Puts bytes into a file, which is made or replaced: they are written to a new file beside it, which then takes its name. After an
/// error the file is as it was. A link is followed, and the permissions of a file that is there stay.
///
/// # Errors
///
/// Fails with the system's reason, and where there is something else than a file: a device or a pipe would be lost.
pub fn replace(path: &Path, bytes: &[u8]) -> io::Result<()> {
    let (path, permissions) = found(path)?;
    let (beside, file) = new_beside(&path)?;
    let done = fill(file, bytes, permissions).and_then(|()| fs::rename(&beside, &path));
    if done.is_err() {
        // Where it cannot be removed, the reason why it was not filled says more.
        let _ = fs::remove_file(&beside);
    }
    done
}

/// What links lead to, with its permissions where it is there. It has to be a file that can be written to.
fn found(path: &Path) -> io::Result<(PathBuf, Option<Permissions>)> {
    let metadata = match fs::metadata(path) {
        Ok(metadata) => metadata,
        Err(error) if error.kind() == ErrorKind::NotFound && !path.is_symlink() => {
            return Ok((path.to_path_buf(), None));
        }
        Err(error) => return Err(error),
    };
    if !metadata.is_file() && !metadata.is_dir() {
        return Err(io::Error::other("it is there and is no file"));
    }
    OpenOptions::new().write(true).open(path)?;
    Ok((fs::canonicalize(path)?, Some(metadata.permissions())))
}

/// A new file in the folder of another, with a name that is free.
fn new_beside(path: &Path) -> io::Result<(PathBuf, File)> {
    let names = (0..).map(|number| path.with_file_name(format!(".swarmbanner-{}-{number}", process::id())));
    for beside in names {
        match OpenOptions::new().write(true).create_new(true).open(&beside) {
            Err(error) if error.kind() == ErrorKind::AlreadyExists => {}
            opened => return opened.map(|file| (beside, file)),
        }
    }
    unreachable!("there are more numbers than files")
}

fn fill(mut file: File, bytes: &[u8], permissions: Option<Permissions>) -> io::Result<()> {
    permissions.map_or(Ok(()), |permissions| file.set_permissions(permissions))?;
    file.write_all(bytes)?;
    file.sync_all()
}

//! Writes a file whole or not at all.
use std::fs::{self, File, Permissions};
use std::io::{self, ErrorKind, Write};
use std::path::{Path, PathBuf};
use std::process;

/// Puts bytes into a file. They are written beside it and take its place once all of them are there: where writing
/// fails, the file is what it was. A device or a pipe is written straight.
pub fn put(path: &Path, bytes: &[u8]) -> io::Result<()> {
    let Some(place) = replaceable(path) else {
        return fs::write(path, bytes);
    };
    let permissions = permissions(&place)?;
    let (draft, file) = beside(&place)?;
    let written = fill(file, bytes, permissions).and_then(|()| fs::rename(&draft, &place));
    if written.is_err() {
        let _ = fs::remove_file(&draft);
    }
    written
}

/// The most links that are followed, one to the next.
const MOST_LINKS: usize = 40;

/// The regular file or the free name that a path stands for, behind its links; none for a device, a pipe and the like.
fn replaceable(path: &Path) -> Option<PathBuf> {
    let mut place = path.to_path_buf();
    for _ in 0..MOST_LINKS {
        match fs::symlink_metadata(&place) {
            Ok(found) if found.is_symlink() => place = behind(&place)?,
            Ok(found) => return found.is_file().then_some(place),
            Err(error) => return (error.kind() == ErrorKind::NotFound).then_some(place),
        }
    }
    None
}

/// What a link names; nothing for the links by which the system names files that are open, as standard output.
fn behind(link: &Path) -> Option<PathBuf> {
    let folder = fs::canonicalize(folder(link)).ok()?;
    let name = fs::read_link(link).ok()?;
    (!folder.starts_with("/proc")).then(|| folder.join(name))
}

/// The folder of a file.
fn folder(file: &Path) -> &Path {
    file.parent().filter(|folder| !folder.as_os_str().is_empty()).unwrap_or(Path::new("."))
}

/// The permissions of the file that is there, if one is; an error if it may not be written.
fn permissions(place: &Path) -> io::Result<Option<Permissions>> {
    match File::options().write(true).open(place) {
        Ok(old) => old.metadata().map(|found| Some(found.permissions())),
        Err(error) if error.kind() == ErrorKind::NotFound => Ok(None),
        Err(error) => Err(error),
    }
}

/// The most names that are tried for a new file.
const MOST_NAMES: usize = 100;

/// A new file in the folder of another, by a name of its own.
fn beside(place: &Path) -> io::Result<(PathBuf, File)> {
    let mut tried = 0;
    loop {
        let draft = folder(place).join(format!(".cuckoosilver-{}-{tried}", process::id()));
        tried += 1;
        match File::create_new(&draft) {
            Err(error) if error.kind() == ErrorKind::AlreadyExists && tried < MOST_NAMES => {}
            made => return made.map(|file| (draft, file)),
        }
    }
}

/// Writes all bytes of a new file, and gives it the permissions of the one before it.
fn fill(mut file: File, bytes: &[u8], permissions: Option<Permissions>) -> io::Result<()> {
    file.write_all(bytes)?;
    file.flush()?;
    permissions.map_or(Ok(()), |permissions| file.set_permissions(permissions))
}

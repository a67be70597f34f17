//! A file is written beside its place and then takes it, so that an older one
//! there stays whole until the new one is.

use super::interrupt::Watch;
use std::ffi::{OsStr, OsString};
use std::fs::{self, File, OpenOptions};
use std::io::{self, Write};
use std::path::{Path, PathBuf};

/// Bytes between two looks for an interrupt.
const PIECE: usize = 1 << 20;
/// As many links as the system itself follows.
const MOST_LINKS: usize = 40;

/// Writes a file anew. A device or a pipe keeps nothing, and is written to
/// directly.
pub fn write(name: &OsStr, bytes: &[u8]) -> io::Result<()> {
    match fs::metadata(name) {
        Ok(data) if data.is_file() => {
            // One that may not be written to may not be replaced either.
            OpenOptions::new().write(true).open(name)?;
            replace(&fs::canonicalize(name)?, bytes, Some(data.permissions()))
        }
        Ok(_) => fs::write(name, bytes),
        Err(error) if error.kind() == io::ErrorKind::NotFound => {
            replace(&followed(name)?, bytes, None)
        }
        Err(error) => Err(error),
    }
}

/// Where links lead at whose end there is nothing yet.
fn followed(name: &OsStr) -> io::Result<PathBuf> {
    let mut place = PathBuf::from(name);
    for _ in 0..MOST_LINKS {
        match fs::read_link(&place) {
            Ok(target) => place = place.parent().unwrap_or(Path::new("")).join(target),
            Err(_) => return Ok(place),
        }
    }
    Err(io::Error::other("too many links"))
}

fn replace(place: &Path, bytes: &[u8], mode: Option<fs::Permissions>) -> io::Result<()> {
    let watch = Watch::new();
    let (beside, file) = create_beside(place)?;
    let replaced = fill(file, bytes, mode, &watch).and_then(|()| fs::rename(&beside, place));
    if replaced.is_err() {
        // The first error is the one to tell of.
        let _ = fs::remove_file(&beside);
    }
    watch.end();
    replaced
}

/// A new file in the same folder, since only there can it take the place.
fn create_beside(place: &Path) -> io::Result<(PathBuf, File)> {
    let name = place.file_name().ok_or_else(|| io::Error::other("is a folder"))?;
    for number in 0.. {
        let mut hidden = OsString::from(".");
        hidden.push(name);
        hidden.push(format!(".{}-{number}", std::process::id()));
        let beside = place.with_file_name(hidden);
        match OpenOptions::new().write(true).create_new(true).open(&beside) {
            Err(error) if error.kind() == io::ErrorKind::AlreadyExists => {}
            created => return created.map(|file| (beside, file)),
        }
    }
    unreachable!("numbers do not end")
}

fn fill(
    mut file: File,
    bytes: &[u8],
    mode: Option<fs::Permissions>,
    watch: &Watch,
) -> io::Result<()> {
    if let Some(mode) = mode {
        file.set_permissions(mode)?;
    }
    for piece in bytes.chunks(PIECE) {
        watch.look()?;
        file.write_all(piece)?;
    }
    // Some systems find out only here that there is no room.
    file.sync_data()?;
    watch.look()
}

#[cfg(test)]
mod tests {
    use super::*;
    use std::process::Command;

    /// Watches share the signals of the process, so there is one test of both.
    #[test]
    fn an_interrupt_leaves_the_old_file() {
        let folder = std::env::temp_dir().join(format!("hivesaddle-beside-{}", std::process::id()));
        fs::create_dir_all(&folder).unwrap();
        let place = folder.join("out");
        write(place.as_os_str(), b"old").unwrap();

        let watch = Watch::new();
        let (beside, file) = create_beside(&place).unwrap();
        assert!(watch.look().is_ok());
        let id = std::process::id().to_string();
        // No INT: a shell's background processes ignore it.
        assert!(Command::new("kill").args(["-s", "TERM", &id]).status().unwrap().success());
        // It may come a little later.
        let is_seen = (0..10_000).any(|_| {
            std::thread::sleep(std::time::Duration::from_millis(1));
            watch.look().is_err()
        });
        assert!(is_seen && fill(file, b"new", None, &watch).is_err());
        fs::remove_file(beside).unwrap();
        watch.forget();
        watch.end();

        assert_eq!(fs::read(&place).unwrap(), b"old");
        write(place.as_os_str(), b"newer").unwrap();
        assert_eq!(fs::read(&place).unwrap(), b"newer");
        assert_eq!(fs::read_dir(&folder).unwrap().count(), 1);
        fs::remove_dir_all(&folder).unwrap();
    }
}
